//! Which nodes a point hits, the deepest first.

use crate::geometry::Offset;
use crate::render::{Laid, RenderNode};
use crate::widget::{Behavior, Kind};

/// The places of the nodes that are hit.
pub fn path(nodes: &[RenderNode], laid: &[Laid], x: i64, y: i64) -> Vec<usize> {
    let mut out = Vec::new();
    if !nodes.is_empty() {
        hit(nodes, laid, 0, Offset { x, y }, &mut out);
    }
    out
}

fn hit(nodes: &[RenderNode], laid: &[Laid], i: usize, at: Offset, out: &mut Vec<usize>) -> bool {
    let node = &nodes[i];
    let size = laid[i].size;
    let kind = &node.widget.kind;
    if matches!(kind, Kind::IgnorePointer { on: true } | Kind::Offstage { on: true }) || !laid[i].is_visible() {
        return false;
    }
    if at.x < 0 || at.y < 0 || at.x >= size.w as i64 || at.y >= size.h as i64 {
        return false;
    }
    if matches!(kind, Kind::AbsorbPointer { on: true }) {
        return true;
    }
    let below = node.children.iter().rev().any(|c| {
        let o = laid[*c].offset;
        hit(nodes, laid, *c, Offset { x: at.x - o.x, y: at.y - o.y }, out)
    });
    let itself = match kind {
        Kind::Text { .. } | Kind::ColoredBox { .. } => true,
        Kind::CustomPaint { .. } => laid[i].delegate,
        Kind::Detector { behavior: Behavior::Translucent, .. } => {
            out.push(i);
            return below;
        }
        Kind::Detector { behavior, .. } => *behavior == Behavior::Opaque,
        _ => false,
    };
    if below || itself {
        out.push(i);
    }
    below || itself
}
