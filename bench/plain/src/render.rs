//! The nodes that are laid out and painted, in preorder.

use crate::geometry::{Offset, Size};
use crate::text::Line;
use crate::tree::Tree;
use crate::widget::{Kind, Placed, Widget};
use std::rc::Rc;

pub struct RenderNode {
    pub number: u64,
    /// Where its node stands in the tree.
    pub node: usize,
    pub widget: Rc<Widget>,
    pub scroll: u64,
    pub flex: u64,
    pub tight: bool,
    pub placed: Option<Box<Placed>>,
    pub children: Vec<usize>,
}

/// What layout says of a node.
pub struct Laid {
    pub size: Size,
    pub offset: Offset,
    /// Whether it is in the window of its list.
    pub shown: bool,
    pub overflow: u64,
    pub unbounded: bool,
    pub delegate: bool,
    /// Of a sliver, how much of it paints.
    pub paint: Option<u64>,
    /// Of a Viewport, its offset as corrected.
    pub scroll: u64,
    pub lines: Vec<Line>,
}

impl Laid {
    pub fn new() -> Laid {
        Laid {
            size: Size::default(),
            offset: Offset::default(),
            shown: true,
            overflow: 0,
            unbounded: false,
            delegate: false,
            paint: None,
            scroll: 0,
            lines: Vec::new(),
        }
    }

    /// Whether a box of the list shows it, and a sliver paints.
    pub fn is_visible(&self) -> bool {
        self.shown && self.paint != Some(0)
    }
}

#[derive(Default)]
struct ParentData {
    flex: u64,
    tight: bool,
    placed: Option<Box<Placed>>,
}

pub fn project(tree: &Tree) -> Vec<RenderNode> {
    let mut out = Vec::with_capacity(tree.nodes.len());
    add(tree, 0, ParentData::default(), &mut out);
    out
}

/// Adds the render node at or below a node, and those below it; tells its place, where there is one.
fn add(tree: &Tree, at: usize, data: ParentData, out: &mut Vec<RenderNode>) -> Option<usize> {
    let node = &tree.nodes[at];
    let data = match &node.widget.kind {
        Kind::Use { .. } | Kind::Inherit { .. } | Kind::Keep => data,
        Kind::Flexible { flex, tight } => ParentData { flex: *flex, tight: *tight, ..data },
        Kind::Positioned(placed) => ParentData { placed: Some(Box::new(*placed)), ..data },
        _ => {
            let place = out.len();
            out.push(RenderNode {
                number: node.number,
                node: at,
                widget: node.widget.clone(),
                scroll: node.scroll,
                flex: data.flex,
                tight: data.tight,
                placed: data.placed,
                children: Vec::new(),
            });
            let mut children = Vec::with_capacity(node.children.len());
            for child in &node.children {
                children.extend(add(tree, *child, ParentData::default(), out));
            }
            out[place].children = children;
            return Some(place);
        }
    };
    node.children.first().and_then(|child| add(tree, *child, data, out))
}
