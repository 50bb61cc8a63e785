//! Painting: the layers of a frame.

use crate::delegates::Delegates;
use crate::geometry::{Offset, Size};
use crate::render::{Laid, RenderNode};
use crate::widget::Kind;
use std::ops::Range;
use std::rc::Rc;

pub enum LayerKind {
    Offset(Offset),
    Opacity(Offset, u8),
    Clip(Offset, Size),
}

pub struct Layer {
    pub kind: LayerKind,
    pub items: Vec<Item>,
}

pub enum Item {
    Rect { at: Offset, size: Size, color: u32 },
    Run { at: Offset, color: u32, text: Rc<str>, part: Range<usize> },
    Layer(Layer),
}

struct Painter<'a> {
    nodes: &'a [RenderNode],
    laid: &'a [Laid],
    delegates: &'a Delegates,
    line_height: i64,
}

pub fn paint(nodes: &[RenderNode], laid: &[Laid], delegates: &Delegates, scale: u64) -> Layer {
    let painter = Painter { nodes, laid, delegates, line_height: 1024 * scale as i64 };
    let mut items = Vec::new();
    if !nodes.is_empty() {
        painter.node(0, Offset::default(), &mut items);
    }
    Layer { kind: LayerKind::Offset(Offset::default()), items }
}

impl Painter<'_> {
    fn node(&self, i: usize, at: Offset, out: &mut Vec<Item>) {
        let laid = &self.laid[i];
        if !laid.is_visible() {
            return;
        }
        let origin = Offset::default();
        match &self.nodes[i].widget.kind {
            Kind::Offstage { on: true } | Kind::Opacity { alpha: 0 } => (),
            Kind::Opacity { alpha } if *alpha < 255 && self.has_child(i) => {
                self.layer(i, LayerKind::Opacity(at, *alpha), origin, out)
            }
            Kind::RepaintBoundary => self.layer(i, LayerKind::Offset(at), origin, out),
            Kind::ClipRect if self.has_child(i) => self.layer(i, LayerKind::Clip(at, laid.size), at, out),
            Kind::Viewport { .. } => self.layer(i, LayerKind::Clip(at, laid.size), at, out),
            kind => {
                self.records(kind, laid, at, out);
                self.children(i, at, out);
            }
        }
    }

    fn has_child(&self, i: usize) -> bool {
        !self.nodes[i].children.is_empty()
    }

    fn children(&self, i: usize, at: Offset, out: &mut Vec<Item>) {
        for c in &self.nodes[i].children {
            self.node(*c, at.plus(self.laid[*c].offset), out);
        }
    }

    fn layer(&self, i: usize, kind: LayerKind, at: Offset, out: &mut Vec<Item>) {
        let mut items = Vec::new();
        self.children(i, at, &mut items);
        out.push(Item::Layer(Layer { kind, items }));
    }

    fn records(&self, kind: &Kind, laid: &Laid, at: Offset, out: &mut Vec<Item>) {
        match kind {
            Kind::ColoredBox { color } if laid.size.w > 0 && laid.size.h > 0 => {
                out.push(Item::Rect { at, size: laid.size, color: *color });
            }
            Kind::Text { text, color } => {
                for (k, line) in laid.lines.iter().enumerate() {
                    if line.trimmed > line.start {
                        let at = at.plus(Offset { x: 0, y: self.line_height * k as i64 });
                        let part = line.start..line.trimmed;
                        out.push(Item::Run { at, color: *color, text: text.clone(), part });
                    }
                }
            }
            Kind::CustomPaint { delegate } => {
                if let Some(d) = self.delegates.get(&**delegate) {
                    let mut rects = Vec::new();
                    d.paint(laid.size, &mut rects);
                    out.extend(rects.into_iter().map(|r| Item::Rect {
                        at: at.plus(r.at),
                        size: r.size,
                        color: r.color,
                    }));
                }
            }
            _ => (),
        }
    }
}
