//! Layout of boxes: a full walk with bounds going down and sizes coming up.

use crate::delegates::{Delegate, Delegates};
use crate::geometry::{align_at, sum, Bounds, Offset, Size};
use crate::render::{Laid, RenderNode};
use crate::text;
use crate::widget::*;

pub struct Layout<'a> {
    pub nodes: &'a [RenderNode],
    pub delegates: &'a Delegates,
    pub laid: Vec<Laid>,
    /// How many u of version 1 a u of this version is the part of.
    pub scale: u64,
}

pub fn lay(nodes: &[RenderNode], view: Size, delegates: &Delegates, scale: u64) -> Vec<Laid> {
    let laid = nodes.iter().map(|_| Laid::new()).collect();
    let mut layout = Layout { nodes, delegates, laid, scale };
    if !nodes.is_empty() {
        layout.lay_box(0, Bounds::tight(view));
    }
    layout.laid
}

impl<'a> Layout<'a> {
    pub fn delegate(&self, name: &str) -> Option<&'a dyn Delegate> {
        self.delegates.get(name).map(|d| d.as_ref())
    }

    pub fn child(&self, i: usize) -> Option<usize> {
        self.nodes[i].children.first().copied()
    }

    pub fn lay_box(&mut self, i: usize, b: Bounds) -> Size {
        let size = self.size_of(i, b);
        self.laid[i].size = size;
        size
    }

    /// Lays the child out, if there is one, with its offset (0, 0).
    fn proxy(&mut self, i: usize, b: Bounds) -> Size {
        match self.child(i) {
            Some(c) => self.lay_box(c, b),
            None => b.smallest(),
        }
    }

    fn size_of(&mut self, i: usize, b: Bounds) -> Size {
        let nodes = self.nodes;
        match &nodes[i].widget.kind {
            Kind::Sized { min_w, max_w, min_h, max_h, .. } => {
                let own = Bounds { min_w: *min_w, max_w: *max_w, min_h: *min_h, max_h: *max_h };
                self.proxy(i, own.enforce(b))
            }
            Kind::Padding(insets) => self.padding(i, b, *insets),
            Kind::Align { ax, ay } => self.align(i, b, *ax, *ay),
            Kind::Text { text, .. } => self.text(i, b, text),
            Kind::Flex { axis, main, cross, min } => self.flex(i, b, *axis, *main, *cross, *min),
            Kind::Stack { ax, ay, fit } => self.stack(i, b, *ax, *ay, *fit),
            Kind::Offstage { on: true } => {
                self.proxy(i, b);
                b.smallest()
            }
            Kind::IntrinsicWidth if b.min_w != b.max_w => {
                let w = self.child(i).map_or(0, |c| self.max_w(c, b.max_h));
                self.proxy(i, b.tighten_width(w))
            }
            Kind::IntrinsicHeight if b.min_h != b.max_h => {
                let h = self.child(i).map_or(0, |c| self.max_h(c, b.max_w));
                self.proxy(i, b.tighten_height(h))
            }
            Kind::CustomPaint { delegate } => {
                let delegate = self.delegate(delegate);
                self.laid[i].delegate = delegate.is_some();
                match (self.child(i), delegate) {
                    (None, Some(d)) => b.constrain(d.own_size(b)),
                    _ => self.proxy(i, b),
                }
            }
            Kind::CustomLayout { delegate } => match self.delegate(delegate) {
                Some(d) => self.custom(i, b, d),
                None => self.proxy(i, b),
            },
            Kind::Viewport { axis } => self.viewport(i, b, *axis),
            _ => self.proxy(i, b),
        }
    }

    fn padding(&mut self, i: usize, b: Bounds, insets: Insets) -> Size {
        let mut inner = Size::default();
        if let Some(c) = self.child(i) {
            inner = self.lay_box(c, b.deflate(insets));
            self.laid[c].offset = Offset { x: insets.left as i64, y: insets.top as i64 };
        }
        let w = sum(inner.w, sum(insets.left, insets.right));
        b.constrain(Size { w, h: sum(inner.h, sum(insets.top, insets.bottom)) })
    }

    fn align(&mut self, i: usize, b: Bounds, ax: i64, ay: i64) -> Size {
        let child = self.child(i);
        let inner = child.map_or(Size::default(), |c| self.lay_box(c, b.loosen()));
        let side = |max, inner| if max == UNBOUNDED { inner } else { max };
        let size = b.constrain(Size { w: side(b.max_w, inner.w), h: side(b.max_h, inner.h) });
        if let Some(c) = child {
            self.laid[c].offset = Offset { x: align_at(size.w, inner.w, ax), y: align_at(size.h, inner.h, ay) };
        }
        size
    }

    fn text(&mut self, i: usize, b: Bounds, text: &str) -> Size {
        let limit = if b.max_w == UNBOUNDED { None } else { Some(b.max_w / (512 * self.scale)) };
        let lines = text::wrap(text, limit);
        let w = 512 * self.scale * text::widest(&lines);
        let size = Size { w, h: 1024 * self.scale * lines.len() as u64 };
        self.laid[i].lines = lines;
        b.constrain(size)
    }

    fn custom(&mut self, i: usize, b: Bounds, d: &dyn Delegate) -> Size {
        self.laid[i].delegate = true;
        let size = b.constrain(d.own_size(b));
        if let Some(c) = self.child(i) {
            let inner = self.lay_box(c, d.child_bounds(b));
            let at = d.place(size, inner);
            let most = LENGTH_MAX as i64;
            self.laid[c].offset = Offset { x: at.x.clamp(-most, most), y: at.y.clamp(-most, most) };
        }
        size
    }

    fn flex(&mut self, i: usize, b: Bounds, axis: Axis, main: MainAlign, cross: CrossAlign, min: bool) -> Size {
        let nodes = self.nodes;
        let children = &nodes[i].children;
        let (max_main, max_cross) = (b.max_along(axis), b.max_across(axis));
        let across = match cross {
            CrossAlign::Stretch if max_cross != UNBOUNDED => (max_cross, max_cross),
            _ => (0, max_cross),
        };
        let bounded = max_main != UNBOUNDED;
        let total: u64 = children.iter().map(|c| nodes[*c].flex).sum();
        let mut allocated = 0;
        for c in children {
            if nodes[*c].flex == 0 || !bounded {
                let inner = self.lay_box(*c, Bounds::along(axis, (0, UNBOUNDED), across));
                allocated = sum(allocated, inner.main(axis));
            }
        }
        if bounded && total > 0 {
            let free = max_main.saturating_sub(allocated);
            allocated = sum(allocated, self.lay_shares(children, axis, across, free, total));
        }
        let wide = children.iter().map(|c| self.laid[*c].size.cross(axis)).max().unwrap_or(0);
        let long = if bounded && !min { max_main } else { allocated };
        let size = b.constrain(Size::along(axis, long, wide));
        self.laid[i].unbounded = !bounded && total > 0;
        self.laid[i].overflow = allocated.saturating_sub(size.main(axis));
        let rest = size.main(axis).saturating_sub(allocated);
        self.place_children(children, axis, gaps(main, rest, children.len() as u64), cross, size.cross(axis));
        size
    }

    /// Lays out the children with a factor and gives the sum of their extents.
    fn lay_shares(&mut self, children: &[usize], axis: Axis, across: (u64, u64), free: u64, total: u64) -> u64 {
        let share = |before: u64| (free as u128 * before as u128 / total as u128) as u64;
        let mut before = 0;
        let mut taken = 0;
        for c in children {
            let flex = self.nodes[*c].flex;
            if flex > 0 {
                let extent = share(before + flex) - share(before);
                before += flex;
                let least = if self.nodes[*c].tight { extent } else { 0 };
                let inner = self.lay_box(*c, Bounds::along(axis, (least, extent), across));
                taken = sum(taken, inner.main(axis));
            }
        }
        taken
    }

    fn place_children(&mut self, children: &[usize], axis: Axis, gaps: (u64, u64), cross: CrossAlign, wide: u64) {
        let mut at = gaps.0.min(LENGTH_MAX);
        for c in children {
            let inner = self.laid[*c].size;
            let rest = wide as i64 - inner.cross(axis) as i64;
            let across = match cross {
                CrossAlign::Start | CrossAlign::Stretch => 0,
                CrossAlign::End => rest,
                CrossAlign::Center => rest.div_euclid(2),
            };
            self.laid[*c].offset = Offset::along(axis, at as i64, across);
            at = sum(at, sum(inner.main(axis), gaps.1));
        }
    }

    fn stack(&mut self, i: usize, b: Bounds, ax: i64, ay: i64, fit: Fit) -> Size {
        let nodes = self.nodes;
        let children = &nodes[i].children;
        let side = |max| if max == UNBOUNDED { (0, max) } else { (max, max) };
        let free_bounds = match fit {
            Fit::Loose => b.loosen(),
            Fit::Passthrough => b,
            Fit::Expand => Bounds::along(Axis::Horizontal, side(b.max_w), side(b.max_h)),
        };
        let mut size = b.smallest();
        let mut any = false;
        for c in children.iter().filter(|c| placed(&nodes[**c]).is_none()) {
            let inner = self.lay_box(*c, free_bounds);
            size = Size { w: size.w.max(inner.w), h: size.h.max(inner.h) };
            any = true;
        }
        if !any && b.max_w != UNBOUNDED && b.max_h != UNBOUNDED {
            size = Size { w: b.max_w, h: b.max_h };
        }
        for c in children {
            let at = match placed(&nodes[*c]) {
                Some(p) => {
                    let w = placed_side(p.left, p.right, p.width, size.w);
                    let h = placed_side(p.top, p.bottom, p.height, size.h);
                    let inner = self.lay_box(*c, Bounds::along(Axis::Horizontal, w, h));
                    Offset {
                        x: placed_at(p.left, p.right, size.w, inner.w, ax),
                        y: placed_at(p.top, p.bottom, size.h, inner.h, ay),
                    }
                }
                None => {
                    let inner = self.laid[*c].size;
                    Offset { x: align_at(size.w, inner.w, ax), y: align_at(size.h, inner.h, ay) }
                }
            };
            self.laid[*c].offset = at;
        }
        size
    }
}

/// What places a Stack's child, where at least one of the six is given.
pub fn placed(n: &RenderNode) -> Option<&Placed> {
    n.placed.as_deref().filter(|p| {
        p.left.is_some()
            || p.top.is_some()
            || p.right.is_some()
            || p.bottom.is_some()
            || p.width.is_some()
            || p.height.is_some()
    })
}

fn placed_side(before: Option<i64>, after: Option<i64>, extent: Option<u64>, outer: u64) -> (u64, u64) {
    match (before, after, extent) {
        (Some(a), Some(b), _) => {
            let extent = (outer as i64 - a - b).clamp(0, LENGTH_MAX as i64) as u64;
            (extent, extent)
        }
        (_, _, Some(extent)) => (extent, extent),
        _ => (0, UNBOUNDED),
    }
}

fn placed_at(before: Option<i64>, after: Option<i64>, outer: u64, inner: u64, a: i64) -> i64 {
    match (before, after) {
        (Some(at), _) => at,
        (None, Some(after)) => outer as i64 - after - inner as i64,
        (None, None) => align_at(outer, inner, a),
    }
}

/// What stands before the first child, and between two of them.
fn gaps(a: MainAlign, rest: u64, n: u64) -> (u64, u64) {
    if n == 0 {
        return (0, 0);
    }
    match a {
        MainAlign::Start => (0, 0),
        MainAlign::End => (rest, 0),
        MainAlign::Center => (rest / 2, 0),
        MainAlign::Between => (0, if n < 2 { 0 } else { rest / (n - 1) }),
        MainAlign::Around => (rest / n / 2, rest / n),
        MainAlign::Evenly => (rest / (n + 1), rest / (n + 1)),
    }
}
