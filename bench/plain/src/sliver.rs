//! Viewports and their slivers.

use crate::geometry::{sum, Bounds, Offset, Size};
use crate::layout::Layout;
use crate::widget::*;

#[derive(Clone, Copy)]
struct SliverBounds {
    axis: Axis,
    offset: u64,
    remaining: u64,
    cross: u64,
}

#[derive(Clone, Copy, Default)]
struct Geometry {
    scroll: u64,
    paint: u64,
}

impl SliverBounds {
    /// How much of a range paints.
    fn painted(self, from: u64, to: u64) -> u64 {
        let seen = |x: u64| x.clamp(self.offset, self.offset + self.remaining);
        (seen(to) - seen(from)).min(self.remaining)
    }
}

impl Layout<'_> {
    pub fn viewport(&mut self, i: usize, b: Bounds, axis: Axis) -> Size {
        let side = |min, max| if max == UNBOUNDED { min } else { max };
        let size = Size { w: side(b.min_w, b.max_w), h: side(b.min_h, b.max_h) };
        let stored = self.nodes[i].scroll;
        let total = self.slivers(i, axis, size, stored);
        let corrected = stored.min(total.saturating_sub(size.main(axis)));
        if corrected != stored {
            self.slivers(i, axis, size, corrected);
        }
        self.laid[i].unbounded = b.max_w == UNBOUNDED || b.max_h == UNBOUNDED;
        self.laid[i].scroll = corrected;
        size
    }

    /// Lays the slivers out at an offset and gives the sum of their scroll extents.
    fn slivers(&mut self, i: usize, axis: Axis, size: Size, offset: u64) -> u64 {
        let nodes = self.nodes;
        let mut total = 0;
        let mut left = offset;
        let mut at = 0;
        for c in &nodes[i].children {
            let remaining = size.main(axis).saturating_sub(at);
            let b = SliverBounds { axis, offset: left, remaining, cross: size.cross(axis) };
            let g = self.lay_sliver(*c, b);
            self.laid[*c].offset = Offset::along(axis, at as i64, 0);
            total = sum(total, g.scroll);
            left = left.saturating_sub(g.scroll);
            at = sum(at, g.paint);
        }
        total
    }

    fn lay_sliver(&mut self, i: usize, b: SliverBounds) -> Geometry {
        let nodes = self.nodes;
        let g = match &nodes[i].widget.kind {
            Kind::SliverToBox => self.sliver_to_box(i, b),
            Kind::SliverPadding(insets) => self.sliver_padding(i, b, *insets),
            Kind::SliverFixed { extent } => self.sliver_fixed(i, b, *extent),
            other => panic!("no sliver: {other:?}"),
        };
        self.laid[i].paint = Some(g.paint);
        self.laid[i].size = Size::along(b.axis, g.paint, b.cross);
        g
    }

    fn sliver_to_box(&mut self, i: usize, b: SliverBounds) -> Geometry {
        let Some(c) = self.child(i) else { return Geometry::default() };
        let size = self.lay_box(c, Bounds::along(b.axis, (0, UNBOUNDED), (b.cross, b.cross)));
        self.laid[c].offset = Offset::along(b.axis, -(b.offset as i64), 0);
        let extent = size.main(b.axis);
        Geometry { scroll: extent, paint: b.painted(0, extent) }
    }

    fn sliver_padding(&mut self, i: usize, b: SliverBounds, insets: Insets) -> Geometry {
        let (p, q, lead, trail) = match b.axis {
            Axis::Horizontal => (insets.left, insets.right, insets.top, insets.bottom),
            Axis::Vertical => (insets.top, insets.bottom, insets.left, insets.right),
        };
        let before = b.painted(0, p);
        let Some(c) = self.child(i) else {
            return Geometry { scroll: sum(p, q), paint: b.painted(0, sum(p, q)) };
        };
        let inner = SliverBounds {
            axis: b.axis,
            offset: b.offset.saturating_sub(p),
            remaining: b.remaining - before,
            cross: b.cross.saturating_sub(sum(lead, trail)),
        };
        let g = self.lay_sliver(c, inner);
        self.laid[c].offset = Offset::along(b.axis, before as i64, lead as i64);
        let (end, all) = (sum(p, g.scroll), sum(sum(p, q), g.scroll));
        let paint = before + g.paint + b.painted(end, all);
        Geometry { scroll: all, paint: paint.min(b.remaining) }
    }

    fn sliver_fixed(&mut self, i: usize, b: SliverBounds, extent: u64) -> Geometry {
        let nodes = self.nodes;
        let children = &nodes[i].children;
        let (first, end) = window(b, extent, children.len() as u64);
        for (k, c) in children.iter().enumerate() {
            let k = k as u64;
            self.laid[*c].shown = first <= k && k < end;
            if first <= k && k < end {
                self.lay_box(*c, Bounds::tight(Size::along(b.axis, extent, b.cross)));
                let at = (k * extent).min(LENGTH_MAX) as i64 - b.offset as i64;
                self.laid[*c].offset = Offset::along(b.axis, at, 0);
            }
        }
        let scroll = (children.len() as u64 * extent).min(LENGTH_MAX);
        Geometry { scroll, paint: b.painted(0, scroll) }
    }
}

/// The children of a list that are seen: the first, and the one after the last.
fn window(b: SliverBounds, extent: u64, count: u64) -> (u64, u64) {
    if b.remaining == 0 || count == 0 {
        return (0, 0);
    }
    let first = b.offset / extent;
    let last = (b.offset + b.remaining).div_ceil(extent).saturating_sub(1).min(count - 1);
    if first > last {
        (0, 0)
    } else {
        (first, last + 1)
    }
}
