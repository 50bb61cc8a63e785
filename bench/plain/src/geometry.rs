//! Sizes, offsets and bounds, in whole numbers.

use crate::widget::{Axis, Insets, LENGTH_MAX, UNBOUNDED};

/// A sum of offsets stays within this.
const OFFSET_MAX: i64 = 1 << 50;

#[derive(Clone, Copy, Debug, Default, PartialEq, Eq)]
pub struct Size {
    pub w: u64,
    pub h: u64,
}

impl Size {
    pub fn along(axis: Axis, main: u64, cross: u64) -> Size {
        match axis {
            Axis::Horizontal => Size { w: main, h: cross },
            Axis::Vertical => Size { w: cross, h: main },
        }
    }

    pub fn main(self, axis: Axis) -> u64 {
        if axis == Axis::Horizontal {
            self.w
        } else {
            self.h
        }
    }

    pub fn cross(self, axis: Axis) -> u64 {
        if axis == Axis::Horizontal {
            self.h
        } else {
            self.w
        }
    }
}

#[derive(Clone, Copy, Debug, Default, PartialEq, Eq)]
pub struct Offset {
    pub x: i64,
    pub y: i64,
}

impl Offset {
    pub fn along(axis: Axis, main: i64, cross: i64) -> Offset {
        match axis {
            Axis::Horizontal => Offset { x: main, y: cross },
            Axis::Vertical => Offset { x: cross, y: main },
        }
    }

    pub fn plus(self, o: Offset) -> Offset {
        let x = (self.x + o.x).clamp(-OFFSET_MAX, OFFSET_MAX);
        Offset { x, y: (self.y + o.y).clamp(-OFFSET_MAX, OFFSET_MAX) }
    }
}

pub fn sum(a: u64, b: u64) -> u64 {
    a.saturating_add(b).min(LENGTH_MAX)
}

#[derive(Clone, Copy, Debug, Default, PartialEq, Eq)]
pub struct Bounds {
    pub min_w: u64,
    pub max_w: u64,
    pub min_h: u64,
    pub max_h: u64,
}

fn less(max: u64, by: u64) -> u64 {
    if max == UNBOUNDED {
        max
    } else {
        max.saturating_sub(by)
    }
}

impl Bounds {
    pub fn tight(s: Size) -> Bounds {
        Bounds { min_w: s.w, max_w: s.w, min_h: s.h, max_h: s.h }
    }

    /// Bounds from their least and greatest extents along an axis and across it.
    pub fn along(axis: Axis, main: (u64, u64), cross: (u64, u64)) -> Bounds {
        let (w, h) = if axis == Axis::Horizontal { (main, cross) } else { (cross, main) };
        Bounds { min_w: w.0, max_w: w.1, min_h: h.0, max_h: h.1 }
    }

    pub fn max_along(self, axis: Axis) -> u64 {
        if axis == Axis::Horizontal {
            self.max_w
        } else {
            self.max_h
        }
    }

    pub fn max_across(self, axis: Axis) -> u64 {
        if axis == Axis::Horizontal {
            self.max_h
        } else {
            self.max_w
        }
    }

    pub fn constrain(self, s: Size) -> Size {
        Size { w: s.w.clamp(self.min_w, self.max_w), h: s.h.clamp(self.min_h, self.max_h) }
    }

    pub fn smallest(self) -> Size {
        Size { w: self.min_w, h: self.min_h }
    }

    pub fn loosen(self) -> Bounds {
        Bounds { min_w: 0, min_h: 0, ..self }
    }

    pub fn enforce(self, o: Bounds) -> Bounds {
        Bounds {
            min_w: self.min_w.clamp(o.min_w, o.max_w),
            max_w: self.max_w.clamp(o.min_w, o.max_w),
            min_h: self.min_h.clamp(o.min_h, o.max_h),
            max_h: self.max_h.clamp(o.min_h, o.max_h),
        }
    }

    pub fn deflate(self, i: Insets) -> Bounds {
        let (across, down) = (sum(i.left, i.right), sum(i.top, i.bottom));
        let (min_w, min_h) = (self.min_w.saturating_sub(across), self.min_h.saturating_sub(down));
        Bounds { min_w, max_w: less(self.max_w, across).max(min_w), min_h, max_h: less(self.max_h, down).max(min_h) }
    }

    pub fn tighten_width(self, w: u64) -> Bounds {
        let w = w.clamp(self.min_w, self.max_w);
        Bounds { min_w: w, max_w: w, ..self }
    }

    pub fn tighten_height(self, h: u64) -> Bounds {
        let h = h.clamp(self.min_h, self.max_h);
        Bounds { min_h: h, max_h: h, ..self }
    }
}

pub fn align_at(outer: u64, inner: u64, a: i64) -> i64 {
    ((outer as i64 - inner as i64) * (100 + a)).div_euclid(200)
}
