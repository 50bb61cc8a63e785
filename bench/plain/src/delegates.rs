//! Delegates that paint and lay out in a widget's place.

use crate::geometry::{Bounds, Offset, Size};
use crate::widget::{LENGTH_MAX, UNBOUNDED};
use std::collections::HashMap;

pub struct Rect {
    pub at: Offset,
    pub size: Size,
    pub color: u32,
}

pub trait Delegate {
    fn own_size(&self, b: Bounds) -> Size {
        b.smallest()
    }
    fn child_bounds(&self, b: Bounds) -> Bounds {
        b.loosen()
    }
    fn place(&self, _size: Size, _child: Size) -> Offset {
        Offset::default()
    }
    fn paint(&self, _size: Size, _out: &mut Vec<Rect>) {}
    fn set(&mut self, field: &str, n: i64) -> bool;
}

pub type Delegates = HashMap<String, Box<dyn Delegate>>;

pub fn standard() -> Delegates {
    let mut all: Delegates = HashMap::new();
    all.insert("bars".into(), Box::new(Bars { count: 4, color: 0xff00_00ff }));
    all.insert("grid".into(), Box::new(Grid { step: 640, color: 0xff80_8080 }));
    all.insert("corner".into(), Box::new(Corner { dx: 0, dy: 0 }));
    all
}

fn color(n: i64) -> u32 {
    n.clamp(0, u32::MAX as i64) as u32
}

struct Bars {
    count: i64,
    color: i64,
}

impl Delegate for Bars {
    fn child_bounds(&self, b: Bounds) -> Bounds {
        b
    }

    fn paint(&self, size: Size, out: &mut Vec<Rect>) {
        let n = self.count.clamp(0, 256) as u64;
        for i in 0..n {
            let (from, to) = (size.w * i / n, size.w * (i + 1) / n);
            let h = size.h * (i + 1) / n;
            if to > from && h > 0 {
                let at = Offset { x: from as i64, y: (size.h - h) as i64 };
                out.push(Rect { at, size: Size { w: to - from, h }, color: color(self.color) });
            }
        }
    }

    fn set(&mut self, field: &str, n: i64) -> bool {
        match field {
            "count" => self.count = n,
            "color" => self.color = n,
            _ => return false,
        }
        true
    }
}

struct Grid {
    step: i64,
    color: i64,
}

impl Delegate for Grid {
    fn paint(&self, size: Size, out: &mut Vec<Rect>) {
        let step = self.step.clamp(1, LENGTH_MAX as i64) as u64;
        let lines = (1..=256).map(|k| k * step).take_while(|y| *y < size.h && size.w > 0);
        out.extend(lines.map(|y| Rect {
            at: Offset { x: 0, y: y as i64 },
            size: Size { w: size.w, h: 64 },
            color: color(self.color),
        }));
    }

    fn set(&mut self, field: &str, n: i64) -> bool {
        match field {
            "step" => self.step = n,
            "color" => self.color = n,
            _ => return false,
        }
        true
    }
}

struct Corner {
    dx: i64,
    dy: i64,
}

impl Delegate for Corner {
    fn own_size(&self, b: Bounds) -> Size {
        let side = |min, max| if max == UNBOUNDED { min } else { max };
        Size { w: side(b.min_w, b.max_w), h: side(b.min_h, b.max_h) }
    }

    fn place(&self, size: Size, child: Size) -> Offset {
        Offset { x: size.w as i64 - child.w as i64 - self.dx, y: size.h as i64 - child.h as i64 - self.dy }
    }

    fn set(&mut self, field: &str, n: i64) -> bool {
        match field {
            "dx" => self.dx = n,
            "dy" => self.dy = n,
            _ => return false,
        }
        true
    }
}
