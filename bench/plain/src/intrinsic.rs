//! Intrinsic sizes: what a box would take where nothing binds it.

use crate::layout::{placed, Layout};
use crate::text;
use crate::widget::*;

fn shared(extent: u64, total: u64, flex: u64) -> u64 {
    (extent as u128 * total as u128).div_ceil(flex as u128).min(LENGTH_MAX as u128) as u64
}

impl Layout<'_> {
    pub fn max_w(&self, i: usize, height: u64) -> u64 {
        match &self.nodes[i].widget.kind {
            Kind::Sized { min_w, max_w, .. } => self.child_w(i, height).clamp(*min_w, *max_w),
            Kind::Padding(p) => {
                let inner = less(height, p.top + p.bottom);
                (p.left + p.right + self.child_w(i, inner)).min(LENGTH_MAX)
            }
            Kind::Text { text, .. } => 512 * self.scale * text::widest(&text::wrap(text, None)),
            Kind::Offstage { on: true } | Kind::Viewport { .. } => 0,
            Kind::Stack { .. } => self.greatest(i, |c| self.max_w(c, height)),
            Kind::Flex { axis: Axis::Horizontal, .. } => self.along(i, |c| self.max_w(c, height)),
            Kind::Flex { axis: Axis::Vertical, .. } => self.across(i, |c| self.max_w(c, UNBOUNDED)),
            _ => self.child_w(i, height),
        }
    }

    pub fn max_h(&self, i: usize, width: u64) -> u64 {
        match &self.nodes[i].widget.kind {
            Kind::Sized { min_h, max_h, .. } => self.child_h(i, width).clamp(*min_h, *max_h),
            Kind::Padding(p) => {
                let inner = less(width, p.left + p.right);
                (p.top + p.bottom + self.child_h(i, inner)).min(LENGTH_MAX)
            }
            Kind::Text { text, .. } => {
                let limit = if width == UNBOUNDED { None } else { Some(width / (512 * self.scale)) };
                1024 * self.scale * text::wrap(text, limit).len() as u64
            }
            Kind::Offstage { on: true } | Kind::Viewport { .. } => 0,
            Kind::Stack { .. } => self.greatest(i, |c| self.max_h(c, width)),
            Kind::Flex { axis: Axis::Vertical, .. } => self.along(i, |c| self.max_h(c, width)),
            Kind::Flex { axis: Axis::Horizontal, .. } => self.across(i, |c| self.max_h(c, UNBOUNDED)),
            _ => self.child_h(i, width),
        }
    }

    fn child_w(&self, i: usize, height: u64) -> u64 {
        self.child(i).map_or(0, |c| self.max_w(c, height))
    }

    fn child_h(&self, i: usize, width: u64) -> u64 {
        self.child(i).map_or(0, |c| self.max_h(c, width))
    }

    /// Of a Stack: the greatest of the children that aren't placed.
    fn greatest(&self, i: usize, of: impl Fn(usize) -> u64) -> u64 {
        let free = self.nodes[i].children.iter().filter(|c| placed(&self.nodes[**c]).is_none());
        free.map(|c| of(*c)).max().unwrap_or(0)
    }

    fn across(&self, i: usize, of: impl Fn(usize) -> u64) -> u64 {
        self.nodes[i].children.iter().map(|c| of(*c)).max().unwrap_or(0)
    }

    fn along(&self, i: usize, of: impl Fn(usize) -> u64) -> u64 {
        let children = &self.nodes[i].children;
        let total: u64 = children.iter().map(|c| self.nodes[*c].flex).sum();
        let (mut fixed, mut most) = (0u64, 0);
        for c in children {
            match self.nodes[*c].flex {
                0 => fixed = (fixed + of(*c)).min(LENGTH_MAX),
                flex => most = most.max(shared(of(*c), total, flex)),
            }
        }
        (fixed + most).min(LENGTH_MAX)
    }
}

fn less(extent: u64, by: u64) -> u64 {
    if extent == UNBOUNDED {
        extent
    } else {
        extent.saturating_sub(by)
    }
}
