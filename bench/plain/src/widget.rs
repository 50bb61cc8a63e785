//! What a program's templates give: widgets, and the words of their members.

use crate::value::{Expr, Value};
use std::rc::Rc;

/// No greatest extent.
pub const UNBOUNDED: u64 = u64::MAX;
/// The greatest length.
pub const LENGTH_MAX: u64 = 1 << 40;

#[derive(Clone, Debug, PartialEq, Eq, Hash)]
pub enum Key {
    None,
    Local(Value),
    Global(Value),
}

#[derive(Clone, Copy, Debug, PartialEq, Eq)]
pub enum Axis {
    Horizontal,
    Vertical,
}

#[derive(Clone, Copy, Debug)]
pub enum MainAlign {
    Start,
    End,
    Center,
    Between,
    Around,
    Evenly,
}

#[derive(Clone, Copy, Debug, PartialEq, Eq)]
pub enum CrossAlign {
    Start,
    End,
    Center,
    Stretch,
}

#[derive(Clone, Copy, Debug, PartialEq, Eq)]
pub enum Fit {
    Loose,
    Expand,
    Passthrough,
}

#[derive(Clone, Copy, Debug, PartialEq, Eq)]
pub enum Behavior {
    Defer,
    Opaque,
    Translucent,
}

#[derive(Clone, Copy, Debug, Default, PartialEq, Eq)]
pub struct Insets {
    pub left: u64,
    pub top: u64,
    pub right: u64,
    pub bottom: u64,
}

#[derive(Clone, Copy, Debug, Default)]
pub struct Placed {
    pub left: Option<i64>,
    pub top: Option<i64>,
    pub right: Option<i64>,
    pub bottom: Option<i64>,
    pub width: Option<u64>,
    pub height: Option<u64>,
}

/// What a gesture runs: sets of the owner's fields, with closed expressions.
#[derive(Clone, Debug)]
pub struct Handler {
    pub owner: u64,
    pub sets: Vec<(usize, Expr)>,
}

#[derive(Clone, Copy, Debug, PartialEq, Eq)]
pub enum Gesture {
    Tap,
    Long,
    Vertical,
    Horizontal,
    Pan,
}

impl Gesture {
    pub const ALL: [Gesture; 5] = [Gesture::Tap, Gesture::Long, Gesture::Vertical, Gesture::Horizontal, Gesture::Pan];

    pub fn name(self) -> &'static str {
        ["tap", "long", "vertical", "horizontal", "pan"][self as usize]
    }
}

/// The handlers of a Detector, by gesture.
pub type Handlers = [Option<Handler>; 5];

#[derive(Debug)]
pub enum Kind {
    /// Of a SizedBox and a ConstrainedBox.
    Sized {
        min_w: u64,
        max_w: u64,
        min_h: u64,
        max_h: u64,
        constrained: bool,
    },
    Padding(Insets),
    Align {
        ax: i64,
        ay: i64,
    },
    ColoredBox {
        color: u32,
    },
    Text {
        text: Rc<str>,
        color: u32,
    },
    Flex {
        axis: Axis,
        main: MainAlign,
        cross: CrossAlign,
        min: bool,
    },
    Stack {
        ax: i64,
        ay: i64,
        fit: Fit,
    },
    Flexible {
        flex: u64,
        tight: bool,
    },
    Positioned(Placed),
    Opacity {
        alpha: u8,
    },
    ClipRect,
    RepaintBoundary,
    MergeSemantics,
    IntrinsicWidth,
    IntrinsicHeight,
    Offstage {
        on: bool,
    },
    IgnorePointer {
        on: bool,
    },
    AbsorbPointer {
        on: bool,
    },
    ExcludeSemantics {
        on: bool,
    },
    Keep,
    Detector {
        behavior: Behavior,
        handlers: Box<Handlers>,
    },
    Semantics {
        label: Rc<str>,
        button: bool,
        container: bool,
    },
    CustomPaint {
        delegate: Rc<str>,
    },
    CustomLayout {
        delegate: Rc<str>,
    },
    Viewport {
        axis: Axis,
    },
    SliverToBox,
    SliverPadding(Insets),
    SliverFixed {
        extent: u64,
    },
    Inherit {
        name: usize,
        value: Value,
    },
    Use {
        component: usize,
        props: Vec<Value>,
        slots: Vec<Rc<Widget>>,
    },
}

#[derive(Debug)]
pub struct Widget {
    pub kind: Kind,
    pub key: Key,
    pub children: Vec<Rc<Widget>>,
    pub size: u64,
}

impl Widget {
    /// Whether a node of `self` may go on with `new`: types and keys are equal.
    pub fn can_update(&self, new: &Widget) -> bool {
        self.same_type(new) && self.key == new.key
    }

    pub fn same_type(&self, new: &Widget) -> bool {
        match (&self.kind, &new.kind) {
            (Kind::Use { component: a, .. }, Kind::Use { component: b, .. }) => a == b,
            (Kind::Inherit { name: a, .. }, Kind::Inherit { name: b, .. }) => a == b,
            (Kind::Sized { constrained: a, .. }, Kind::Sized { constrained: b, .. }) => a == b,
            (Kind::Flex { axis: a, .. }, Kind::Flex { axis: b, .. }) => a == b,
            (a, b) => std::mem::discriminant(a) == std::mem::discriminant(b),
        }
    }

    pub fn is_keyed(&self) -> bool {
        self.key != Key::None
    }
}
