//! A program as it is held: templates whose names are places in their lists.

use crate::value::{Expr, Value};
use crate::widget::{Axis, Behavior, CrossAlign, Fit, MainAlign};

#[derive(Clone, Copy, Debug, PartialEq, Eq)]
pub enum Type {
    Int,
    Bool,
    Text,
    Ints,
    Texts,
}

pub struct Component {
    pub name: String,
    pub props: Vec<String>,
    pub fields: Vec<Field>,
    pub slots: Vec<String>,
    pub body: Template,
}

pub struct Field {
    pub name: String,
    pub ty: Type,
    pub first: Expr,
}

pub struct Program {
    pub version: u64,
    pub view: (u64, u64),
    pub inherited: Vec<String>,
    pub defaults: Vec<Value>,
    pub components: Vec<Component>,
}

pub enum KeyTemplate {
    None,
    Local(Expr),
    Global(Expr),
}

pub enum Template {
    Box { kind: KindTemplate, key: KeyTemplate, children: Vec<Template> },
    Use { component: usize, key: KeyTemplate, props: Vec<Expr>, slots: Vec<Template> },
    Slot(usize),
    If { cond: Expr, then: Box<Template>, otherwise: Option<Box<Template>> },
    Each { list: Expr, body: Box<Template> },
}

pub type Sets = Vec<(usize, Expr)>;

/// The members of a kind, as expressions; the first of a list of sides is left, then top, right, bottom.
pub enum KindTemplate {
    SizedBox { width: Option<Expr>, height: Option<Expr> },
    ConstrainedBox { min_w: Option<Expr>, max_w: Option<Expr>, min_h: Option<Expr>, max_h: Option<Expr> },
    Padding([Option<Expr>; 4]),
    Align { ax: Option<Expr>, ay: Option<Expr> },
    ColoredBox { color: Option<Expr> },
    Text { text: Expr, color: Option<Expr> },
    Flex { axis: Axis, main: MainAlign, cross: CrossAlign, min: bool },
    Stack { ax: Option<Expr>, ay: Option<Expr>, fit: Fit },
    Flexible { flex: Option<Expr>, tight: bool },
    Positioned { sides: [Option<Expr>; 4], width: Option<Expr>, height: Option<Expr> },
    Opacity { alpha: Option<Expr> },
    ClipRect,
    RepaintBoundary,
    MergeSemantics,
    IntrinsicWidth,
    IntrinsicHeight,
    Offstage(Option<Expr>),
    IgnorePointer(Option<Expr>),
    AbsorbPointer(Option<Expr>),
    ExcludeSemantics(Option<Expr>),
    Keep,
    Detector { behavior: Option<Behavior>, handlers: Box<[Option<Sets>; 5]> },
    Semantics { label: Option<Expr>, button: Option<Expr>, container: Option<Expr> },
    CustomPaint { delegate: Expr },
    CustomLayout { delegate: Expr },
    Viewport { axis: Axis },
    SliverToBox,
    SliverPadding([Option<Expr>; 4]),
    SliverFixed { extent: Expr },
    Inherit { name: usize, value: Expr },
}
