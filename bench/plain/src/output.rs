//! What a template gives: widgets with evaluated members.

use crate::program::{KeyTemplate, KindTemplate, Program, Sets, Template};
use crate::value::{Expr, Scope, Value};
use crate::widget::*;
use std::rc::Rc;

/// A component's body, or the root, gives at most this many widgets.
const OUTPUT_LIMIT: u64 = 65_536;

/// More widgets than an output may have.
#[derive(Clone, Copy, Debug)]
pub struct TooLarge;

/// The widget that a root's template gives.
pub fn root(root: &Template) -> Result<Rc<Widget>, TooLarge> {
    let mut scope = Scope::of_fields(&[], (0, 0));
    widget(root, &mut scope, &[])
}

/// The widget that a component's body gives.
pub fn component(
    p: &Program,
    component: usize,
    mut scope: Scope,
    slots: &[Rc<Widget>],
) -> Result<Rc<Widget>, TooLarge> {
    widget(&p.components[component].body, &mut scope, slots)
}

pub fn first_fields(p: &Program, component: usize, props: &[Value]) -> Vec<Value> {
    let fields = &p.components[component].fields;
    if fields.is_empty() {
        return Vec::new();
    }
    let mut scope = Scope::of_fields(&[], (0, 0));
    scope.props = props;
    fields.iter().map(|f| f.first.eval(&scope)).collect()
}

fn widget(t: &Template, s: &mut Scope, slots: &[Rc<Widget>]) -> Result<Rc<Widget>, TooLarge> {
    let mut one = Vec::with_capacity(1);
    let mut size = 0;
    give(t, s, slots, &mut one, &mut size)?;
    one.pop().ok_or(TooLarge).and_then(|w| if w.size > OUTPUT_LIMIT { Err(TooLarge) } else { Ok(w) })
}

/// Adds to `out` the widgets that the template gives, and their sizes to `size`.
fn give(
    t: &Template,
    s: &mut Scope,
    slots: &[Rc<Widget>],
    out: &mut Vec<Rc<Widget>>,
    size: &mut u64,
) -> Result<(), TooLarge> {
    match t {
        Template::Slot(i) => add(slots[*i].clone(), out, size),
        Template::If { cond, then, otherwise } => {
            if cond.eval(s).is_true() {
                give(then, s, slots, out, size)
            } else if let Some(otherwise) = otherwise {
                give(otherwise, s, slots, out, size)
            } else {
                Ok(())
            }
        }
        Template::Each { list, body } => each(list.eval(s), body, s, slots, out, size),
        Template::Use { component, key, props, slots: contents } => {
            let mut given = Vec::with_capacity(contents.len());
            let mut below = 1;
            for content in contents {
                give(content, s, slots, &mut given, &mut below)?;
            }
            let props = props.iter().map(|e| e.eval(s)).collect();
            let kind = Kind::Use { component: *component, props, slots: given };
            let w = Widget { kind, key: key_of(key, s), children: Vec::new(), size: below };
            add(Rc::new(w), out, size)
        }
        Template::Box { kind, key, children: templates } => {
            let mut children = Vec::with_capacity(templates.len());
            let mut below = 1;
            for child in templates {
                give(child, s, slots, &mut children, &mut below)?;
            }
            let kind = kind_of(kind, s, children.is_empty());
            add(Rc::new(Widget { kind, key: key_of(key, s), children, size: below }), out, size)
        }
    }
}

fn each(
    list: Value,
    body: &Template,
    s: &mut Scope,
    slots: &[Rc<Widget>],
    out: &mut Vec<Rc<Widget>>,
    size: &mut u64,
) -> Result<(), TooLarge> {
    let mut round = |item: Value| {
        s.vars.push(item);
        let end = give(body, s, slots, out, size);
        s.vars.pop();
        end
    };
    match list {
        Value::Ints(l) => l.iter().try_for_each(|n| round(Value::Int(*n))),
        Value::Texts(l) => l.iter().try_for_each(|t| round(Value::Text(t.clone()))),
        other => panic!("a list is wanted, not {other:?}"),
    }
}

fn add(w: Rc<Widget>, out: &mut Vec<Rc<Widget>>, size: &mut u64) -> Result<(), TooLarge> {
    *size = size.saturating_add(w.size);
    out.push(w);
    if *size > OUTPUT_LIMIT + 1 {
        Err(TooLarge)
    } else {
        Ok(())
    }
}

fn key_of(key: &KeyTemplate, s: &Scope) -> Key {
    match key {
        KeyTemplate::None => Key::None,
        KeyTemplate::Local(e) => Key::Local(e.eval(s)),
        KeyTemplate::Global(e) => Key::Global(e.eval(s)),
    }
}

fn clamped(e: &Option<Expr>, s: &Scope, low: i64, high: i64) -> Option<i64> {
    e.as_ref().map(|e| e.eval(s).int().clamp(low, high))
}

fn length(e: &Option<Expr>, s: &Scope) -> Option<u64> {
    clamped(e, s, 0, LENGTH_MAX as i64).map(|n| n as u64)
}

fn position(e: &Option<Expr>, s: &Scope) -> Option<i64> {
    clamped(e, s, -(LENGTH_MAX as i64), LENGTH_MAX as i64)
}

fn alignment(e: &Option<Expr>, s: &Scope, default: i64) -> i64 {
    clamped(e, s, -100, 100).unwrap_or(default)
}

fn color(e: &Option<Expr>, s: &Scope, default: u32) -> u32 {
    clamped(e, s, 0, u32::MAX as i64).map_or(default, |n| n as u32)
}

fn truth(e: &Option<Expr>, s: &Scope, default: bool) -> bool {
    e.as_ref().map_or(default, |e| e.eval(s).is_true())
}

fn insets(sides: &[Option<Expr>; 4], s: &Scope) -> Insets {
    let [left, top, right, bottom] = [0, 1, 2, 3].map(|i| length(&sides[i], s).unwrap_or(0));
    Insets { left, top, right, bottom }
}

fn handler(sets: &Sets, s: &Scope) -> Handler {
    Handler { owner: s.owner, sets: sets.iter().map(|(field, e)| (*field, e.close(s))).collect() }
}

fn kind_of(kind: &KindTemplate, s: &Scope, childless: bool) -> Kind {
    match kind {
        KindTemplate::SizedBox { width, height } => {
            let (w, h) = (length(width, s), length(height, s));
            Kind::Sized {
                min_w: w.unwrap_or(0),
                max_w: w.unwrap_or(UNBOUNDED),
                min_h: h.unwrap_or(0),
                max_h: h.unwrap_or(UNBOUNDED),
                constrained: false,
            }
        }
        KindTemplate::ConstrainedBox { min_w, max_w, min_h, max_h } => {
            let min_w = length(min_w, s).unwrap_or(0);
            let min_h = length(min_h, s).unwrap_or(0);
            let max_w = length(max_w, s).unwrap_or(UNBOUNDED).max(min_w);
            let max_h = length(max_h, s).unwrap_or(UNBOUNDED).max(min_h);
            Kind::Sized { min_w, max_w, min_h, max_h, constrained: true }
        }
        KindTemplate::Padding(sides) => Kind::Padding(insets(sides, s)),
        KindTemplate::Align { ax, ay } => Kind::Align { ax: alignment(ax, s, 0), ay: alignment(ay, s, 0) },
        KindTemplate::ColoredBox { color: c } => Kind::ColoredBox { color: color(c, s, 0) },
        KindTemplate::Text { text, color: c } => {
            Kind::Text { text: text.eval(s).text(), color: color(c, s, 0xff00_0000) }
        }
        KindTemplate::Flex { axis, main, cross, min } => {
            Kind::Flex { axis: *axis, main: *main, cross: *cross, min: *min }
        }
        KindTemplate::Stack { ax, ay, fit } => {
            Kind::Stack { ax: alignment(ax, s, -100), ay: alignment(ay, s, -100), fit: *fit }
        }
        KindTemplate::Flexible { flex, tight } => {
            Kind::Flexible { flex: clamped(flex, s, 0, 1_000_000).unwrap_or(1) as u64, tight: *tight }
        }
        KindTemplate::Positioned { sides, width, height } => Kind::Positioned(Placed {
            left: position(&sides[0], s),
            top: position(&sides[1], s),
            right: position(&sides[2], s),
            bottom: position(&sides[3], s),
            width: length(width, s),
            height: length(height, s),
        }),
        KindTemplate::Opacity { alpha } => Kind::Opacity { alpha: clamped(alpha, s, 0, 255).unwrap_or(255) as u8 },
        KindTemplate::ClipRect => Kind::ClipRect,
        KindTemplate::RepaintBoundary => Kind::RepaintBoundary,
        KindTemplate::MergeSemantics => Kind::MergeSemantics,
        KindTemplate::IntrinsicWidth => Kind::IntrinsicWidth,
        KindTemplate::IntrinsicHeight => Kind::IntrinsicHeight,
        KindTemplate::Offstage(on) => Kind::Offstage { on: truth(on, s, true) },
        KindTemplate::IgnorePointer(on) => Kind::IgnorePointer { on: truth(on, s, true) },
        KindTemplate::AbsorbPointer(on) => Kind::AbsorbPointer { on: truth(on, s, true) },
        KindTemplate::ExcludeSemantics(on) => Kind::ExcludeSemantics { on: truth(on, s, true) },
        KindTemplate::Keep => Kind::Keep,
        KindTemplate::Detector { behavior, handlers } => {
            let default = if childless { Behavior::Translucent } else { Behavior::Defer };
            let handlers = Box::new([0, 1, 2, 3, 4].map(|i| handlers[i].as_ref().map(|sets| handler(sets, s))));
            Kind::Detector { behavior: behavior.unwrap_or(default), handlers }
        }
        KindTemplate::Semantics { label, button, container } => Kind::Semantics {
            label: label.as_ref().map_or_else(|| "".into(), |e| e.eval(s).text()),
            button: truth(button, s, false),
            container: truth(container, s, false),
        },
        KindTemplate::CustomPaint { delegate } => Kind::CustomPaint { delegate: delegate.eval(s).text() },
        KindTemplate::CustomLayout { delegate } => Kind::CustomLayout { delegate: delegate.eval(s).text() },
        KindTemplate::Viewport { axis } => Kind::Viewport { axis: *axis },
        KindTemplate::SliverToBox => Kind::SliverToBox,
        KindTemplate::SliverPadding(sides) => Kind::SliverPadding(insets(sides, s)),
        KindTemplate::SliverFixed { extent } => {
            Kind::SliverFixed { extent: extent.eval(s).int().clamp(1, LENGTH_MAX as i64) as u64 }
        }
        KindTemplate::Inherit { name, value } => Kind::Inherit { name: *name, value: value.eval(s) },
    }
}
