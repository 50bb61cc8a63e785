//! JSON to a program. It takes a program for granted that has no fault of form, name or type.

use crate::program::*;
use crate::value::{Expr, One, Scope, Two, Value};
use crate::widget::{Axis, Behavior, CrossAlign, Fit, MainAlign};
use serde_json::{Map, Value as Json};

/// Why there is no program: the text isn't JSON, or it has what this program leaves out.
pub enum Fault {
    Json,
    LeftOut(String),
}

type Read<T> = Result<T, Fault>;

fn fault<T>(what: impl Into<String>) -> Read<T> {
    Err(Fault::LeftOut(what.into()))
}

/// The names that an expression or template may name.
struct Names<'a> {
    fields: &'a [String],
    props: &'a [String],
    slots: &'a [String],
    inherited: &'a [String],
    components: &'a [Component],
    vars: Vec<String>,
}

fn place(list: &[String], name: &str) -> Read<usize> {
    match list.iter().position(|x| x == name) {
        Some(i) => Ok(i),
        None => fault(format!("no name {name}")),
    }
}

fn text_of(j: &Json) -> Read<&str> {
    j.as_str().map_or_else(|| fault("no text"), Ok)
}

fn list_of(j: &Json) -> Read<&Vec<Json>> {
    j.as_array().map_or_else(|| fault("no list"), Ok)
}

fn object_of(j: &Json) -> Read<&Map<String, Json>> {
    j.as_object().map_or_else(|| fault("no object"), Ok)
}

fn member<'j>(o: &'j Map<String, Json>, name: &str) -> Read<&'j Json> {
    o.get(name).map_or_else(|| fault(format!("no member {name}")), Ok)
}

fn members<'j>(o: &'j Map<String, Json>, name: &str) -> Read<&'j [Json]> {
    match o.get(name) {
        Some(j) => Ok(list_of(j)?),
        None => Ok(&[]),
    }
}

fn type_of(j: &Json) -> Read<Type> {
    match text_of(j)? {
        "int" => Ok(Type::Int),
        "bool" => Ok(Type::Bool),
        "text" => Ok(Type::Text),
        "ints" => Ok(Type::Ints),
        "texts" => Ok(Type::Texts),
        other => fault(format!("no type {other}")),
    }
}

pub fn program(bytes: &[u8]) -> Read<(Program, Template)> {
    let json: Json = match serde_json::from_slice(bytes) {
        Ok(j) => j,
        Err(_) => return Err(Fault::Json),
    };
    let o = object_of(&json)?;
    let view = list_of(member(o, "view")?)?;
    let side = |i: usize| view.get(i).and_then(Json::as_u64).map_or_else(|| fault("no side"), Ok);
    let mut p = Program {
        version: member(o, "version")?.as_u64().unwrap_or(0),
        view: (side(0)?, side(1)?),
        inherited: Vec::new(),
        defaults: Vec::new(),
        components: Vec::new(),
    };
    for entry in members(o, "inherited")? {
        let entry = list_of(entry)?;
        p.inherited.push(text_of(&entry[0])?.to_string());
        let first = Names::none(&[], &[]).expr(&entry[2])?;
        p.defaults.push(first.eval(&Scope::of_fields(&[], (0, 0))));
    }
    for c in members(o, "components")? {
        let c = component(&p, object_of(c)?)?;
        p.components.push(c);
    }
    let root = root(&p, member(o, "root")?)?;
    Ok((p, root))
}

/// The template of a root, of the program or of a line.
pub fn root(p: &Program, json: &Json) -> Read<Template> {
    Names::none(&[], &p.components).template(json)
}

fn component(p: &Program, o: &Map<String, Json>) -> Read<Component> {
    let name = text_of(member(o, "name")?)?.to_string();
    let mut props = Vec::new();
    for entry in members(o, "props")? {
        props.push(text_of(&list_of(entry)?[0])?.to_string());
    }
    let mut fields = Vec::new();
    let mut field_names = Vec::new();
    for entry in members(o, "fields")? {
        let entry = list_of(entry)?;
        let mut names = Names::none(&[], &[]);
        names.props = &props;
        let first = names.expr(&entry[2])?;
        let name = text_of(&entry[0])?.to_string();
        field_names.push(name.clone());
        fields.push(Field { name, ty: type_of(&entry[1])?, first });
    }
    let mut slots = Vec::new();
    for entry in members(o, "slots")? {
        slots.push(text_of(entry)?.to_string());
    }
    let mut names = Names {
        fields: &field_names,
        props: &props,
        slots: &slots,
        inherited: &p.inherited,
        components: &p.components,
        vars: Vec::new(),
    };
    let body = names.template(member(o, "body")?)?;
    Ok(Component { name, props, fields, slots, body })
}

impl<'a> Names<'a> {
    fn none(inherited: &'a [String], components: &'a [Component]) -> Self {
        Names { fields: &[], props: &[], slots: &[], inherited, components, vars: Vec::new() }
    }

    fn expr(&mut self, j: &Json) -> Read<Expr> {
        match j {
            Json::Bool(b) => Ok(Expr::Literal(Value::Bool(*b))),
            Json::Number(n) => n.as_i64().map_or_else(|| fault("no integer"), |n| Ok(Expr::Literal(Value::Int(n)))),
            Json::String(s) => Ok(Expr::Literal(Value::Text(s.as_str().into()))),
            Json::Array(list) => self.operation(list),
            _ => fault("no expression"),
        }
    }

    fn operation(&mut self, list: &[Json]) -> Read<Expr> {
        let Some((op, operands)) = list.split_first() else { return fault("no operator") };
        let op = text_of(op)?;
        let name = |i: usize| operands.get(i).and_then(Json::as_str).unwrap_or("");
        match op {
            "field" => return Ok(Expr::Field(place(self.fields, name(0))?)),
            "prop" => return Ok(Expr::Prop(place(self.props, name(0))?)),
            "inherit" => return Ok(Expr::Inherit(place(self.inherited, name(0))?)),
            "var" => {
                return match self.vars.iter().rposition(|v| v == name(0)) {
                    Some(i) => Ok(Expr::Var(i)),
                    None => fault("no variable"),
                }
            }
            "event" => return Ok(if name(0) == "dx" { Expr::EventDx } else { Expr::EventDy }),
            _ => (),
        }
        let mut all = Vec::with_capacity(operands.len());
        for operand in operands {
            all.push(self.expr(operand)?);
        }
        form(op, all)
    }

    fn optional(&mut self, o: &Map<String, Json>, name: &str) -> Read<Option<Expr>> {
        o.get(name).map(|j| self.expr(j)).transpose()
    }

    fn sides(&mut self, o: &Map<String, Json>) -> Read<[Option<Expr>; 4]> {
        Ok([
            self.optional(o, "left")?,
            self.optional(o, "top")?,
            self.optional(o, "right")?,
            self.optional(o, "bottom")?,
        ])
    }

    fn key(&mut self, o: &Map<String, Json>) -> Read<KeyTemplate> {
        let Some(j) = o.get("key") else { return Ok(KeyTemplate::None) };
        let list = list_of(j)?;
        let e = self.expr(&list[1])?;
        Ok(if text_of(&list[0])? == "local" { KeyTemplate::Local(e) } else { KeyTemplate::Global(e) })
    }

    fn template(&mut self, j: &Json) -> Read<Template> {
        let o = object_of(j)?;
        match text_of(member(o, "w")?)? {
            "slot" => Ok(Template::Slot(place(self.slots, text_of(member(o, "name")?)?)?)),
            "if" => Ok(Template::If {
                cond: self.expr(member(o, "cond")?)?,
                then: Box::new(self.template(member(o, "then")?)?),
                otherwise: o.get("else").map(|e| self.template(e)).transpose()?.map(Box::new),
            }),
            "each" => {
                let list = self.expr(member(o, "in")?)?;
                self.vars.push(text_of(member(o, "var")?)?.to_string());
                let body = self.template(member(o, "body")?);
                self.vars.pop();
                Ok(Template::Each { list, body: Box::new(body?) })
            }
            "use" => self.using(o),
            w => {
                let key = self.key(o)?;
                let kind = self.kind(w, o)?;
                let mut children = Vec::new();
                for c in members(o, "children")?.iter().chain(o.get("child")) {
                    children.push(self.template(c)?);
                }
                Ok(Template::Box { kind, key, children })
            }
        }
    }

    fn using(&mut self, o: &Map<String, Json>) -> Read<Template> {
        let name = text_of(member(o, "name")?)?;
        let Some(component) = self.components.iter().position(|c| c.name == name) else {
            return fault(format!("no component {name}"));
        };
        let components = self.components;
        let declared = &components[component];
        let empty = Map::new();
        let given = |name| o.get(name).map_or(Ok(&empty), object_of);
        let (given_props, given_slots) = (given("props")?, given("slots")?);
        let mut props = Vec::new();
        for p in &declared.props {
            props.push(self.expr(member(given_props, p)?)?);
        }
        let mut slots = Vec::new();
        for s in &declared.slots {
            slots.push(self.template(member(given_slots, s)?)?);
        }
        Ok(Template::Use { component, key: self.key(o)?, props, slots })
    }

    fn kind(&mut self, w: &str, o: &Map<String, Json>) -> Read<KindTemplate> {
        let is = |name: &str, word: &str| o.get(name).and_then(Json::as_str) == Some(word);
        let axis = if is("axis", "horizontal") { Axis::Horizontal } else { Axis::Vertical };
        Ok(match w {
            "SizedBox" => {
                KindTemplate::SizedBox { width: self.optional(o, "width")?, height: self.optional(o, "height")? }
            }
            "ConstrainedBox" => KindTemplate::ConstrainedBox {
                min_w: self.optional(o, "minWidth")?,
                max_w: self.optional(o, "maxWidth")?,
                min_h: self.optional(o, "minHeight")?,
                max_h: self.optional(o, "maxHeight")?,
            },
            "Padding" => KindTemplate::Padding(self.sides(o)?),
            "Align" => KindTemplate::Align { ax: self.optional(o, "ax")?, ay: self.optional(o, "ay")? },
            "ColoredBox" => KindTemplate::ColoredBox { color: self.optional(o, "color")? },
            "Text" => KindTemplate::Text { text: self.expr(member(o, "text")?)?, color: self.optional(o, "color")? },
            "Row" | "Column" => KindTemplate::Flex {
                axis: if w == "Row" { Axis::Horizontal } else { Axis::Vertical },
                main: main_align(o)?,
                cross: cross_align(o)?,
                min: is("size", "min"),
            },
            "Stack" => KindTemplate::Stack {
                ax: self.optional(o, "ax")?,
                ay: self.optional(o, "ay")?,
                fit: if is("fit", "expand") {
                    Fit::Expand
                } else if is("fit", "passthrough") {
                    Fit::Passthrough
                } else {
                    Fit::Loose
                },
            },
            "Flexible" => KindTemplate::Flexible { flex: self.optional(o, "flex")?, tight: is("fit", "tight") },
            "Positioned" => KindTemplate::Positioned {
                sides: self.sides(o)?,
                width: self.optional(o, "width")?,
                height: self.optional(o, "height")?,
            },
            "Opacity" => KindTemplate::Opacity { alpha: self.optional(o, "alpha")? },
            "ClipRect" => KindTemplate::ClipRect,
            "RepaintBoundary" => KindTemplate::RepaintBoundary,
            "MergeSemantics" => KindTemplate::MergeSemantics,
            "IntrinsicWidth" => KindTemplate::IntrinsicWidth,
            "IntrinsicHeight" => KindTemplate::IntrinsicHeight,
            "Offstage" => KindTemplate::Offstage(self.optional(o, "offstage")?),
            "IgnorePointer" => KindTemplate::IgnorePointer(self.optional(o, "ignoring")?),
            "AbsorbPointer" => KindTemplate::AbsorbPointer(self.optional(o, "absorbing")?),
            "ExcludeSemantics" => KindTemplate::ExcludeSemantics(self.optional(o, "excluding")?),
            "Keep" => KindTemplate::Keep,
            "Detector" => self.detector(o)?,
            "Semantics" => KindTemplate::Semantics {
                label: self.optional(o, "label")?,
                button: self.optional(o, "button")?,
                container: self.optional(o, "container")?,
            },
            "CustomPaint" => KindTemplate::CustomPaint { delegate: self.expr(member(o, "delegate")?)? },
            "CustomLayout" => KindTemplate::CustomLayout { delegate: self.expr(member(o, "delegate")?)? },
            "Viewport" => KindTemplate::Viewport { axis },
            "SliverToBox" => KindTemplate::SliverToBox,
            "SliverPadding" => KindTemplate::SliverPadding(self.sides(o)?),
            "SliverFixed" => KindTemplate::SliverFixed { extent: self.expr(member(o, "extent")?)? },
            "Inherit" => KindTemplate::Inherit {
                name: place(self.inherited, text_of(member(o, "name")?)?)?,
                value: self.expr(member(o, "value")?)?,
            },
            other => return fault(format!("the kind {other}")),
        })
    }

    fn detector(&mut self, o: &Map<String, Json>) -> Read<KindTemplate> {
        let behavior = match o.get("behavior").and_then(Json::as_str) {
            Some("opaque") => Some(Behavior::Opaque),
            Some("translucent") => Some(Behavior::Translucent),
            Some(_) => Some(Behavior::Defer),
            None => None,
        };
        let mut handlers = Box::new([None, None, None, None, None]);
        for (at, name) in ["tap", "long", "vertical", "horizontal", "pan"].iter().enumerate() {
            let Some(j) = o.get(*name) else { continue };
            let mut sets = Vec::new();
            for set in list_of(j)? {
                let set = list_of(set)?;
                sets.push((place(self.fields, text_of(&set[1])?)?, self.expr(&set[2])?));
            }
            handlers[at] = Some(sets);
        }
        Ok(KindTemplate::Detector { behavior, handlers })
    }
}

fn form(op: &str, all: Vec<Expr>) -> Read<Expr> {
    let op = match op {
        "ints" => return Ok(Expr::Ints(all)),
        "texts" => return Ok(Expr::Texts(all)),
        "not" => return unary(One::Not, all),
        "len" => return unary(One::Len, all),
        "reverse" => return unary(One::Reverse, all),
        "range" => return unary(One::Range, all),
        "show" => return unary(One::Show, all),
        "if" => return three(all).map(Expr::If),
        "at" => return three(all).map(Expr::At),
        "+" => Two::Add,
        "-" => Two::Sub,
        "*" => Two::Mul,
        "div" => Two::Div,
        "mod" => Two::Mod,
        "=" => Two::Equal,
        "<" => Two::Less,
        "and" => Two::And,
        "or" => Two::Or,
        "cat" => Two::Cat,
        "push" => Two::Push,
        "drop" => Two::Drop,
        other => return fault(format!("no operator {other}")),
    };
    let both: Result<[Expr; 2], _> = all.try_into();
    both.map_or_else(|_| fault("operands"), |b| Ok(Expr::Two(op, Box::new(b))))
}

fn unary(op: One, mut all: Vec<Expr>) -> Read<Expr> {
    match (all.pop(), all.is_empty()) {
        (Some(a), true) => Ok(Expr::One(op, Box::new(a))),
        _ => fault("operands"),
    }
}

fn three(all: Vec<Expr>) -> Read<Box<[Expr; 3]>> {
    let three: Result<[Expr; 3], _> = all.try_into();
    three.map_or_else(|_| fault("operands"), |t| Ok(Box::new(t)))
}

fn main_align(o: &Map<String, Json>) -> Read<MainAlign> {
    Ok(match o.get("main").and_then(Json::as_str).unwrap_or("start") {
        "start" => MainAlign::Start,
        "end" => MainAlign::End,
        "center" => MainAlign::Center,
        "between" => MainAlign::Between,
        "around" => MainAlign::Around,
        "evenly" => MainAlign::Evenly,
        other => return fault(format!("no alignment {other}")),
    })
}

fn cross_align(o: &Map<String, Json>) -> Read<CrossAlign> {
    Ok(match o.get("cross").and_then(Json::as_str).unwrap_or("center") {
        "center" => CrossAlign::Center,
        "start" => CrossAlign::Start,
        "end" => CrossAlign::End,
        "stretch" => CrossAlign::Stretch,
        other => return fault(format!("no alignment {other}")),
    })
}
