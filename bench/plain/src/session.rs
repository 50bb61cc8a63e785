//! A session: one line after another.

use crate::delegates::{self, Delegates};
use crate::geometry::{Offset, Size};
use crate::gestures::{Event, Member, Pointers, POINTERS_MAX};
use crate::output::{self, TooLarge};
use crate::print::{self, put};
use crate::program::{Program, Template, Type};
use crate::render::{self, Laid, RenderNode};
use crate::script::{Command, Refusal};
use crate::semantics::{self, SemNode};
use crate::tree::{self, FrameFault, Tree};
use crate::value::{Scope, Value};
use crate::widget::{Gesture, Handler, Kind, Widget, LENGTH_MAX};
use crate::{hits, layout, paint, read};
use serde_json::Value as Json;
use std::io::Write;
use std::rc::Rc;

const VIEW_MAX: i64 = 16_777_216;

pub enum End {
    Done,
    Refused(Refusal),
    Fault,
    LeftOut,
}

pub struct Session {
    program: Program,
    root: Result<Rc<Widget>, TooLarge>,
    tree: Tree,
    next: u64,
    nodes: Vec<RenderNode>,
    laid: Vec<Laid>,
    view: Size,
    shown_view: Size,
    delegates: Delegates,
    pointers: Pointers,
    time: u64,
    frames: u64,
    scale: u64,
}

impl Session {
    pub fn new(program: Program, root: Template) -> Session {
        let view = Size { w: program.view.0, h: program.view.1 };
        let scale = if program.version == 3 { 4 } else { 1 };
        Session {
            program,
            root: output::root(&root),
            tree: Tree::default(),
            next: 1,
            nodes: Vec::new(),
            laid: Vec::new(),
            view,
            shown_view: view,
            delegates: delegates::standard(),
            pointers: Pointers::new(scale),
            time: 0,
            frames: 0,
            scale,
        }
    }

    pub fn line(&mut self, command: Command, out: &mut Vec<u8>) -> End {
        let end = match command {
            Command::Frame => {
                return match self.frame(out) {
                    Ok(()) => End::Done,
                    Err(fault) => {
                        print_fault(&fault, out);
                        End::Fault
                    }
                }
            }
            Command::At(t) => self.at(t, out),
            Command::Set { node, field, value } => self.set(node, field, value),
            Command::LeftOut => return End::LeftOut,
            Command::Root(json) => return self.replace_root(json),
            Command::Resize(w, h) => self.resize(w, h),
            Command::Scroll { node, by } => self.scroll(node, by),
            Command::Down { pointer, x, y } => self.down(pointer, Offset { x, y }, out),
            Command::Move { pointer, x, y } => {
                self.with_pointer(pointer, out, |p, i, events| p.moved(i, Offset { x, y }, events))
            }
            Command::Up(pointer) => self.with_pointer(pointer, out, |p, i, events| p.up(i, events)),
            Command::Cancel(pointer) => self.with_pointer(pointer, out, |p, i, events| p.cancel(i, events)),
            Command::Hit { x, y } => {
                out.extend_from_slice(b"hits");
                for i in hits::path(&self.nodes, &self.laid, x, y) {
                    put!(out, " #{}", self.nodes[i].number);
                }
                out.push(b'\n');
                Ok(())
            }
            Command::Semantics => {
                out.extend_from_slice(b"semantics\n");
                if let Some(root) = self.semantics() {
                    root.print(0, out);
                }
                out.extend_from_slice(b"end\n");
                Ok(())
            }
            Command::Act { node, long } => self.act(node, long, out),
            Command::Delegate { name, field, n } => match self.delegates.get_mut(name) {
                None => Err(Refusal::NoDelegate),
                Some(d) => d.set(field, n).then_some(()).ok_or(Refusal::NoDelegateField),
            },
            Command::Unplug(name) => self.delegates.remove(name).map(|_| ()).ok_or(Refusal::NoDelegate),
            Command::States => {
                self.states(out);
                Ok(())
            }
        };
        end.map_or_else(End::Refused, |()| End::Done)
    }

    fn frame(&mut self, out: &mut Vec<u8>) -> Result<(), FrameFault> {
        let root = self.root.clone().map_err(|_| FrameFault::OutputTooLarge)?;
        self.tree = tree::build(&self.program, &root, std::mem::take(&mut self.tree), &mut self.next)?;
        self.nodes = render::project(&self.tree);
        self.laid = layout::lay(&self.nodes, self.view, &self.delegates, self.scale);
        self.shown_view = self.view;
        self.frames += 1;
        put!(out, "frame {}\n", self.frames);
        if !self.nodes.is_empty() {
            self.settle(0, out);
        }
        let layers = paint::paint(&self.nodes, &self.laid, &self.delegates, self.scale);
        print::layer(&layers, 0, out);
        out.extend_from_slice(b"end\n");
        self.drop_gone(out);
        Ok(())
    }

    /// Prints the notes of what is shown, and keeps the corrected offsets.
    fn settle(&mut self, i: usize, out: &mut Vec<u8>) {
        let (node, laid) = (&self.nodes[i], &self.laid[i]);
        if !laid.shown {
            return;
        }
        if laid.unbounded {
            put!(out, "note #{} unbounded\n", node.number);
        }
        if laid.overflow > 0 {
            put!(out, "note #{} overflow {}\n", node.number, laid.overflow);
        }
        if matches!(node.widget.kind, Kind::Viewport { .. }) {
            self.tree.nodes[node.node].scroll = laid.scroll;
        }
        for k in 0..self.nodes[i].children.len() {
            self.settle(self.nodes[i].children[k], out);
        }
    }

    fn drop_gone(&mut self, out: &mut Vec<u8>) {
        if self.pointers.all.is_empty() {
            return;
        }
        let mut events = Vec::new();
        let tree = &self.tree;
        self.pointers.drop_gone(|m| handler(tree, m.node, m.gesture).is_none(), &mut events);
        self.effects(events, out);
    }

    fn at(&mut self, t: u64, out: &mut Vec<u8>) -> Result<(), Refusal> {
        if t < self.time {
            return Err(Refusal::TimeGoesBack);
        }
        self.time = t;
        let mut events = Vec::new();
        self.pointers.advance(t, &mut events);
        self.effects(events, out);
        Ok(())
    }

    fn set(&mut self, number: u64, field: &str, value: &str) -> Result<(), Refusal> {
        let at = self.tree.find(number).ok_or(Refusal::NoNode)?;
        let node = &mut self.tree.nodes[at];
        let component = match &node.widget.kind {
            Kind::Use { component, .. } => &self.program.components[*component],
            _ => return Err(Refusal::NotStateful),
        };
        if component.fields.is_empty() {
            return Err(Refusal::NotStateful);
        }
        let place = component.fields.iter().position(|f| f.name == field).ok_or(Refusal::NoField)?;
        node.fields[place] = typed(component.fields[place].ty, value).ok_or(Refusal::WrongType)?;
        Ok(())
    }

    fn replace_root(&mut self, json: &str) -> End {
        let Ok(json) = serde_json::from_str(json) else { return End::Refused(Refusal::BadWidget) };
        let Ok(root) = read::root(&self.program, &json) else { return End::LeftOut };
        self.root = output::root(&root);
        End::Done
    }

    fn resize(&mut self, w: i64, h: i64) -> Result<(), Refusal> {
        if !(1..=VIEW_MAX).contains(&w) || !(1..=VIEW_MAX).contains(&h) {
            return Err(Refusal::ViewOutOfRange);
        }
        self.view = Size { w: w as u64, h: h as u64 };
        Ok(())
    }

    fn scroll(&mut self, number: u64, by: i64) -> Result<(), Refusal> {
        let at = self.tree.find(number).ok_or(Refusal::NoNode)?;
        let node = &mut self.tree.nodes[at];
        if !matches!(node.widget.kind, Kind::Viewport { .. }) {
            return Err(Refusal::NotAViewport);
        }
        node.scroll = (node.scroll as i64 + by).clamp(0, LENGTH_MAX as i64) as u64;
        Ok(())
    }

    fn down(&mut self, pointer: u32, at: Offset, out: &mut Vec<u8>) -> Result<(), Refusal> {
        if self.pointers.find(pointer).is_some() {
            return Err(Refusal::PointerIsDown);
        }
        if self.pointers.all.len() == POINTERS_MAX {
            return Err(Refusal::TooManyPointers);
        }
        let mut members = Vec::new();
        for i in hits::path(&self.nodes, &self.laid, at.x, at.y) {
            if let Kind::Detector { handlers, .. } = &self.nodes[i].widget.kind {
                let node = self.nodes[i].number;
                let with = Gesture::ALL.into_iter().filter(|g| handlers[*g as usize].is_some());
                members.extend(with.map(|gesture| Member { node, gesture }));
            }
        }
        let mut events = Vec::new();
        self.pointers.down(pointer, at, self.time, members, &mut events);
        self.effects(events, out);
        Ok(())
    }

    fn with_pointer(
        &mut self,
        pointer: u32,
        out: &mut Vec<u8>,
        go: impl FnOnce(&mut Pointers, usize, &mut Vec<Event>),
    ) -> Result<(), Refusal> {
        let i = self.pointers.find(pointer).ok_or(Refusal::PointerIsUp)?;
        let mut events = Vec::new();
        go(&mut self.pointers, i, &mut events);
        self.effects(events, out);
        Ok(())
    }

    fn semantics(&self) -> Option<SemNode> {
        if self.frames == 0 {
            return None;
        }
        Some(semantics::semantics(&self.nodes, &self.laid, self.shown_view))
    }

    fn act(&mut self, id: u64, long: bool, out: &mut Vec<u8>) -> Result<(), Refusal> {
        let root = self.semantics().ok_or(Refusal::NoSemanticsNode)?;
        let node = root.find(id).ok_or(Refusal::NoSemanticsNode)?;
        let detector = if long { node.long } else { node.tap }.ok_or(Refusal::NoAction)?;
        let event = if long { Event::Long(detector) } else { Event::Tap(detector) };
        self.effects(vec![event], out);
        Ok(())
    }

    fn effects(&mut self, events: Vec<Event>, out: &mut Vec<u8>) {
        for event in events {
            match event {
                Event::Won(p, m) => put!(out, "arena {} #{} {}\n", p, m.node, m.gesture.name()),
                Event::Nobody(p) => put!(out, "arena {p} none\n"),
                Event::Tap(node) => {
                    put!(out, "tap #{node}\n");
                    self.run_handler(node, Gesture::Tap, (0, 0));
                }
                Event::Long(node) => {
                    put!(out, "long #{node}\n");
                    self.run_handler(node, Gesture::Long, (0, 0));
                }
                Event::Start(m) => put!(out, "start #{} {}\n", m.node, m.gesture.name()),
                Event::Update(m, dx, dy) => {
                    put!(out, "update #{} {} {} {}\n", m.node, m.gesture.name(), dx, dy);
                    self.run_handler(m.node, m.gesture, (dx, dy));
                }
                Event::End(m) => put!(out, "end #{} {}\n", m.node, m.gesture.name()),
            }
        }
    }

    fn run_handler(&mut self, node: u64, gesture: Gesture, event: (i64, i64)) {
        let Some(at) = self.tree.find(node) else { return };
        let widget = self.tree.nodes[at].widget.clone();
        let Kind::Detector { handlers, .. } = &widget.kind else { return };
        let Some(handler) = &handlers[gesture as usize] else { return };
        let Some(owner) = self.tree.find(handler.owner) else { return };
        let fields = &mut self.tree.nodes[owner].fields;
        for (field, e) in &handler.sets {
            fields[*field] = e.eval(&Scope::of_fields(fields, event));
        }
    }

    fn states(&self, out: &mut Vec<u8>) {
        out.extend_from_slice(b"states\n");
        for node in &self.tree.nodes {
            match &node.widget.kind {
                Kind::Use { component, .. } if !node.fields.is_empty() => {
                    let component = &self.program.components[*component];
                    put!(out, "#{} {}", node.number, component.name);
                    for (field, v) in component.fields.iter().zip(&node.fields) {
                        put!(out, " {}=", field.name);
                        print::value(v, out);
                    }
                    out.push(b'\n');
                }
                Kind::Viewport { .. } => put!(out, "#{} Viewport scroll={}\n", node.number, node.scroll),
                _ => (),
            }
        }
        out.extend_from_slice(b"end\n");
    }
}

fn handler(tree: &Tree, node: u64, gesture: Gesture) -> Option<&Handler> {
    match &tree.nodes[tree.find(node)?].widget.kind {
        Kind::Detector { handlers, .. } => handlers[gesture as usize].as_ref(),
        _ => None,
    }
}

fn print_fault(fault: &FrameFault, out: &mut Vec<u8>) {
    match fault {
        FrameFault::RepeatedSiblingKey(key) => {
            out.extend_from_slice(b"fault repeated-sibling-key ");
            print::key(key, out);
            out.push(b'\n');
        }
        FrameFault::RepeatedGlobalKey(name) => {
            out.extend_from_slice(b"fault repeated-global-key ");
            print::value(name, out);
            out.push(b'\n');
        }
        FrameFault::TreeTooLarge => out.extend_from_slice(b"fault tree-too-large\n"),
        FrameFault::OutputTooLarge => out.extend_from_slice(b"fault output-too-large\n"),
    }
}

fn typed(ty: Type, value: &str) -> Option<Value> {
    let json: Json = serde_json::from_str(value).ok()?;
    let text = |j: &Json| j.as_str().filter(|t| t.len() <= 1024).map(Rc::from);
    match (ty, &json) {
        (Type::Int, j) => j.as_i64().map(Value::Int),
        (Type::Bool, j) => j.as_bool().map(Value::Bool),
        (Type::Text, j) => text(j).map(Value::Text),
        (Type::Ints, Json::Array(l)) if l.len() <= 4096 => {
            l.iter().map(Json::as_i64).collect::<Option<_>>().map(Value::Ints)
        }
        (Type::Texts, Json::Array(l)) if l.len() <= 4096 => l.iter().map(text).collect::<Option<_>>().map(Value::Texts),
        _ => None,
    }
}
