//! The semantics tree, made afresh each time it is asked for.

use crate::geometry::{Offset, Size};
use crate::print::{put, quoted};
use crate::render::{Laid, RenderNode};
use crate::widget::{Gesture, Kind};
use std::io::Write;

pub struct SemNode {
    pub id: u64,
    pub at: Offset,
    pub size: Size,
    pub label: String,
    pub button: bool,
    /// The detectors that do the actions.
    pub tap: Option<u64>,
    pub long: Option<u64>,
    pub children: Vec<SemNode>,
}

enum Part<'a> {
    Label(&'a str),
    Node(SemNode),
}

#[derive(Default)]
struct Gathered<'a> {
    parts: Vec<Part<'a>>,
    button: bool,
}

pub fn semantics(nodes: &[RenderNode], laid: &[Laid], view: Size) -> SemNode {
    let mut all = Gathered::default();
    if !nodes.is_empty() {
        gather(nodes, laid, 0, Offset::default(), &mut all);
    }
    form(0, Offset::default(), view, all)
}

fn gather<'a>(nodes: &'a [RenderNode], laid: &[Laid], i: usize, at: Offset, out: &mut Gathered<'a>) {
    if !laid[i].is_visible() {
        return;
    }
    let node = &nodes[i];
    match &node.widget.kind {
        Kind::ExcludeSemantics { on: true } | Kind::Offstage { on: true } | Kind::Opacity { alpha: 0 } => (),
        Kind::MergeSemantics => {
            let mut own = Gathered::default();
            children(nodes, laid, i, at, &mut own);
            out.parts.push(Part::Node(merge(node.number, at, laid[i].size, own)));
        }
        Kind::Detector { handlers, .. }
            if handlers[Gesture::Tap as usize].is_some() || handlers[Gesture::Long as usize].is_some() =>
        {
            let mut own = Gathered::default();
            children(nodes, laid, i, at, &mut own);
            let mut formed = form(node.number, at, laid[i].size, own);
            formed.tap = handlers[Gesture::Tap as usize].as_ref().map(|_| node.number);
            formed.long = handlers[Gesture::Long as usize].as_ref().map(|_| node.number);
            out.parts.push(Part::Node(formed));
        }
        Kind::Semantics { label, button, container: true } => {
            let mut own = Gathered::default();
            add_own(label, *button, &mut own);
            children(nodes, laid, i, at, &mut own);
            out.parts.push(Part::Node(form(node.number, at, laid[i].size, own)));
        }
        kind => {
            match kind {
                Kind::Semantics { label, button, .. } => add_own(label, *button, out),
                Kind::Text { text, .. } => add_own(text, false, out),
                _ => (),
            }
            children(nodes, laid, i, at, out);
        }
    }
}

fn add_own<'a>(label: &'a str, button: bool, out: &mut Gathered<'a>) {
    if !label.is_empty() {
        out.parts.push(Part::Label(label));
    }
    out.button |= button;
}

fn children<'a>(nodes: &'a [RenderNode], laid: &[Laid], i: usize, at: Offset, out: &mut Gathered<'a>) {
    for c in &nodes[i].children {
        gather(nodes, laid, *c, at.plus(laid[*c].offset), out);
    }
}

/// The node that takes what was gathered below it.
fn form(id: u64, at: Offset, size: Size, all: Gathered) -> SemNode {
    let mut labels = Vec::new();
    let mut children = Vec::new();
    for part in all.parts {
        match part {
            Part::Label(l) => labels.push(l),
            Part::Node(n) => children.push(n),
        }
    }
    SemNode { id, at, size, label: labels.join("\n"), button: all.button, tap: None, long: None, children }
}

/// The node that takes the labels, flags and actions of all nodes below it.
fn merge(id: u64, at: Offset, size: Size, all: Gathered) -> SemNode {
    let mut labels: Vec<&str> = Vec::new();
    let (mut button, mut tap, mut long) = (all.button, None, None);
    let mut take = |n: &SemNode| {
        button |= n.button;
        tap = tap.or(n.tap);
        long = long.or(n.long);
    };
    for part in &all.parts {
        match part {
            Part::Label(l) => labels.push(l),
            Part::Node(n) => preorder(n, &mut |n| {
                take(n);
                if !n.label.is_empty() {
                    labels.push(&n.label);
                }
            }),
        }
    }
    SemNode { id, at, size, label: labels.join("\n"), button, tap, long, children: Vec::new() }
}

fn preorder<'n>(n: &'n SemNode, each: &mut impl FnMut(&'n SemNode)) {
    each(n);
    for c in &n.children {
        preorder(c, each);
    }
}

impl SemNode {
    pub fn find(&self, id: u64) -> Option<&SemNode> {
        if self.id == id {
            return Some(self);
        }
        self.children.iter().find_map(|c| c.find(id))
    }

    pub fn print(&self, depth: usize, out: &mut Vec<u8>) {
        out.extend(std::iter::repeat_n(b' ', 2 * depth));
        put!(out, "#{} {} {} {} {} ", self.id, self.at.x, self.at.y, self.size.w, self.size.h);
        quoted(&self.label, out);
        for (on, word) in [(self.button, " button"), (self.tap.is_some(), " tap"), (self.long.is_some(), " long")] {
            if on {
                out.extend_from_slice(word.as_bytes());
            }
        }
        out.push(b'\n');
        for c in &self.children {
            c.print(depth + 1, out);
        }
    }
}
