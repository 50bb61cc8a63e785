//! The tree of nodes, and the walk that builds it: every widget of every frame, matched with the tree before it.

use crate::output;
use crate::program::Program;
use crate::value::{Scope, Value};
use crate::widget::{Key, Kind, Widget};
use std::collections::{HashMap, HashSet};
use std::rc::Rc;

const DEPTH_LIMIT: u32 = 512;

pub struct Node {
    pub number: u64,
    pub widget: Rc<Widget>,
    pub fields: Vec<Value>,
    pub scroll: u64,
    pub children: Vec<usize>,
}

#[derive(Debug)]
pub enum FrameFault {
    RepeatedSiblingKey(Key),
    RepeatedGlobalKey(Value),
    TreeTooLarge,
    OutputTooLarge,
}

/// The nodes in preorder, and where the one with a number or a global key stands.
#[derive(Default)]
pub struct Tree {
    pub nodes: Vec<Node>,
    pub places: HashMap<u64, usize>,
    global: HashMap<Value, usize>,
}

impl Tree {
    pub fn find(&self, number: u64) -> Option<usize> {
        self.places.get(&number).copied()
    }
}

struct Walk<'a> {
    program: &'a Program,
    limit: usize,
    old: Tree,
    new: Tree,
    next: u64,
    inherited: Vec<Value>,
}

/// The tree of the next frame.
pub fn build(p: &Program, root: &Rc<Widget>, old: Tree, next: &mut u64) -> Result<Tree, FrameFault> {
    let size = old.nodes.len();
    let new = Tree { nodes: Vec::with_capacity(size), places: HashMap::with_capacity(size), global: HashMap::new() };
    let limit = if p.version == 3 { 1 << 20 } else { 1 << 16 };
    let mut walk = Walk { program: p, limit, old, new, next: *next, inherited: p.defaults.clone() };
    let matched = walk.old.nodes.first().filter(|n| n.widget.can_update(root)).map(|_| 0);
    walk.enter(root, matched, 1)?;
    *next = walk.next;
    Ok(walk.new)
}

impl Walk<'_> {
    fn enter(&mut self, w: &Rc<Widget>, matched: Option<usize>, depth: u32) -> Result<usize, FrameFault> {
        let at = self.new.nodes.len();
        if at == self.limit || depth > DEPTH_LIMIT {
            return Err(FrameFault::TreeTooLarge);
        }
        let matched = match &w.key {
            Key::Global(name) => self.claim(name, w, at)?,
            _ => matched,
        };
        let old_children = self.make(w, matched);
        match &w.kind {
            Kind::Use { component, props, slots } => {
                let node = &self.new.nodes[at];
                let mut scope = Scope::of_fields(&node.fields, (0, 0));
                scope.owner = node.number;
                scope.props = props;
                scope.inherited = &self.inherited;
                let body = output::component(self.program, *component, scope, slots)
                    .map_err(|_| FrameFault::OutputTooLarge)?;
                self.children(at, std::slice::from_ref(&body), &old_children, depth)?;
            }
            Kind::Inherit { name, value } => {
                let outer = std::mem::replace(&mut self.inherited[*name], value.clone());
                self.children(at, &w.children, &old_children, depth)?;
                self.inherited[*name] = outer;
            }
            _ => self.children(at, &w.children, &old_children, depth)?,
        }
        Ok(at)
    }

    /// The node of the last frame that has this global key and the widget's type.
    fn claim(&mut self, name: &Value, w: &Widget, at: usize) -> Result<Option<usize>, FrameFault> {
        if self.new.global.insert(name.clone(), at).is_some() {
            return Err(FrameFault::RepeatedGlobalKey(name.clone()));
        }
        let old = self.old.global.get(name).copied();
        Ok(old.filter(|i| self.old.nodes[*i].widget.same_type(w)))
    }

    /// Adds the widget's node, which goes on from the matched one, and gives that one's children.
    fn make(&mut self, w: &Rc<Widget>, matched: Option<usize>) -> Vec<usize> {
        let (number, fields, scroll, old_children) = match matched {
            Some(i) => {
                let old = &mut self.old.nodes[i];
                (old.number, std::mem::take(&mut old.fields), old.scroll, std::mem::take(&mut old.children))
            }
            None => {
                self.next += 1;
                let fields = match &w.kind {
                    Kind::Use { component, props, .. } => output::first_fields(self.program, *component, props),
                    _ => Vec::new(),
                };
                (self.next - 1, fields, 0, Vec::new())
            }
        };
        self.new.places.insert(number, self.new.nodes.len());
        self.new.nodes.push(Node { number, widget: w.clone(), fields, scroll, children: Vec::new() });
        old_children
    }

    fn children(&mut self, at: usize, new: &[Rc<Widget>], old: &[usize], depth: u32) -> Result<(), FrameFault> {
        if let Some(key) = first_repeat(new) {
            return Err(FrameFault::RepeatedSiblingKey(key.clone()));
        }
        let mut places = Vec::with_capacity(new.len());
        let matched = if old.is_empty() { Vec::new() } else { self.match_children(new, old) };
        for (i, w) in new.iter().enumerate() {
            let matched = matched.get(i).copied().flatten();
            places.push(self.enter(w, matched, depth + 1)?);
        }
        self.new.nodes[at].children = places;
        Ok(())
    }

    /// For each new child the old one that goes on: the longest prefix, the longest suffix, and keys between them.
    fn match_children(&self, new: &[Rc<Widget>], old: &[usize]) -> Vec<Option<usize>> {
        let fits = |i: usize, w: &Widget| self.old.nodes[i].widget.can_update(w);
        let prefix = old.iter().zip(new).take_while(|(i, w)| fits(**i, w)).count();
        let most = old.len().min(new.len()) - prefix;
        let pairs = old.iter().rev().zip(new.iter().rev()).take(most);
        let suffix = pairs.take_while(|(i, w)| fits(**i, w)).count();
        let keyed: HashMap<&Key, usize> = old[prefix..old.len() - suffix]
            .iter()
            .filter(|i| self.old.nodes[**i].widget.is_keyed())
            .map(|i| (&self.old.nodes[*i].widget.key, *i))
            .collect();
        new.iter()
            .enumerate()
            .map(|(i, w)| {
                if i < prefix {
                    Some(old[i])
                } else if i >= new.len() - suffix {
                    Some(old[old.len() - (new.len() - i)])
                } else {
                    keyed.get(&w.key).copied().filter(|j| fits(*j, w))
                }
            })
            .collect()
    }
}

/// The first key that equals an earlier one.
fn first_repeat(children: &[Rc<Widget>]) -> Option<&Key> {
    children.iter().filter(|w| w.is_keyed()).nth(1)?;
    let mut seen = HashSet::new();
    children.iter().filter(|w| w.is_keyed()).map(|w| &w.key).find(|key| !seen.insert(*key))
}
