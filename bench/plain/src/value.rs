//! Values, expressions and their evaluation.

use std::rc::Rc;

/// A text or list that is made is cut to this many bytes or items.
const TEXT_LIMIT: usize = 1024;
const LIST_LIMIT: usize = 4096;

#[derive(Clone, Debug, PartialEq, Eq, Hash)]
pub enum Value {
    Int(i64),
    Bool(bool),
    Text(Rc<str>),
    Ints(Rc<[i64]>),
    Texts(Rc<[Rc<str>]>),
}

impl Value {
    pub fn int(&self) -> i64 {
        match self {
            Value::Int(n) => *n,
            other => panic!("an int is wanted, not {other:?}"),
        }
    }

    pub fn is_true(&self) -> bool {
        matches!(self, Value::Bool(true))
    }

    pub fn text(&self) -> Rc<str> {
        match self {
            Value::Text(t) => t.clone(),
            other => panic!("a text is wanted, not {other:?}"),
        }
    }
}

#[derive(Clone, Debug)]
pub enum Expr {
    Literal(Value),
    Field(usize),
    Prop(usize),
    Var(usize),
    Inherit(usize),
    EventDx,
    EventDy,
    Ints(Vec<Expr>),
    Texts(Vec<Expr>),
    One(One, Box<Expr>),
    Two(Two, Box<[Expr; 2]>),
    If(Box<[Expr; 3]>),
    At(Box<[Expr; 3]>),
}

#[derive(Clone, Copy, Debug)]
pub enum One {
    Not,
    Len,
    Reverse,
    Range,
    Show,
}

#[derive(Clone, Copy, Debug)]
pub enum Two {
    Add,
    Sub,
    Mul,
    Div,
    Mod,
    Equal,
    Less,
    And,
    Or,
    Cat,
    Push,
    Drop,
}

/// What the names of an expression stand for.
pub struct Scope<'a> {
    pub owner: u64,
    pub fields: &'a [Value],
    pub props: &'a [Value],
    pub inherited: &'a [Value],
    pub vars: Vec<Value>,
    pub event: (i64, i64),
}

impl<'a> Scope<'a> {
    pub fn of_fields(fields: &'a [Value], event: (i64, i64)) -> Self {
        Scope { owner: 0, fields, props: &[], inherited: &[], vars: Vec::new(), event }
    }
}

impl Expr {
    pub fn eval(&self, s: &Scope) -> Value {
        match self {
            Expr::Literal(v) => v.clone(),
            Expr::Field(i) => s.fields[*i].clone(),
            Expr::Prop(i) => s.props[*i].clone(),
            Expr::Var(i) => s.vars[*i].clone(),
            Expr::Inherit(i) => s.inherited[*i].clone(),
            Expr::EventDx => Value::Int(s.event.0),
            Expr::EventDy => Value::Int(s.event.1),
            Expr::Ints(items) => Value::Ints(items.iter().map(|e| e.eval(s).int()).collect()),
            Expr::Texts(items) => Value::Texts(items.iter().map(|e| e.eval(s).text()).collect()),
            Expr::One(op, a) => one(*op, a.eval(s)),
            Expr::Two(op, both) => two(*op, both[0].eval(s), both[1].eval(s)),
            Expr::If(three) => {
                let chosen = if three[0].eval(s).is_true() { &three[1] } else { &three[2] };
                chosen.eval(s)
            }
            Expr::At(three) => item_at(three[0].eval(s), three[1].eval(s).int(), three[2].eval(s)),
        }
    }

    /// The expression with its props, loop variables and inherited names replaced by their values.
    pub fn close(&self, s: &Scope) -> Expr {
        let all = |items: &Vec<Expr>| items.iter().map(|e| e.close(s)).collect();
        match self {
            Expr::Prop(_) | Expr::Var(_) | Expr::Inherit(_) => Expr::Literal(self.eval(s)),
            Expr::Ints(items) => Expr::Ints(all(items)),
            Expr::Texts(items) => Expr::Texts(all(items)),
            Expr::One(op, a) => Expr::One(*op, Box::new(a.close(s))),
            Expr::Two(op, both) => Expr::Two(*op, Box::new([both[0].close(s), both[1].close(s)])),
            Expr::If(three) => Expr::If(close_three(three, s)),
            Expr::At(three) => Expr::At(close_three(three, s)),
            Expr::Literal(_) | Expr::Field(_) | Expr::EventDx | Expr::EventDy => self.clone(),
        }
    }
}

fn close_three(three: &[Expr; 3], s: &Scope) -> Box<[Expr; 3]> {
    Box::new([three[0].close(s), three[1].close(s), three[2].close(s)])
}

fn one(op: One, a: Value) -> Value {
    match (op, a) {
        (One::Not, a) => Value::Bool(!a.is_true()),
        (One::Len, Value::Ints(l)) => Value::Int(l.len() as i64),
        (One::Len, Value::Texts(l)) => Value::Int(l.len() as i64),
        (One::Reverse, Value::Ints(l)) => Value::Ints(l.iter().rev().copied().collect()),
        (One::Reverse, Value::Texts(l)) => Value::Texts(l.iter().rev().cloned().collect()),
        (One::Range, a) => Value::Ints((0..a.int().clamp(0, LIST_LIMIT as i64)).collect()),
        (One::Show, a) => Value::Text(a.int().to_string().into()),
        (op, a) => panic!("{op:?} of {a:?}"),
    }
}

fn two(op: Two, a: Value, b: Value) -> Value {
    match op {
        Two::Add => Value::Int(a.int().saturating_add(b.int())),
        Two::Sub => Value::Int(a.int().saturating_sub(b.int())),
        Two::Mul => Value::Int(a.int().saturating_mul(b.int())),
        Two::Div => Value::Int(floor_div(a.int(), b.int())),
        Two::Mod => Value::Int(floor_mod(a.int(), b.int())),
        Two::Equal => Value::Bool(a == b),
        Two::Less => Value::Bool(a.int() < b.int()),
        Two::And => Value::Bool(a.is_true() && b.is_true()),
        Two::Or => Value::Bool(a.is_true() || b.is_true()),
        Two::Cat => cat(a, b),
        Two::Push => push(a, b),
        Two::Drop => without(a, b.int()),
    }
}

fn floor_div(a: i64, b: i64) -> i64 {
    if b == 0 {
        return 0;
    }
    let (a, b) = (a as i128, b as i128);
    let q = a.div_euclid(b);
    let q = if b < 0 && a.rem_euclid(b) != 0 { q - 1 } else { q };
    q.clamp(i64::MIN as i128, i64::MAX as i128) as i64
}

fn floor_mod(a: i64, b: i64) -> i64 {
    if b == 0 {
        return 0;
    }
    let rest = (a as i128).rem_euclid(b as i128);
    (if b < 0 && rest != 0 { rest + b as i128 } else { rest }) as i64
}

fn cat(a: Value, b: Value) -> Value {
    match (a, b) {
        (Value::Text(a), Value::Text(b)) => {
            let mut joined = String::with_capacity(a.len() + b.len());
            joined.push_str(&a);
            joined.push_str(&b);
            let mut end = joined.len().min(TEXT_LIMIT);
            while !joined.is_char_boundary(end) {
                end -= 1;
            }
            joined.truncate(end);
            Value::Text(joined.into())
        }
        (Value::Ints(a), Value::Ints(b)) => Value::Ints(a.iter().chain(b.iter()).take(LIST_LIMIT).copied().collect()),
        (Value::Texts(a), Value::Texts(b)) => {
            Value::Texts(a.iter().chain(b.iter()).take(LIST_LIMIT).cloned().collect())
        }
        (a, b) => panic!("{a:?} and {b:?} can't be joined"),
    }
}

fn push(list: Value, item: Value) -> Value {
    match (list, item) {
        (Value::Ints(l), Value::Int(n)) if l.len() < LIST_LIMIT => Value::Ints(l.iter().copied().chain([n]).collect()),
        (Value::Texts(l), Value::Text(t)) if l.len() < LIST_LIMIT => {
            Value::Texts(l.iter().cloned().chain([t]).collect())
        }
        (list, _) => list,
    }
}

fn without(list: Value, i: i64) -> Value {
    let others = |len: usize| (0..len).filter(move |k| *k as i64 != i);
    match list {
        Value::Ints(l) => Value::Ints(others(l.len()).map(|k| l[k]).collect()),
        Value::Texts(l) => Value::Texts(others(l.len()).map(|k| l[k].clone()).collect()),
        other => other,
    }
}

fn item_at(list: Value, i: i64, default: Value) -> Value {
    let found = match (usize::try_from(i), &list) {
        (Ok(i), Value::Ints(l)) => l.get(i).map(|n| Value::Int(*n)),
        (Ok(i), Value::Texts(l)) => l.get(i).map(|t| Value::Text(t.clone())),
        _ => None,
    };
    found.unwrap_or(default)
}
