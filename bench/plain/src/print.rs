//! The text of frames.

use crate::paint::{Item, Layer, LayerKind};
use crate::value::Value;
use crate::widget::Key;
use std::io::Write;

fn indent(depth: usize, out: &mut Vec<u8>) {
    out.extend(std::iter::repeat_n(b' ', 2 * depth));
}

/// Appends formatted text; a Vec takes all that is written.
macro_rules! put {
    ($out:expr, $($rest:tt)*) => { write!($out, $($rest)*).unwrap() };
}
pub(crate) use put;

pub fn layer(l: &Layer, depth: usize, out: &mut Vec<u8>) {
    indent(depth, out);
    match &l.kind {
        LayerKind::Offset(at) => put!(out, "offset {} {}\n", at.x, at.y),
        LayerKind::Opacity(at, alpha) => put!(out, "opacity {} {} {}\n", at.x, at.y, alpha),
        LayerKind::Clip(at, size) => put!(out, "clip {} {} {} {}\n", at.x, at.y, size.w, size.h),
    }
    let mut in_picture = false;
    for item in &l.items {
        if let Item::Layer(below) = item {
            layer(below, depth + 1, out);
            in_picture = false;
            continue;
        }
        if !in_picture {
            indent(depth + 1, out);
            out.extend_from_slice(b"picture\n");
            in_picture = true;
        }
        indent(depth + 2, out);
        record(item, out);
    }
}

fn record(item: &Item, out: &mut Vec<u8>) {
    match item {
        Item::Rect { at, size, color } => {
            put!(out, "rect {} {} {} {} {:08x}\n", at.x, at.y, size.w, size.h, color)
        }
        Item::Run { at, color, text, part } => {
            put!(out, "text {} {} {:08x} ", at.x, at.y, color);
            quoted(&text[part.clone()], out);
            out.push(b'\n');
        }
        Item::Layer(_) => (),
    }
}

pub fn quoted(text: &str, out: &mut Vec<u8>) {
    out.push(b'"');
    for byte in text.bytes() {
        match byte {
            b'"' | b'\\' => out.extend_from_slice(&[b'\\', byte]),
            0..=0x1f | 0x7f => put!(out, "\\u{:04x}", byte),
            _ => out.push(byte),
        }
    }
    out.push(b'"');
}

pub fn value(v: &Value, out: &mut Vec<u8>) {
    match v {
        Value::Int(n) => put!(out, "{n}"),
        Value::Bool(b) => put!(out, "{b}"),
        Value::Text(t) => quoted(t, out),
        Value::Ints(l) => list(l.iter(), out, |n, out| put!(out, "{n}")),
        Value::Texts(l) => list(l.iter(), out, |t, out| quoted(t, out)),
    }
}

fn list<T>(items: impl Iterator<Item = T>, out: &mut Vec<u8>, one: impl Fn(T, &mut Vec<u8>)) {
    out.push(b'[');
    for (i, item) in items.enumerate() {
        if i > 0 {
            out.push(b',');
        }
        one(item, out);
    }
    out.push(b']');
}

pub fn key(k: &Key, out: &mut Vec<u8>) {
    match k {
        Key::None => (),
        Key::Local(v) => value(v, out),
        Key::Global(v) => {
            out.extend_from_slice(b"global ");
            value(v, out);
        }
    }
}
