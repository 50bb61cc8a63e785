//! Script lines: their words and numbers.

use crate::widget::LENGTH_MAX;

pub enum Command<'a> {
    Frame,
    At(u64),
    Set {
        node: u64,
        field: &'a str,
        value: &'a str,
    },
    Root(&'a str),
    Resize(i64, i64),
    Scroll {
        node: u64,
        by: i64,
    },
    Down {
        pointer: u32,
        x: i64,
        y: i64,
    },
    Move {
        pointer: u32,
        x: i64,
        y: i64,
    },
    Up(u32),
    Cancel(u32),
    Hit {
        x: i64,
        y: i64,
    },
    Semantics,
    Act {
        node: u64,
        long: bool,
    },
    Delegate {
        name: &'a str,
        field: &'a str,
        n: i64,
    },
    Unplug(&'a str),
    States,
    /// A word that this program leaves out.
    LeftOut,
}

#[derive(Clone, Copy)]
pub enum Refusal {
    LineTooLong = 1,
    NotUtf8 = 2,
    UnknownLine = 3,
    BadNumber = 4,
    TimeGoesBack = 5,
    NoNode = 6,
    NotStateful = 7,
    NoField = 8,
    WrongType = 9,
    NotAViewport = 10,
    PointerIsDown = 11,
    PointerIsUp = 12,
    TooManyPointers = 13,
    NoDelegate = 14,
    NoDelegateField = 15,
    BadWidget = 16,
    ViewOutOfRange = 18,
    NoSemanticsNode = 19,
    NoAction = 20,
}

impl Refusal {
    pub fn name(self) -> &'static str {
        match self {
            Refusal::LineTooLong => "LineTooLong",
            Refusal::NotUtf8 => "NotUtf8",
            Refusal::UnknownLine => "UnknownLine",
            Refusal::BadNumber => "BadNumber",
            Refusal::TimeGoesBack => "TimeGoesBack",
            Refusal::NoNode => "NoNode",
            Refusal::NotStateful => "NotStateful",
            Refusal::NoField => "NoField",
            Refusal::WrongType => "WrongType",
            Refusal::NotAViewport => "NotAViewport",
            Refusal::PointerIsDown => "PointerIsDown",
            Refusal::PointerIsUp => "PointerIsUp",
            Refusal::TooManyPointers => "TooManyPointers",
            Refusal::NoDelegate => "NoDelegate",
            Refusal::NoDelegateField => "NoDelegateField",
            Refusal::BadWidget => "BadWidget",
            Refusal::ViewOutOfRange => "ViewOutOfRange",
            Refusal::NoSemanticsNode => "NoSemanticsNode",
            Refusal::NoAction => "NoAction",
        }
    }
}

const LINE_LIMIT: usize = 65_536;
const COORDINATE: i64 = 1 << 30;

/// A line without one U+000D and then all U+0020 at its end.
pub fn trimmed(line: &[u8]) -> &[u8] {
    let line = line.strip_suffix(b"\r").unwrap_or(line);
    let kept = line.iter().rposition(|b| *b != b' ').map_or(0, |i| i + 1);
    &line[..kept]
}

fn number(word: &str, low: i64, high: i64) -> Result<i64, Refusal> {
    let digits = word.strip_prefix('-').unwrap_or(word);
    if digits.is_empty() || digits.len() > 19 || !digits.bytes().all(|b| b.is_ascii_digit()) {
        return Err(Refusal::BadNumber);
    }
    match word.parse::<i64>() {
        Ok(n) if low <= n && n <= high => Ok(n),
        _ => Err(Refusal::BadNumber),
    }
}

fn node(word: &str) -> Result<u64, Refusal> {
    let digits = word.strip_prefix('#').ok_or(Refusal::BadNumber)?;
    number(digits, 0, 1_000_000_000_000_000_000).map(|n| n as u64)
}

fn pointer(word: &str) -> Result<u32, Refusal> {
    number(word, 0, u32::MAX as i64).map(|n| n as u32)
}

fn coordinate(word: &str) -> Result<i64, Refusal> {
    number(word, -COORDINATE, COORDINATE)
}

/// The command of a trimmed line that isn't empty.
pub fn command(line: &[u8]) -> Result<Command<'_>, Refusal> {
    if line.len() > LINE_LIMIT {
        return Err(Refusal::LineTooLong);
    }
    let line = std::str::from_utf8(line).map_err(|_| Refusal::NotUtf8)?;
    let (first, rest) = line.split_once(' ').map_or((line, None), |(a, b)| (a, Some(b)));
    match (first, rest) {
        ("root", Some(json)) => return Ok(Command::Root(json)),
        ("set", Some(rest)) => {
            let mut words = rest.splitn(3, ' ');
            return match (words.next(), words.next(), words.next()) {
                (Some(n), Some(field), Some(value)) => Ok(Command::Set { node: node(n)?, field, value }),
                _ => Err(Refusal::UnknownLine),
            };
        }
        _ => (),
    }
    let length = LENGTH_MAX as i64;
    let mut words = [""; 4];
    let mut count = 0;
    for word in line.split(' ') {
        if count == words.len() {
            return if words[0] == "tween" { Ok(Command::LeftOut) } else { Err(Refusal::UnknownLine) };
        }
        words[count] = word;
        count += 1;
    }
    match &words[..count] {
        ["frame"] => Ok(Command::Frame),
        ["semantics"] => Ok(Command::Semantics),
        ["states"] => Ok(Command::States),
        ["at", t] => Ok(Command::At(number(t, 0, 1_000_000_000_000)? as u64)),
        ["resize", w, h] => Ok(Command::Resize(number(w, -(1 << 53), 1 << 53)?, number(h, -(1 << 53), 1 << 53)?)),
        ["scroll", n, by] => Ok(Command::Scroll { node: node(n)?, by: number(by, -length, length)? }),
        ["down", p, x, y] => Ok(Command::Down { pointer: pointer(p)?, x: coordinate(x)?, y: coordinate(y)? }),
        ["move", p, x, y] => Ok(Command::Move { pointer: pointer(p)?, x: coordinate(x)?, y: coordinate(y)? }),
        ["up", p] => Ok(Command::Up(pointer(p)?)),
        ["cancel", p] => Ok(Command::Cancel(pointer(p)?)),
        ["hit", x, y] => Ok(Command::Hit { x: coordinate(x)?, y: coordinate(y)? }),
        ["act", n, action @ ("tap" | "long")] => Ok(Command::Act { node: node(n)?, long: *action == "long" }),
        ["delegate", name, field, n] => Ok(Command::Delegate { name, field, n: number(n, -length, length)? }),
        ["tween" | "focus" | "press" | "cells", ..] => Ok(Command::LeftOut),
        ["unplug", name] => Ok(Command::Unplug(name)),
        _ => Err(Refusal::UnknownLine),
    }
}
