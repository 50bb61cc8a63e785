//! Pointers, their arenas, and what comes of them.

use crate::geometry::Offset;
use crate::widget::Gesture;

const LONG_AFTER: u64 = 500;
pub const POINTERS_MAX: usize = 32;

#[derive(Clone, Copy, Debug, PartialEq, Eq)]
pub struct Member {
    pub node: u64,
    pub gesture: Gesture,
}

pub enum Event {
    Won(u32, Member),
    Nobody(u32),
    Tap(u64),
    Long(u64),
    Start(Member),
    Update(Member, i64, i64),
    End(Member),
}

#[derive(Clone, Copy, PartialEq, Eq)]
enum Decision {
    Wait,
    Reject,
    Accept,
}

enum Moment {
    Down,
    Move,
    Up,
    Cancel,
    Timer,
    Drop,
}

pub struct Pointer {
    pub id: u32,
    pub members: Vec<Member>,
    down_at: Offset,
    last: Offset,
    due: Option<u64>,
    decisions: Vec<Decision>,
    decided: bool,
    winner: Option<usize>,
    dropped: bool,
}

pub struct Pointers {
    pub all: Vec<Pointer>,
    slop: i64,
}

impl Pointers {
    pub fn new(scale: u64) -> Pointers {
        Pointers { all: Vec::new(), slop: 1152 * scale as i64 }
    }

    pub fn find(&self, id: u32) -> Option<usize> {
        self.all.iter().position(|p| p.id == id)
    }

    pub fn down(&mut self, id: u32, at: Offset, now: u64, members: Vec<Member>, events: &mut Vec<Event>) {
        let mut p = Pointer {
            id,
            decisions: vec![Decision::Wait; members.len()],
            decided: members.is_empty(),
            members,
            down_at: at,
            last: at,
            due: Some(now + LONG_AFTER),
            winner: None,
            dropped: false,
        };
        p.settle(Moment::Down, at, events);
        self.all.push(p);
    }

    pub fn moved(&mut self, i: usize, at: Offset, events: &mut Vec<Event>) {
        let slop = self.slop;
        let p = &mut self.all[i];
        let (dx, dy) = (at.x - p.down_at.x, at.y - p.down_at.y);
        let beyond = |limit: i64| dx as i128 * dx as i128 + dy as i128 * dy as i128 > limit as i128 * limit as i128;
        for (m, d) in p.members.iter().zip(&mut p.decisions) {
            if *d == Decision::Wait {
                *d = match m.gesture {
                    Gesture::Tap | Gesture::Long if beyond(slop) => Decision::Reject,
                    Gesture::Vertical if dy.abs() > slop => Decision::Accept,
                    Gesture::Horizontal if dx.abs() > slop => Decision::Accept,
                    Gesture::Pan if beyond(2 * slop) => Decision::Accept,
                    _ => Decision::Wait,
                };
            }
        }
        p.settle(Moment::Move, at, events);
        p.last = at;
    }

    pub fn up(&mut self, i: usize, events: &mut Vec<Event>) {
        let mut p = self.all.remove(i);
        for (m, d) in p.members.iter().zip(&mut p.decisions) {
            if *d == Decision::Wait && m.gesture != Gesture::Tap {
                *d = Decision::Reject;
            }
        }
        let at = p.last;
        p.settle(Moment::Up, at, events);
    }

    pub fn cancel(&mut self, i: usize, events: &mut Vec<Event>) {
        let mut p = self.all.remove(i);
        for d in &mut p.decisions {
            if *d == Decision::Wait {
                *d = Decision::Reject;
            }
        }
        let at = p.last;
        p.settle(Moment::Cancel, at, events);
    }

    /// Long presses that are due until now, by their time, then in order of down.
    pub fn advance(&mut self, now: u64, events: &mut Vec<Event>) {
        while let Some(due) = self.all.iter().filter_map(|p| p.due).min().filter(|due| *due <= now) {
            for p in self.all.iter_mut().filter(|p| p.due == Some(due)) {
                p.due = None;
                for (m, d) in p.members.iter().zip(&mut p.decisions) {
                    if *d == Decision::Wait && m.gesture == Gesture::Long {
                        *d = Decision::Accept;
                    }
                }
                let at = p.last;
                p.settle(Moment::Timer, at, events);
            }
        }
    }

    /// Drops the members that are gone, as one moment of each pointer that has one.
    pub fn drop_gone(&mut self, gone: impl Fn(Member) -> bool, events: &mut Vec<Event>) {
        for p in &mut self.all {
            let mut any = false;
            for k in 0..p.members.len() {
                if gone(p.members[k]) {
                    any = true;
                    if p.decisions[k] == Decision::Wait {
                        p.decisions[k] = Decision::Reject;
                    }
                    p.dropped |= p.winner == Some(k);
                }
            }
            if any {
                let at = p.last;
                p.settle(Moment::Drop, at, events);
            }
        }
    }
}

impl Pointer {
    /// Decides the arena where it can be, and does the winner's effects of this moment.
    fn settle(&mut self, moment: Moment, at: Offset, events: &mut Vec<Event>) {
        let before = self.winner;
        if !self.decided {
            let (decided, winner) = self.decide(&moment);
            self.decided = decided;
            self.winner = winner;
            match winner {
                Some(k) => events.push(Event::Won(self.id, self.members[k])),
                None if decided => events.push(Event::Nobody(self.id)),
                None => (),
            }
        }
        let Some(k) = self.winner.filter(|_| !self.dropped) else { return };
        let member = self.members[k];
        match (member.gesture, moment) {
            (Gesture::Tap, Moment::Up) if self.decisions[k] != Decision::Reject => events.push(Event::Tap(member.node)),
            (Gesture::Long, Moment::Timer) if self.decisions[k] == Decision::Accept => {
                events.push(Event::Long(member.node))
            }
            (Gesture::Tap | Gesture::Long, _) => (),
            (_, _) if before.is_none() => events.push(Event::Start(member)),
            (gesture, Moment::Move) => {
                let (dx, dy) = (at.x - self.last.x, at.y - self.last.y);
                let dx = if gesture == Gesture::Vertical { 0 } else { dx };
                let dy = if gesture == Gesture::Horizontal { 0 } else { dy };
                events.push(Event::Update(member, dx, dy));
            }
            (_, Moment::Up | Moment::Cancel) => events.push(Event::End(member)),
            _ => (),
        }
    }

    fn decide(&self, moment: &Moment) -> (bool, Option<usize>) {
        let mut living = (0..self.members.len()).filter(|k| self.decisions[*k] != Decision::Reject);
        if let Some(k) = (0..self.members.len()).find(|k| self.decisions[*k] == Decision::Accept) {
            return (true, Some(k));
        }
        match (living.next(), living.next()) {
            (None, _) => (true, None),
            (Some(k), None) => (true, Some(k)),
            (Some(k), Some(_)) if matches!(moment, Moment::Up) => (true, Some(k)),
            _ => (false, None),
        }
    }
}
