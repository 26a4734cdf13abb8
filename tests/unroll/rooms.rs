//! Random cases to be written back: any numbers that may be taken, in rooms from empty to full. What such a plan means doesn't matter, and few are
//! finished.
use crate::random::{Random, HIGHEST, LOWEST};
use crate::reader::*;
use crate::writer;

/// A number of a range: an end of it, one of few digits, or any.
fn number(r: &mut Random, low: i64, high: i64) -> Option<i64> {
    let most = 10_i64.pow(r.below(8) as u32);
    let of_some_size = r.between(-most, most).clamp(low, high);
    let any = r.between(low, high);
    Some(r.pick(&[low, high, any, any, of_some_size, of_some_size, of_some_size]))
}

/// The number of one of so many items.
fn item(r: &mut Random, count: usize) -> Option<i64> {
    Some(r.below(count) as i64)
}

/// A case in the making; `full` where every room is to be filled.
struct Maker<'a> {
    r: &'a mut Random,
    case: Case,
    full: bool,
}

impl Maker<'_> {
    fn count(&self, kind: usize) -> usize {
        self.case.0[kind].len()
    }

    /// How many items of a kind there are to be.
    fn wanted(&mut self, kind: usize) -> usize {
        let some = self.r.below(ROOM[kind].min(5) + 1);
        if self.full || self.r.chance(3) {
            ROOM[kind]
        } else if self.r.chance(5) {
            self.r.below(ROOM[kind] + 1)
        } else {
            some
        }
    }

    /// Items of a kind, as many as are wanted, or as there can be.
    fn items(&mut self, kind: usize, make: fn(&mut Self) -> Option<Fields>) {
        for _ in 0..self.wanted(kind) {
            let Some(fields) = make(self) else { break };
            self.case.0[kind].push(fields);
        }
    }

    fn state(&mut self) -> Option<Fields> {
        let mut fields = [None; 9];
        fields[1] = number(self.r, 0, 65_535);
        Some(fields)
    }

    fn weights(&mut self) -> Option<Fields> {
        let mut fields = [None; 9];
        fields[1..5].fill_with(|| number(self.r, LOWEST, HIGHEST));
        Some(fields)
    }

    fn guard(&mut self) -> Option<Fields> {
        let mut fields = [None; 9];
        fields[1..5].fill_with(|| number(self.r, -999, 999));
        fields[5] = number(self.r, LOWEST, HIGHEST);
        Some(fields)
    }

    /// A move, where there is a state, with no guard, one or two.
    fn step(&mut self) -> Option<Fields> {
        let (states, guards) = (self.count(S), self.count(G));
        if states == 0 {
            return None;
        }
        let mut fields = [None; 9];
        fields[1..3].fill_with(|| item(self.r, states));
        fields[3..7].fill_with(|| number(self.r, -9_999, 9_999));
        let named = if guards > 0 { self.r.below(3) } else { 0 };
        fields[7..7 + named].fill_with(|| item(self.r, guards));
        Some(fields)
    }

    /// A sentence of a form whose parts are there, an until with no term, one or two.
    fn sentence(&mut self) -> Option<Fields> {
        let (guards, before) = (self.count(G), self.count(F));
        let form = match self.r.between(0, 8).min(6) {
            2 if guards == 0 => 1,
            3.. if before == 0 => 0,
            form => form,
        };
        let mut fields = [None; 9];
        fields[1] = Some(form);
        match form {
            0 => {}
            1 => fields[2] = number(self.r, 0, 15),
            2 => fields[2] = item(self.r, guards),
            4 | 5 => fields[2] = item(self.r, before),
            _ => fields[2..4].fill_with(|| item(self.r, before)),
        }
        if form == 6 {
            fields[4] = number(self.r, LOWEST, HIGHEST);
            for term in fields[5..5 + 2 * self.r.below(3)].chunks_mut(2) {
                term.copy_from_slice(&[number(self.r, -999, 999), item(self.r, before)]);
            }
        }
        Some(fields)
    }

    /// The place behind the last loop, and whether it is endless.
    fn last_loop(&self) -> (usize, bool) {
        let begins = |at: &usize| self.case.0[P][*at][4].is_some();
        let last = (0..self.count(P)).rev().find(begins);
        last.map_or((0, false), |first| (first + self.case.number(P, first, 4), self.case.0[P][first][5].is_none()))
    }

    /// A place, where there is a state and a way into it, and the endless loop isn't closed.
    fn place(&mut self) -> Option<Fields> {
        let (states, moves, here) = (self.count(S), self.count(T), self.count(P));
        let (end, endless) = self.last_loop();
        if states == 0 || here > 0 && moves == 0 || endless && end <= here {
            return None;
        }
        let mut fields = [None; 9];
        fields[1] = item(self.r, states);
        fields[2] = if here > 0 { item(self.r, moves) } else { None };
        fields[3] = number(self.r, 0, (1 << self.count(F)) - 1);
        if end <= here && moves > 0 && self.r.chance(50) {
            fields[4..7].copy_from_slice(&self.loop_mark(64 - here as i64, moves));
        }
        Some(fields)
    }

    /// A loop of so many places at most; an endless one takes them all where every room is to be filled.
    fn loop_mark(&mut self, most: i64, moves: usize) -> [Option<i64>; 3] {
        let length = if self.r.chance(5) { most } else { self.r.between(1, most.min(4)) };
        let rounds = if self.r.chance(25) && (!self.full || length == most) { None } else { number(self.r, 1, 1_000_000) };
        [Some(length), rounds, item(self.r, moves)]
    }
}

/// A case that may be held; some fill every room.
fn any_case(r: &mut Random) -> Case {
    let full = r.chance(3);
    let mut maker = Maker { r, case: Case::default(), full };
    maker.items(S, Maker::state);
    maker.items(W, Maker::weights);
    maker.items(G, Maker::guard);
    maker.items(T, Maker::step);
    maker.items(F, Maker::sentence);
    maker.items(P, Maker::place);
    maker.case
}

/// The file of such a case; a third of them are cut, have a byte changed, or a record twice.
pub fn any_rooms(r: &mut Random) -> Vec<u8> {
    let mut bytes = writer::case(&any_case(r));
    if bytes.is_empty() || r.chance(67) {
        return bytes;
    }
    let (at, records) = (r.below(bytes.len()), bytes.len() / LENGTH);
    match r.below(3) {
        0 => bytes.truncate(at),
        1 => bytes[at] = r.pick(b" 0-19\nSWGTFP,+\0\xff"),
        _ => {
            let (from, to) = (r.below(records) * LENGTH, r.below(records + 1) * LENGTH);
            let copy = bytes[from..from + LENGTH].to_vec();
            bytes.splice(to..to, copy);
        }
    }
    bytes
}
