// Plain Rust that judges a case, by the same computation as the proved judge's: one pass forward over the places for the counters, and one
// backward for each until. Its cost doesn't depend on the number of rounds.
use crate::plain::{Answer, Case, Counters, Form, Kind, LoopMark, COUNTERS, PLACES};

// Whether something is true in every round of a place, in none, or in some only.
#[derive(Clone, Copy, PartialEq)]
pub enum Throughout {
    Always,
    Never,
    Changes,
}
use Throughout::{Always, Changes, Never};

// Rounds, counted from 0: none, those up to a last one, or all.
#[derive(Clone, Copy)]
enum Rounds {
    None,
    UpTo(u32),
    Ever,
}

// Best sums of an until as numbers: no sum, sums without end, and less than any sum of a part of a round.
const NONE: i64 = -10_000_000_000_000_000;
const ANY: i64 = 100_000_000_000_000;
const LEAST: i64 = -1_000_000;

// What a place does to the best sum of the next: what stopping there gives, and what going on from there adds.
#[derive(Clone, Copy)]
struct Step {
    stop: i64,
    go: i64,
}

// The run of a plan: by place, the first place of its loop or itself, and the counters in its first round.
pub struct Run {
    first: [u8; PLACES],
    base: [Counters; PLACES],
}

fn flag(x: bool) -> Throughout {
    if x {
        Always
    } else {
        Never
    }
}

fn agree(first: bool, last: bool) -> Throughout {
    if first == last {
        flag(first)
    } else {
        Changes
    }
}

impl Rounds {
    // All but the first of them, counted from 0 again.
    fn later(self) -> Rounds {
        match self {
            Rounds::UpTo(last) if last > 0 => Rounds::UpTo(last - 1),
            Rounds::Ever => Rounds::Ever,
            _ => Rounds::None,
        }
    }
}

impl LoopMark {
    fn rounds(self) -> Rounds {
        match self {
            LoopMark::None => Rounds::UpTo(0),
            LoopMark::Counted { rounds, .. } => Rounds::UpTo(rounds - 1),
            LoopMark::Endless { .. } => Rounds::Ever,
        }
    }
}

impl Step {
    // The best at a place, where v is the best at the next.
    fn before(v: i64, step: &Step) -> i64 {
        step.stop.max(step.go + v)
    }
}

// n rounds and then v, where within is the best inside a round and sum that of a whole one.
fn power(n: u32, within: i64, sum: i64, v: i64) -> i64 {
    match n {
        0 => v,
        _ if sum < LEAST => within,
        n => (within + (n as i64 - 1) * sum.max(0)).max(v + n as i64 * sum),
    }
}

impl Run {
    pub fn of(case: &Case) -> Run {
        let mut run = Run { first: [0; PLACES], base: [[0; COUNTERS]; PLACES] };
        let mut counters = case.weights[0].map(i64::from);
        let mut first = 0;
        while first < case.places() {
            let mark = case.places[first].mark;
            let end = first + mark.length();
            for p in first..end {
                if let Some(way) = case.places[p].way {
                    case.moves[way as usize].add_to(&mut counters);
                }
                run.first[p] = first as u8;
                run.base[p] = counters;
            }
            if let LoopMark::Counted { rounds, .. } = mark {
                for j in 0..COUNTERS {
                    counters[j] += (rounds as i64 - 1) * case.drifts[first][j];
                }
            }
            first = end;
        }
        run
    }
}

impl Case {
    pub fn sentences(&self) -> usize {
        self.count[Kind::Sentence as usize]
    }

    pub fn places(&self) -> usize {
        self.count[Kind::Place as usize]
    }

    fn marked(&self, sentence: u8, place: usize) -> bool {
        self.places[place].marks >> sentence & 1 == 1
    }

    // Takes a file; or tells the three numbers of the first record that is refused.
    pub fn take_file(&mut self, src: &[u8]) -> Result<(), [usize; 3]> {
        match self.take_all(src) {
            Answer::Taken => Ok(()),
            Answer::Refused(result, what) => Err([result as usize, self.count.iter().sum(), what as usize]),
        }
    }

    // Whether there is a sentence and the endless loop has closed.
    pub fn finished(&self) -> bool {
        self.sentences() > 0 && self.endless && self.end <= self.places()
    }

    // The run of a plan; or the three numbers of the first that applies of 24, 31, 32 and 33.
    pub fn run(&self) -> Result<Run, [usize; 3]> {
        if !self.finished() {
            return Err([24, self.count.iter().sum(), 0]);
        }
        if self.places[0].state != 0 {
            return Err([31, 0, 0]);
        }
        if let Some((place, way)) = self.unconnected() {
            return Err([32, place, way as usize]);
        }
        let run = Run::of(self);
        if let Some((place, guard)) = self.failing(&run) {
            return Err([33, place, guard as usize]);
        }
        Ok(run)
    }

    // The judgement's three numbers.
    pub fn judge(&self) -> [usize; 3] {
        let run = match self.run() {
            Ok(run) => run,
            Err(refused) => return refused,
        };
        if let Some((place, sentence)) = self.wrong_mark(&run) {
            return [34, place, sentence];
        }
        let root = self.sentences() - 1;
        if !self.marked(root as u8, 0) {
            return [35, 0, root];
        }
        [0, 0, 0]
    }

    // The same with these rounds in the counted loop of this first place; they stay.
    pub fn judged_with(&mut self, first: usize, rounds: u32) -> [usize; 3] {
        let place = &mut self.places[first];
        place.mark = place.mark.with_rounds(rounds);
        self.judge()
    }

    // The first place and the first move into it that doesn't connect.
    fn unconnected(&self) -> Option<(usize, u8)> {
        let connects = |way: u8, before: usize, place: usize| {
            let step = &self.moves[way as usize];
            step.from == self.places[before].state && step.to == self.places[place].state
        };
        for p in 0..self.places() {
            let place = &self.places[p];
            if let Some(way) = place.way {
                if !connects(way, p - 1, p) {
                    return Some((p, way));
                }
            }
            if let Some(back) = place.mark.back() {
                if !connects(back, p + place.mark.length() - 1, p) {
                    return Some((p, back));
                }
            }
        }
        None
    }

    // A guard over rounds, from the counters in the first of them and what each adds.
    fn guard_through(&self, guard: u8, base: &Counters, drift: &Counters, rounds: Rounds) -> Throughout {
        let guard = &self.guards[guard as usize];
        let dot = |counters: &Counters| -> i64 { (0..COUNTERS).map(|j| guard.coefficients[j] as i64 * counters[j]).sum() };
        let bound = guard.bound as i64;
        match rounds {
            Rounds::None => Always,
            Rounds::UpTo(last) => {
                let sum = dot(base);
                agree(bound <= sum, bound <= sum + last as i64 * dot(drift))
            }
            Rounds::Ever => match (bound <= dot(base), dot(drift)) {
                (true, 0..) => Always,
                (false, ..=0) => Never,
                _ => Changes,
            },
        }
    }

    // The first place and the first guard of a move into it that fails.
    fn failing(&self, run: &Run) -> Option<(usize, u8)> {
        let fails = |way: u8, base: &Counters, drift: &Counters, rounds: Rounds| {
            let step = &self.moves[way as usize];
            let guards = [step.guard1, step.guard2];
            guards.into_iter().flatten().find(|&guard| self.guard_through(guard, base, drift, rounds) != Always)
        };
        for p in 0..self.places() {
            let place = &self.places[p];
            let first = run.first[p] as usize;
            let (base, drift, rounds) = (&run.base[p], &self.drifts[first], self.places[first].mark.rounds());
            if let Some(way) = place.way {
                // into the first place once, else in every round
                let rounds = if p == first { Rounds::UpTo(0) } else { rounds };
                if let Some(guard) = fails(way, base, drift, rounds) {
                    return Some((p, guard));
                }
            }
            if let Some(back) = place.mark.back() {
                let second = std::array::from_fn(|j| base[j] + drift[j]);
                if let Some(guard) = fails(back, &second, drift, rounds.later()) {
                    return Some((p, guard));
                }
            }
        }
        None
    }

    // The first sentence that is marked wrongly, and the first place where it is.
    fn wrong_mark(&self, run: &Run) -> Option<(usize, usize)> {
        for i in 0..self.sentences() {
            let truth = self.truth(run, i);
            for p in 0..self.places() {
                if truth[p] != flag(self.marked(i as u8, p)) {
                    return Some((p, i));
                }
            }
        }
        None
    }

    // A sentence over the rounds of each place, by the marks of the sentences below it.
    pub fn truth(&self, run: &Run, sentence: usize) -> [Throughout; PLACES] {
        match self.sentences[sentence] {
            Form::True => self.at_places(|_| Always),
            Form::Proposition(k) => self.at_places(|p| flag(self.states[self.places[p].state as usize].propositions >> k & 1 == 1)),
            Form::Guard(guard) => self.at_places(|p| {
                let first = run.first[p] as usize;
                self.guard_through(guard, &run.base[p], &self.drifts[first], self.places[first].mark.rounds())
            }),
            Form::And(a, b) => self.at_places(|p| flag(self.marked(a, p) && self.marked(b, p))),
            Form::Not(a) => self.at_places(|p| flag(!self.marked(a, p))),
            Form::Next(a) => self.at_places(|p| self.next(run, a, p)),
            Form::Until { held, goal, bound, term1, term2 } => {
                let worth = |term: Option<(i16, u8)>, p: usize| match term {
                    Some((coefficient, counted)) if self.marked(counted, p) => coefficient as i64,
                    _ => 0,
                };
                let step = |p: usize| Step {
                    stop: if self.marked(goal, p) { 0 } else { NONE },
                    go: if self.marked(held, p) { worth(term1, p) + worth(term2, p) } else { NONE },
                };
                self.until(run, step, bound as i64)
            }
        }
    }

    fn at_places(&self, truth: impl Fn(usize) -> Throughout) -> [Throughout; PLACES] {
        let mut row = [Never; PLACES];
        for p in 0..self.places() {
            row[p] = truth(p);
        }
        row
    }

    fn next(&self, run: &Run, a: u8, p: usize) -> Throughout {
        let first = run.first[p] as usize;
        let mark = self.places[first].mark;
        if p + 1 < first + mark.length() {
            return flag(self.marked(a, p + 1));
        }
        match mark.rounds() {
            Rounds::Ever => flag(self.marked(a, first)),
            Rounds::UpTo(again) if again > 0 => agree(self.marked(a, first), self.marked(a, p + 1)),
            _ => flag(self.marked(a, p + 1)),
        }
    }

    // Until at each place, from the last place to the first: the best sums in its first round and in its last against the bound.
    fn until(&self, run: &Run, step: impl Fn(usize) -> Step, bound: i64) -> [Throughout; PLACES] {
        let mut steps = [Step { stop: NONE, go: NONE }; PLACES];
        for p in 0..self.places() {
            steps[p] = step(p);
        }
        let mut row = [Never; PLACES];
        let mut end = self.places();
        let mut after = NONE;
        while end > 0 {
            let first = run.first[end - 1] as usize;
            let steps = &steps[first..end];
            let (mut early, mut late) = (after, after);
            let mark = self.places[first].mark;
            if mark.back().is_some() {
                let within = steps.iter().rev().fold(NONE, Step::before);
                let sum = steps.iter().map(|step| step.go).sum();
                match mark.rounds() {
                    Rounds::UpTo(again) => early = power(again, within, sum, after),
                    _ => {
                        early = if sum <= 0 || within < LEAST { within } else { ANY };
                        late = early;
                    }
                }
            }
            for (step, truth) in steps.iter().zip(&mut row[first..end]).rev() {
                early = Step::before(early, step);
                late = Step::before(late, step);
                *truth = agree(bound <= early, bound <= late);
            }
            after = early;
            end = first;
        }
        row
    }
}

// The three numbers of a file.
pub fn answer(src: &[u8]) -> [usize; 3] {
    let mut case = Case::empty();
    case.take_file(src).map_or_else(|refused| refused, |()| case.judge())
}
