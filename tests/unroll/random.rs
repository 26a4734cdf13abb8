//! Random case files from a seed: plans whose marks are right, with bounds set close to what they bound; damaged ones; and any bytes.
use crate::checker::*;
use crate::mistakes::{Mistake, Slip};
use crate::reader::*;
use crate::writer;

/// The numbers that follow from a seed (splitmix64).
pub struct Random(pub u64);

impl Random {
    fn next(&mut self) -> u64 {
        self.0 = self.0.wrapping_add(0x9e37_79b9_7f4a_7c15);
        let mut z = self.0;
        z = (z ^ (z >> 30)).wrapping_mul(0xbf58_476d_1ce4_e5b9);
        z = (z ^ (z >> 27)).wrapping_mul(0x94d0_49bb_1331_11eb);
        z ^ (z >> 31)
    }

    pub fn below(&mut self, count: usize) -> usize {
        (self.next() % count as u64) as usize
    }

    pub fn between(&mut self, low: i64, high: i64) -> i64 {
        low + self.below((high - low + 1) as usize) as i64
    }

    /// True in so many of a hundred draws.
    pub fn chance(&mut self, percent: usize) -> bool {
        self.below(100) < percent
    }

    pub fn pick<A: Copy>(&mut self, list: &[A]) -> A {
        list[self.below(list.len())]
    }
}

/// Steps allowed while a plan is made.
const STEPS: u64 = 30_000;
/// What a field can spell.
pub const HIGHEST: i64 = 9_999_999;
pub const LOWEST: i64 = -999_999;

fn fields(contents: &[Option<i64>]) -> Fields {
    let mut fields = [None; 9];
    fields[1..=contents.len()].copy_from_slice(contents);
    fields
}

fn filled(contents: &[i64]) -> Fields {
    fields(&contents.iter().copied().map(Some).collect::<Vec<_>>())
}

fn record(kind: usize, fields: &Fields) -> Vec<u8> {
    writer::record(kind, fields, Slip::Nothing)
}

fn spelled(content: Option<i64>) -> String {
    writer::spelled(content, Slip::Nothing)
}

/// A record of weights: numbers of all sizes, and often an end of what a field can spell; sometimes all 0.
fn weights(r: &mut Random) -> Fields {
    if r.chance(5) {
        return filled(&[0; 4]);
    }
    filled(&[0; 4].map(|_| {
        let most = 10_i64.pow(r.below(8) as u32);
        let any = r.between(-most, most).clamp(LOWEST, HIGHEST);
        r.pick(&[any, any, any, LOWEST, any, any, any, HIGHEST])
    }))
}

/// Any bytes.
fn any_bytes(r: &mut Random) -> Vec<u8> {
    let count = r.below(300);
    (0..count).map(|_| r.below(256) as u8).collect()
}

/// The file of a random plan, half of them damaged; a few are any bytes.
pub fn random_file(r: &mut Random) -> Vec<u8> {
    if r.chance(1) {
        return any_bytes(r);
    }
    let (wide, slips) = (r.chance(8), r.chance(15));
    let case = plan(r, wide, slips, false);
    let times = if r.chance(50) { r.pick(&[1, 1, 1, 2]) } else { 0 };
    damaged(r, &case, times)
}

/// The file of a random plan whose marks are to be filled in: any marks, and often a truth that changes; half of them small. Some are damaged, and
/// a few are any bytes.
pub fn file_to_fill(r: &mut Random) -> Vec<u8> {
    if r.chance(1) {
        return any_bytes(r);
    }
    let (wide, slips, small) = (r.chance(8), r.chance(75), r.chance(60));
    let mut case = plan(r, wide, slips, small);
    marked_anew(r, &mut case);
    let times = r.chance(20) as usize;
    damaged(r, &case, times)
}

/// Marks of all sorts: the right ones, none, all, some that are a bit off, and any.
fn marked_anew(r: &mut Random, case: &mut Case) {
    let (sort, sentences) = (r.below(10), case.0[F].len());
    for place in &mut case.0[P] {
        let any = r.below(1 << sentences) as i64;
        place[3] = place[3].map(|marks| match sort {
            0 | 1 => marks,
            2 => 0,
            3 => (1 << sentences) - 1,
            4 | 5 if r.chance(30) && sentences > 0 => marks ^ 1 << r.below(sentences),
            4 | 5 => marks,
            _ => any,
        });
    }
}

/// The file of a case, damaged so many times.
pub fn damaged(r: &mut Random, case: &Case, times: usize) -> Vec<u8> {
    let mut file = Damaged { r, case, bytes: writer::case(case) };
    (0..times).for_each(|_| file.damage());
    file.bytes
}

/// A random plan that is accepted, but for slips and a few false roots.
pub fn plan(r: &mut Random, wide: bool, slips: bool, small: bool) -> Case {
    Maker { r, case: Case::default(), wide, slips, small }.plan()
}

/// A plan in the making; `wide` for large numbers, `slips` for guards and sentences that may not be the same in all rounds, `small` for few places
/// and sentences.
struct Maker<'a> {
    r: &'a mut Random,
    case: Case,
    wide: bool,
    slips: bool,
    small: bool,
}

impl Maker<'_> {
    /// A plan that is accepted, but for slips and a few false roots.
    fn plan(mut self) -> Case {
        let states = if self.r.chance(4) { 1 } else { self.r.between(2, 4) };
        for _ in 0..states {
            let propositions = self.r.between(0, if self.wide { 65_535 } else { 7 });
            self.case.0[S].push(filled(&[propositions]));
        }
        if self.r.chance(50) {
            self.case.0[W].push(weights(self.r));
        }
        let (longest, most_loops): (i64, &[usize]) = match self.small {
            true => (2, &[1]),
            false => (if self.r.chance(1) { 16 } else { 3 }, &[1, 1, 2, 2, 2, 3]),
        };
        let loops = if self.r.chance(5) { 0 } else { self.r.pick(most_loops) };
        let main_loop = self.r.below(loops.max(1));
        for at in 0..loops {
            self.outside();
            let rounds = if at == main_loop { self.r.pick(&[2, 2, 3, 4, 5, 6]) } else { self.r.pick(&[1, 1, 2, 2, 3, 3, 4, 25]) };
            self.stretch(longest, Some(Some(rounds)));
        }
        self.outside();
        self.stretch(longest, Some(None));
        let run = Run::new(&self.case, Mistake::Nothing, STEPS).expect("a short plan");
        self.guard_moves(&run);
        self.sentences(&run);
        self.case
    }

    /// No place outside loops, or a few.
    fn outside(&mut self) {
        for _ in 0..self.r.pick(if self.small { &[0, 0, 0, 1] } else { &[0, 0, 0, 1, 1, 2] }) {
            self.stretch(1, None);
        }
    }

    /// A loop (with its rounds; none for the endless one), or a place outside loops.
    fn stretch(&mut self, longest: i64, mark: Option<Option<i64>>) {
        let first = self.case.0[P].len();
        let length = if mark.is_some() { self.r.between(1, longest) } else { 1 };
        for at in first..first + length as usize {
            let state = if at == 0 { 0 } else { self.r.below(self.case.0[S].len()) as i64 };
            let way = (at > 0).then(|| self.move_between(self.state(at - 1), state));
            self.case.0[P].push(fields(&[Some(state), way, Some(0)]));
        }
        if let Some(rounds) = mark {
            let back = self.move_between(self.state(self.case.0[P].len() - 1), self.state(first));
            self.case.0[P][first][4..7].copy_from_slice(&[Some(length), rounds, Some(back)]);
        }
    }

    fn state(&self, place: usize) -> i64 {
        self.case.0[P][place][1].expect("a state")
    }

    /// A move from state to state: one that is there already, or a new one.
    fn move_between(&mut self, from: i64, to: i64) -> i64 {
        let moves = &mut self.case.0[T];
        let there = moves.iter().position(|item| item[1..3] == [Some(from), Some(to)]);
        if let Some(number) = there.filter(|_| self.r.chance(20) || moves.len() > 40) {
            return number as i64;
        }
        let most = if self.wide { self.r.pick(&[9_999, 500]) } else { self.r.between(0, 3) };
        let mut item = filled(&[from, to, 0, 0, 0, 0]);
        for counter in 3..7 {
            item[counter] = Some(if self.r.chance(60) { self.r.between(-most, most) } else { 0 });
        }
        moves.push(item);
        moves.len() as i64 - 1
    }

    /// Guards for some moves, true wherever the move is taken but for slips: for most back moves, and for more of the moves from the first loop on.
    fn guard_moves(&mut self, run: &Run) {
        let places = &self.case.0[P];
        let backs: Vec<i64> = places.iter().filter(|place| place[5] != Some(1)).filter_map(|place| place[6]).collect();
        let later: Vec<i64> = places.iter().skip_while(|place| place[4].is_none()).skip(1).filter_map(|place| place[2]).collect();
        for number in 0..self.case.0[T].len() {
            let first = match number as i64 {
                number if backs.contains(&number) => 95,
                number if later.contains(&number) => 60,
                _ => 35,
            };
            for (field, chance) in [(7, first), (8, 25)] {
                if !self.r.chance(chance) || self.case.0[G].len() >= 28 {
                    break;
                }
                let Some(guard) = self.close_guard(run, number) else { break };
                self.case.0[T][number][field] = Some(self.case.0[G].len() as i64);
                self.case.0[G].push(guard);
            }
        }
    }

    /// A guard that holds at all moments at which the move is taken, mostly with nothing to spare; of those whose sum falls, some that just fail.
    fn close_guard(&mut self, run: &Run, number: usize) -> Option<Fields> {
        let case = &self.case;
        let taken = |step: &&Step, round| case.entry(step.place, round).is_some_and(|(_, entered)| entered == number);
        let mut uses: Vec<[i64; 4]> = run.moments.iter().filter(|step| taken(step, step.round)).map(|step| step.counters).collect();
        // what a round of the endless loop adds, and the counters when it starts again
        let first = &run.moments[run.endless];
        let drift = case.added_by(case.second_round(first.place));
        if taken(&first, 2) {
            uses.push(std::array::from_fn(|counter| first.counters[counter] + drift[counter]));
        }
        let mut guard = self.coefficients(self.wide, &drift)?;
        let least = uses.iter().map(|counters| guard_sum(&guard, counters)).min().unwrap_or(self.r.between(-5, 5));
        let falls = guard_sum(&guard, &drift) < 0;
        let room = if falls && self.r.chance(40) { -1 } else { self.r.pick(&[0, 0, 0, 0, 0, 1, 2, 999_999]) };
        guard[5] = Some((least - room).clamp(LOWEST, HIGHEST));
        (guard[5] <= Some(least.max(least - room))).then_some(guard)
    }

    /// Coefficients of a guard whose sum at the start is a bound that a field can spell; none where a few draws give no such.
    fn coefficients(&mut self, wide: bool, drift: &[i64; 4]) -> Option<Fields> {
        let start = self.case.start();
        let mut draws = std::iter::repeat_with(|| self.any_coefficients(wide, drift)).take(8);
        draws.find(|guard| (LOWEST..=HIGHEST).contains(&guard_sum(guard, &start)))
    }

    /// Coefficients with which the drift's sum isn't below 0, but for slips.
    fn any_coefficients(&mut self, wide: bool, drift: &[i64; 4]) -> Fields {
        let most = if wide { 999 } else { 2 };
        let mut guard = filled(&[0, 0, 0, 0, 0]);
        for counter in 1..=self.r.pick(&[1, 1, 2, 4]) {
            guard[counter] = Some(self.r.between(-most, most));
        }
        guard[1..5].rotate_left(self.r.below(4));
        if guard_sum(&guard, drift) < 0 && !(self.slips && self.r.chance(20)) {
            (1..5).for_each(|counter| guard[counter] = guard[counter].map(|coefficient| -coefficient));
        }
        guard
    }

    /// Sentences that are the same at all moments of each place, but for slips; then the marks.
    fn sentences(&mut self, run: &Run) {
        let most = if self.r.chance(4) { 1 } else { self.r.pick(if self.small { &[2, 2, 3, 4] } else { &[5, 6, 7, 8, 9, 10, 12, 19] }) };
        let mut truths: Vec<Vec<bool>> = Vec::new();
        for _ in 0..4 * most {
            if truths.len() >= most {
                break;
            }
            let Some(sentence) = self.sentence(run, &truths) else { continue };
            let Ok(truth) = run.truth(&self.case, &sentence, &truths) else { continue };
            let marks = by_place(run, &truth, false);
            let steady = run.wrong_place(&self.case, &sentence, &truth, |place| marks[place]);
            if steady.is_ok_and(|wrong| wrong.is_none() || self.slips && self.r.chance(40)) {
                self.case.0[F].push(sentence);
                truths.push(truth);
            }
        }
        if !truths.last().is_some_and(|root| root[0]) && self.r.chance(97) {
            let negated = truths.last().map(|root| root.iter().map(|truth| !truth).collect());
            self.case.0[F].push(if negated.is_some() { filled(&[4, truths.len() as i64 - 1]) } else { filled(&[0]) });
            truths.push(negated.unwrap_or(vec![true; run.moments.len()]));
        }
        let last = self.r.chance(50);
        for (number, truth) in truths.iter().enumerate() {
            for (place, marked) in by_place(run, truth, last).into_iter().enumerate() {
                self.case.0[P][place][3] = self.case.0[P][place][3].map(|marks| marks | (marked as i64) << number);
            }
        }
    }

    /// One more sentence over those there are; sometimes with a guard of its own.
    fn sentence(&mut self, run: &Run, truths: &[Vec<bool>]) -> Option<Fields> {
        let form = self.r.pick(if truths.len() < 3 { &[0, 1, 1, 1, 2] } else { &[1, 2, 3, 4, 5, 5, 6, 6, 6, 6, 6, 6] });
        let any = |r: &mut Random| r.below(truths.len()) as i64;
        Some(match form {
            0 => filled(&[0]),
            1 => filled(&[1, self.proposition()]),
            2 => filled(&[2, self.guard_for_sentence(run)?]),
            3 => filled(&[3, any(self.r), any(self.r)]),
            6 => self.until(run, truths)?,
            _ => filled(&[form, any(self.r)]),
        })
    }

    /// A proposition, mostly one that tells places apart.
    fn proposition(&mut self) -> i64 {
        let sets = || self.case.0[P].iter().map(|place| self.case.0[S][place[1].expect("a state") as usize][1].expect("a set"));
        let telling: Vec<i64> = (0..16).filter(|&number| sets().any(|set| (set ^ sets().next().unwrap_or(0)) >> number & 1 == 1)).collect();
        if telling.is_empty() || self.r.chance(15) {
            self.r.pick(&[0, 1, 2, 15])
        } else {
            self.r.pick(&telling)
        }
    }

    /// A guard whose bound is one of the sums of the run, or close above.
    fn guard_for_sentence(&mut self, run: &Run) -> Option<i64> {
        let count = self.case.0[G].len();
        if count >= 32 || count > 0 && self.r.chance(20) {
            return Some(self.r.below(count) as i64);
        }
        let mut guard = self.coefficients(false, &[0; 4])?;
        let sum = guard_sum(&guard, &run.moments[self.r.below(run.moments.len())].counters);
        let far = self.r.pick(&[LOWEST, -99_999, 999_999, 1_000_000, HIGHEST]);
        guard[5] = Some(if self.r.chance(95) { (sum + self.r.pick(&[0, 0, 1, 1, 2])).clamp(LOWEST, HIGHEST) } else { far });
        run.later(&self.case, &guard).ok()?;
        self.case.0[G].push(guard);
        Some(count as i64)
    }

    /// An until whose bound is one of the sums with which its goal is reached, or one more; best where that tells places apart.
    fn until(&mut self, run: &Run, truths: &[Vec<bool>]) -> Option<Fields> {
        let count = |number: &usize| truths[*number].iter().filter(|&&truth| truth).count();
        let any = |r: &mut Random| r.below(truths.len());
        let often = (0..truths.len()).max_by_key(count)?;
        let uneven: Vec<usize> = (0..truths.len()).filter(|number| (1..run.moments.len()).contains(&count(number))).collect();
        let held = if self.r.chance(60) { often } else { any(self.r) };
        let mut sentence = filled(&[6, held as i64, any(self.r) as i64, 0]);
        let most = if self.r.chance(5) { 999 } else { 3 };
        for (field, chance) in [(5, 92), (7, 40)] {
            if !self.r.chance(chance) {
                break;
            }
            let counted = if uneven.is_empty() || self.r.chance(20) { any(self.r) } else { self.r.pick(&uneven) };
            sentence[field..field + 2].copy_from_slice(&[Some(self.r.between(-most, most)), Some(counted as i64)]);
        }
        let best = run.best_sums(&sentence, truths, 20 * most).ok()?;
        let mut bounds: Vec<i64> = best.iter().flatten().flat_map(|&sum| [sum, sum + 1]).collect();
        bounds.sort();
        bounds.dedup();
        let truth = |bound: i64| best.iter().map(|&sum| sum >= Some(bound)).collect::<Vec<bool>>();
        let steady = |bound: &i64| by_place(run, &truth(*bound), false) == by_place(run, &truth(*bound), true);
        let telling = |bound: &i64| truth(*bound).contains(&true) && truth(*bound).contains(&false);
        if !self.slips || self.r.chance(50) {
            bounds.retain(steady);
        }
        if self.r.chance(90) && bounds.iter().any(telling) {
            bounds.retain(telling);
        }
        if bounds.is_empty() || self.r.chance(3) {
            bounds = vec![LOWEST, -1, 0, 1, 2, 3, 4, 5, 1_000_000, HIGHEST];
        }
        sentence[4] = Some(self.r.pick(&bounds));
        Some(sentence)
    }
}

/// The truth at each place: at its last moment, or at its first.
fn by_place(run: &Run, truth: &[bool], last: bool) -> Vec<bool> {
    let mut marks = vec![false; run.moments[run.moments.len() - 1].place + 1];
    for (step, &truth) in run.moments.iter().zip(truth) {
        if last || step.round == 1 {
            marks[step.place] = truth;
        }
    }
    marks
}

/// What a field may have in place of a number, with `|` between them: bad spellings, no number, and the first and last numbers that fit or don't.
const SPELLINGS: &[u8] = b"|-|+|+1|1,250|1.5|007|0012|05 |0      |0000000|-0|-00|-0 |00|12 3| 5 |1 |1      |0 |- 1|-      |--1|1-|-00001|1e3|x\
    |\t|\t1|\0|1\0|\0     1|\xb2|\xc3\xa9|1\xff|\x80      |-999999|9999999|-1000000|10000000";
/// Bytes that are bad somewhere in a field, and digits.
const BYTES: &[u8; 18] = b" 0-19+,./:x\0\t\n\r\x7f\x80\xff";
const NUMBERS: [i64; 26] = [
    -1, 0, 1, 2, 3, 5, 6, 7, 15, 16, 31, 32, 63, 64, 999, 1_000, -1_000, 9_999, 10_000, -10_000, 65_535, 65_536, 1_048_575, 1_048_576, 1_000_001,
    HIGHEST,
];

fn spellings() -> Vec<&'static [u8]> {
    SPELLINGS.split(|&byte| byte == b'|').collect()
}

/// Writes a field of a record that is there; a text that is too long pushes all after it on.
fn put(bytes: &mut Vec<u8>, at: usize, number: usize, text: &[u8]) {
    let from = at * LENGTH + 1 + (number - 1) * WIDTH;
    if from + WIDTH < bytes.len() {
        let blanks = vec![b' '; WIDTH.saturating_sub(text.len())];
        bytes.splice(from..from + WIDTH, [&blanks, text].concat());
    }
}

/// Fields that differ from a right one in a byte at most.
fn one_byte_off() -> Vec<[u8; WIDTH]> {
    let rights = [b"       ", b"      1", b"  -1250", b"9999999"];
    let off = |right: [u8; WIDTH], at: usize, byte: u8| std::array::from_fn(|other| if other == at { byte } else { right[other] });
    rights.into_iter().flat_map(|&right| (0..WIDTH).flat_map(move |at| BYTES.map(|byte| off(right, at, byte)))).collect()
}

/// The file with a record of weights, all 0, behind its states.
pub fn weighted(file: &[u8]) -> Vec<u8> {
    let states = file.chunks(LENGTH).take_while(|bytes| bytes[0] == LETTERS[S]).count();
    let (before, after) = file.split_at(states * LENGTH);
    [before, &record(W, &filled(&[0; 4])), after].concat()
}

/// What is written in a file: in a record, in one field or in two, a text.
type Change<'a> = (usize, Vec<(usize, &'a [u8])>);

/// A file with each spelling in each field; with a field that is a byte off, in each field of some record; and with a bad field before or after one
/// that is blank, outside its range, or bad as well.
pub fn misspelled(file: &[u8]) -> Vec<Vec<u8>> {
    let records = file.len() / LENGTH;
    let mut changes: Vec<Change> = Vec::new();
    for (at, number) in (0..records).flat_map(|at| (1..=8).map(move |number| (at, number))) {
        changes.extend(spellings().into_iter().map(|text| (at, vec![(number, text)])));
        for other in (1..=8).filter(|&other| other != number) {
            for text in [&b""[..], b"9999999", b"1,250"] {
                changes.extend([&b"-"[..], b"05 "].map(|bad| (at, vec![(number, bad), (other, text)])));
            }
        }
    }
    let off = one_byte_off();
    let everywhere = off.iter().flat_map(|text| (1..=8).map(move |number| (number, &text[..])));
    changes.extend(everywhere.enumerate().map(|(count, change)| (count % records, vec![change])));
    changes.into_iter().map(|change| changed(file, change)).collect()
}

/// The file after a change.
fn changed(file: &[u8], (at, texts): Change) -> Vec<u8> {
    let mut bytes = file.to_vec();
    texts.into_iter().for_each(|(number, text)| put(&mut bytes, at, number, text));
    bytes
}

/// The file of a case, with damage done to it.
struct Damaged<'a> {
    r: &'a mut Random,
    case: &'a Case,
    bytes: Vec<u8>,
}

impl Damaged<'_> {
    /// Spoils one thing, as if the records were still those of the case.
    fn damage(&mut self) {
        if self.bytes.len() < LENGTH || self.case.0[F].is_empty() {
            return;
        }
        match self.r.below(30) {
            0..=8 => self.damage_plan(),
            9..=14 => self.damage_number(),
            15..=19 => self.damage_bytes(),
            20..=25 => self.damage_records(),
            _ => self.damage_weights(),
        }
    }

    /// How many whole records there are.
    fn records(&self) -> usize {
        self.bytes.len() / LENGTH
    }

    /// The number of the first record of a kind.
    fn start(&self, kind: usize) -> usize {
        self.case.0[..kind].iter().map(Vec::len).sum()
    }

    /// An item of some kind, mostly a place: its kind, its number, and that of its record.
    fn some_item(&mut self) -> (usize, usize, usize) {
        let kinds: Vec<usize> = [S, W, G, T, F, P, P, P].into_iter().filter(|&kind| !self.case.0[kind].is_empty()).collect();
        let kind = self.r.pick(&kinds);
        let item = self.r.below(self.case.0[kind].len());
        (kind, item, (self.start(kind) + item).min(self.records() - 1))
    }

    /// Changes a field of a kind in one of the records where it is filled.
    fn put_in_some(&mut self, kind: usize, number: usize, change: impl Fn(&mut Random, i64) -> i64) {
        let filled: Vec<usize> = (0..self.case.0[kind].len()).filter(|&item| self.case.0[kind][item][number].is_some()).collect();
        if !filled.is_empty() {
            let item = self.r.pick(&filled);
            let content = self.case.0[kind][item][number].map(|content| change(self.r, content));
            let at = self.start(kind) + item;
            put(&mut self.bytes, at, number, spelled(content).as_bytes());
        }
    }

    /// Marks, rounds, and loop marks at a place or at one more place after the end.
    fn damage_plan(&mut self) {
        let places = &self.case.0[P];
        let place = self.r.below(places.len());
        let start = self.start(P);
        match self.r.below(9) {
            0..=2 => {
                let flipped = places[place][3].map(|marks| marks ^ 1 << self.r.below(self.case.0[F].len() + 1));
                put(&mut self.bytes, start + place, 3, spelled(flipped).as_bytes());
            }
            3..=5 => {
                let rounds = if self.r.chance(90) { self.r.between(1, 8) } else { self.r.pick(&[0, -1, 40, 1_000_001]) };
                self.put_in_some(P, 5, |_, _| rounds);
            }
            6 => {
                let (place, number, text) = (self.r.pick(&[0, place]), self.r.pick(&[1, 2]), self.r.pick(&["0", "1", "2", ""]));
                put(&mut self.bytes, start + place, number, text.as_bytes());
            }
            _ => {
                let at = if self.r.chance(50) { places.len() } else { place };
                let length = self.r.pick(&[1, 2, 3, 63 - at as i64, 64 - at as i64, 65 - at as i64, 64]);
                let mut fields = places[place];
                fields[4..7].copy_from_slice(&[Some(length), self.r.pick(&[None, Some(2)]), Some(0)]);
                let from = ((start + at) * LENGTH).min(self.records() * LENGTH);
                self.bytes.splice(from..(from + LENGTH).min(self.bytes.len()), record(P, &fields));
            }
        }
    }

    /// A number that is a little more or less, or names another move.
    fn damage_number(&mut self) {
        let (kind, ..) = self.some_item();
        let number = self.r.between(1, 8) as usize;
        let moves = self.case.0[T].len();
        match self.r.below(7) {
            0..=2 => self.put_in_some(kind, number, |r, content| content + r.pick(&[-1, 1])),
            3 => self.put_in_some(G, 5, |r, bound| bound + r.pick(&[-1, 1, 1, 2])),
            4 => self.put_in_some(F, 4, |r, bound| bound + r.pick(&[-1, 1])),
            5 => self.put_in_some(W, 1 + number % 4, |r, weight| weight + r.pick(&[-1, 1])),
            _ => self.put_in_some(P, 2 + 4 * (number % 2), |r, _| r.below(moves) as i64),
        }
    }

    /// The bytes of a field, of two fields or of a record.
    fn damage_bytes(&mut self) {
        let (.., at) = self.some_item();
        let [number, other] = [0; 2].map(|_| self.r.between(1, 8) as usize);
        let content = self.r.pick(&NUMBERS).to_string();
        let text = self.r.pick(&spellings());
        let any = [0; WIDTH].map(|_| if self.r.chance(30) { b' ' } else { self.r.pick(BYTES) });
        match self.r.below(7) {
            0 => put(&mut self.bytes, at, number, content.as_bytes()),
            1 => put(&mut self.bytes, at, number, text),
            2 => put(&mut self.bytes, at, number, b""),
            3 => put(&mut self.bytes, at, number, &any),
            4 => {
                put(&mut self.bytes, at, number, text);
                put(&mut self.bytes, at, other, &any);
            }
            5 => {
                let byte = self.r.below(self.bytes.len());
                self.bytes[byte] = if self.r.chance(70) { self.r.pick(b" 0-1,9\nSP") } else { self.r.below(256) as u8 };
            }
            _ => self.bytes[at * LENGTH + self.r.pick(&[0, LENGTH - 1])] = self.r.pick(b"SWGTFPsgwX \r\n"),
        }
    }

    /// One more record of weights: anywhere, or behind the states and the weights, where a field may be missing or one too many; or a state there.
    fn damage_weights(&mut self) {
        let (mut kind, mut fields, mut at) = (W, weights(self.r), self.start(G).min(self.records()));
        let (missing, extra, content) = (self.r.below(4) + 1, self.r.below(4) + 5, Some(self.r.pick(&NUMBERS)));
        match self.r.below(10) {
            0 | 1 => fields[missing] = None,
            2 | 3 => fields[extra] = content,
            4 => (fields[missing], fields[extra]) = (None, content),
            5 | 6 => at = self.r.below(self.records() + 1),
            7 => (kind, fields) = (S, filled(&[0])),
            _ => {}
        }
        self.bytes.splice(at * LENGTH..at * LENGTH, record(kind, &fields));
    }

    /// Whole records, and the end of the file.
    fn damage_records(&mut self) {
        let (kind, item, at) = self.some_item();
        let (here, records) = (at * LENGTH, self.records());
        let copy = record(kind, &self.case.0[kind][item]);
        match self.r.below(6) {
            0 => self.bytes.truncate(self.r.below(self.bytes.len())),
            1 => self.bytes.truncate(self.r.below(records) * LENGTH),
            2 => {
                let other = self.r.below(records) * LENGTH;
                (0..LENGTH).for_each(|byte| self.bytes.swap(here + byte, other + byte));
            }
            3 => drop(self.bytes.drain(here..here + LENGTH)),
            4 => {
                let to = if self.r.chance(50) { records } else { self.r.below(records) } * LENGTH;
                self.bytes.splice(to..to, copy);
            }
            _ => {
                let more = ROOM[kind] - self.case.0[kind].len().min(ROOM[kind]) + self.r.below(2);
                self.bytes.splice(here..here, copy.repeat(more));
            }
        }
    }
}
