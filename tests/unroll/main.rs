//! unroll cases COUNT SEED: case files, answered by the library and by the separate checker: the twelve rounds, given weights, with fields
//! spelled badly, then random ones; each is also written back by both, and between them files of any numbers. Mistakes are planted in both.
//! unroll fill COUNT SEED: random case files whose marks are filled in by both; of small ones all marks are tried. Mistakes are planted there too.
//! unroll rounds COUNT SEED: plans by hand and random case files, so many of them accepted, in which the rounds of loops are found and set by both.
//! The run is unrolled for all rounds of a loop up to 40, and for some loops up to a million. Mistakes are planted there too.
//! unroll cuts COUNT SEED: plans by hand and random cases, whose counted loops are cut in two, so many times, and some halves again: each is
//! accepted exactly where the case is. Mistakes are planted there too.
//! unroll stored: the stored cases, as tests/cases.py prints them, from standard input, answered, written back, filled, and with rounds found and
//! set by both.
mod checker;
mod cuts;
mod filled;
mod filler;
#[path = "../library.rs"]
mod library;
mod mistakes;
#[allow(dead_code)]
#[path = "../../bench/plain.rs"]
mod plain;
#[allow(dead_code)]
#[path = "../../bench/plain_judge.rs"]
mod plain_judge;
mod random;
mod reader;
mod repeats;
mod rooms;
mod shapes;
mod spanned;
mod spans;
mod wholes;
mod writer;
mod written;

use checker::check;
use cuts::Cuttings;
use filled::Fillings;
use library::{Answer, Stored, RESULTS};
use mistakes::{Mistake, MISTAKES};
use random::{file_to_fill, misspelled, random_file, weighted, Random};
use reader::{read, Case, Fields, Held, F, KINDS, P, ROOM, T};
use repeats::file_to_span;
use rooms::any_rooms;
use shapes::{endless_guards, shapes, GUARD_CASES, SHAPES};
use spanned::Spannings;
use std::collections::BTreeMap;
use std::process::exit;
use wholes::case_to_cut;
use written::Writings;

const TWELVE: &[u8] = include_bytes!("../../crates/plancheck/stdin");
/// Steps of unrolling allowed for a random case, for a stored one that is answered, and for one that is filled.
const STEPS: u64 = 500_000;
const STORED_STEPS: u64 = 10_000_000;
const FILLED_STEPS: u64 = 2_000_000;
/// And for one judgement with other rounds in a loop, of a random case and of a stored one.
const SPANNED_STEPS: u64 = 50_000;
/// And for one judgement of a random case with a cut.
const CUT_STEPS: u64 = 50_000;
/// A mistake is tried until so many cases have found it.
const FOUND: usize = 3;
/// For so many cases, a file of any numbers is written back too.
const ROOMS_EACH: usize = 8;
/// Stored cases of fewer records are written into buffers of every length.
const FEW: usize = 7;

/// A counted loop of 2 or more rounds whose back move has a guard.
fn guarded_loop(case: &Case) -> bool {
    let guarded = |back: i64| case.0[T][back as usize][7].is_some();
    case.0[P].iter().any(|place| place[5] >= Some(2) && place[6].is_some_and(guarded))
}

/// An until with a term that adds at some places and not at others.
fn counting_until(case: &Case) -> bool {
    let differs = |sentence: i64| {
        let marked = |place: &Fields| place[3].is_some_and(|marks| marks >> sentence & 1 == 1);
        case.0[P].iter().any(marked) && !case.0[P].iter().all(marked)
    };
    let counts = |term: &[Option<i64>]| term[0].is_some_and(|coefficient| coefficient != 0) && term[1].is_some_and(differs);
    case.0[F].iter().any(|sentence| sentence[1] == Some(6) && (counts(&sentence[5..7]) || counts(&sentence[7..9])))
}

/// What the random cases have shown.
#[derive(Default)]
struct Seen {
    /// How often each result came.
    results: BTreeMap<usize, usize>,
    /// Accepted cases with both the loop and the until.
    rich: usize,
    /// By kind, cases that were taken whole and fill the room.
    full: [usize; KINDS],
    /// By shape, cases that have it and whose run was followed.
    shaped: [usize; SHAPES.len()],
    /// By case of a guard in the endless loop, plans with such a guard sentence, and with such a guard of a move.
    endless: [[usize; 2]; GUARD_CASES.len()],
    /// By how many cases each mistake is found, up to `FOUND`.
    found: Vec<usize>,
    compared: usize,
    too_long: usize,
}

impl Seen {
    /// One more file, its answer and what is held of it.
    fn add(&mut self, bytes: &[u8], answer: Answer, Held { case, refused }: &Held) {
        *self.results.entry(answer[0]).or_default() += 1;
        if refused.is_none() {
            self.rich += (answer[0] == 0 && guarded_loop(case) && counting_until(case)) as usize;
            for (times, (items, room)) in self.full.iter_mut().zip(case.0.iter().zip(ROOM)) {
                *times += (items.len() == room) as usize;
            }
            if answer[0] == 0 || answer[0] > 32 {
                self.shaped.iter_mut().zip(shapes(case, answer)).for_each(|(times, has)| *times += has as usize);
                let has = endless_guards(case, answer).into_iter().flatten();
                self.endless.iter_mut().flatten().zip(has).for_each(|(times, has)| *times += has as usize);
            }
        }
        for (times, (mistake, _)) in self.found.iter_mut().zip(MISTAKES) {
            if *times < FOUND {
                *times += check(bytes, mistake, STEPS).is_ok_and(|(wrong, _)| wrong != answer) as usize;
            }
        }
        self.compared += 1;
    }

    /// By shape, how many of a hundred cases have it.
    fn shares(&self) -> Vec<(&str, usize)> {
        SHAPES.iter().zip(self.shaped).map(|((words, ..), times)| (*words, times * 100 / self.compared)).collect()
    }

    /// Says what is missing for the cases to be a test; whether nothing is.
    fn enough(&self) -> bool {
        let accepted = self.results[&0];
        let seldom = |times: &usize| times * 2000 < self.compared;
        let results: Vec<_> = self.results.iter().filter(|(_, times)| seldom(times)).collect();
        let unlike: Vec<_> = SHAPES.iter().zip(self.shares()).filter(|((_, least, _), (_, share))| share < least).map(|(_, share)| share).collect();
        let unfound: Vec<_> = MISTAKES.iter().zip(&self.found).filter(|(_, &times)| times < FOUND).map(|((_, words), _)| words).collect();
        let lacks = [
            (!results.is_empty(), format!("results seen too seldom, and how often: {results:?}")),
            (self.full.iter().any(|times| seldom(times)), format!("too few cases that fill the room of a kind: {:?}", self.full)),
            (self.endless.iter().flatten().any(seldom), format!("too few guards of the endless loop in one of the six cases: {:?}", self.endless)),
            (!unlike.is_empty(), format!("plans seen too seldom, and in how many of 100 cases: {unlike:?}")),
            (accepted * 4 < self.compared, format!("only {accepted} cases are accepted")),
            (self.rich * 2 < accepted, format!("only {} accepted cases have a guarded loop and a counting until", self.rich)),
            (self.too_long * 100 > self.compared, format!("{} cases are too long", self.too_long)),
            (!unfound.is_empty(), format!("planted mistakes found by fewer than {FOUND} cases: {unfound:?}")),
        ];
        lacks.iter().filter(|(lacks, _)| *lacks).for_each(|(_, words)| println!("unroll: {words}"));
        lacks.iter().all(|(lacks, _)| !lacks)
    }
}

/// Writes a file of any numbers back; its answer is compared where a record is refused.
fn write_rooms(writings: &mut Writings, r: &mut Random) -> bool {
    let bytes = any_rooms(r);
    let (held, answer) = (read(&bytes, Mistake::Nothing), library::answer(&bytes));
    writings.add(&bytes, &held, answer) && held.refused.is_none_or(|refused| refused == answer)
}

fn cases(count: usize, seed: u64) -> bool {
    let mut r = Random(seed);
    let mut rooms = Random(!seed);
    let mut writings = Writings::new(0);
    let results = RESULTS.iter().map(|&result| (result, 0)).collect();
    let mut seen = Seen { results, found: vec![0; MISTAKES.len()], ..Seen::default() };
    for bytes in misspelled(&weighted(TWELVE)).into_iter().chain(std::iter::repeat_with(|| random_file(&mut r))) {
        if seen.compared == count {
            break;
        }
        let Ok((answer, held)) = check(&bytes, Mistake::Nothing, STEPS) else {
            seen.too_long += 1;
            continue;
        };
        let library = library::answer(&bytes);
        if answer != library {
            let text = String::from_utf8_lossy(&bytes);
            println!("unroll: case {} of seed {seed}: the checker answers {answer:?}, the library {library:?}\n{text}", seen.compared);
            println!("unroll: cases: {} passed, 1 failed", seen.compared);
            return false;
        }
        let written = writings.add(&bytes, &held, answer);
        if !written || seen.compared % ROOMS_EACH == 0 && !write_rooms(&mut writings, &mut rooms) {
            println!("unroll: case {} of seed {seed}, or the file of any numbers behind it, isn't written back rightly", seen.compared);
            return false;
        }
        seen.add(&bytes, answer, &held);
    }
    let found = seen.found.iter().filter(|&&times| times == FOUND).count();
    println!("unroll: how often each result: {:?}; cases that fill a room: {:?}", seen.results, seen.full);
    println!("unroll: plans, and in how many of 100 cases: {:?}", seen.shares());
    let endless = Vec::from_iter(GUARD_CASES.iter().zip(seen.endless));
    println!("unroll: guards of the endless loop, and how many plans have such a sentence, and such a move: {endless:?}");
    println!("unroll: cases: {count} passed, 0 failed; they find {found} of {} planted mistakes", MISTAKES.len());
    writings.show();
    let written = writings.enough();
    seen.enough() && written
}

/// Random files, filled.
fn fillings(count: usize, seed: u64) -> bool {
    let mut r = Random(seed);
    let mut fillings = Fillings::default();
    for number in 0..count {
        if !fillings.add(&file_to_fill(&mut r), STEPS) {
            println!("unroll: case {number} to fill of seed {seed} isn't filled rightly");
            return false;
        }
    }
    fillings.show();
    fillings.enough()
}

/// Plans by hand, and random files, so many of them accepted, with rounds found and set.
fn spannings(count: usize, seed: u64) -> bool {
    let mut r = Random(seed);
    let mut spannings = Spannings::new(!seed);
    if !spannings.by_hand(SPANNED_STEPS) {
        return false;
    }
    while spannings.accepted() < count {
        if !spannings.add(&file_to_span(&mut r), SPANNED_STEPS) {
            println!("unroll: after {} accepted cases of seed {seed}, rounds aren't found or set rightly", spannings.accepted());
            return false;
        }
    }
    spannings.show();
    spannings.enough()
}

/// Plans by hand, and random cases, with so many cuts of their loops.
fn cuttings(count: usize, seed: u64) -> bool {
    let mut r = Random(seed);
    let mut cuttings = Cuttings::new(!seed);
    let mut right = cuttings.by_hand();
    while right && cuttings.cuts < count {
        right = case_to_cut(&mut r).is_none_or(|case| cuttings.add(&case, CUT_STEPS));
    }
    if !right {
        println!("unroll: after {} cuts of seed {seed}, a case or its cut isn't answered rightly", cuttings.cuts);
        return false;
    }
    cuttings.show();
    cuttings.enough()
}

/// The stored cases, answered, written back, filled, and with rounds found and set.
fn stored() -> bool {
    let cases = library::stored();
    let answers = library::compared("unroll", &cases, |bytes| Some(check(bytes, Mistake::Nothing, STORED_STEPS).ok()?.0));
    let mut writings = Writings::new(FEW);
    let mut fillings = Fillings::default();
    let mut spannings = Spannings::new(0);
    for Stored { expected, bytes, .. } in &cases {
        writings.add(bytes, &read(bytes, Mistake::Nothing), *expected);
        fillings.add(bytes, FILLED_STEPS);
        spannings.add(bytes, SPANNED_STEPS);
    }
    println!("{}", writings.passed("stored cases"));
    println!("{}", fillings.passed("stored cases"));
    println!("{}", spannings.passed("stored cases"));
    writings.all_passed() && fillings.all_passed() && spannings.all_passed() && answers
}

fn main() {
    let words: Vec<String> = std::env::args().skip(1).collect();
    let words: Vec<&str> = words.iter().map(String::as_str).collect();
    let right = match words[..] {
        ["cases", count, seed] => cases(count.parse().expect("a count"), seed.parse().expect("a seed")),
        ["fill", count, seed] => fillings(count.parse().expect("a count"), seed.parse().expect("a seed")),
        ["rounds", count, seed] => spannings(count.parse().expect("a count"), seed.parse().expect("a seed")),
        ["cuts", count, seed] => cuttings(count.parse().expect("a count"), seed.parse().expect("a seed")),
        ["stored"] => stored(),
        _ => panic!("unroll cases, fill, rounds or cuts, with COUNT and SEED, or unroll stored"),
    };
    if !right {
        exit(1);
    }
}
