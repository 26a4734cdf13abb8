//! What plans must be like for a wrong sum of a round to show: several counted loops, of one place and of more, next to each other and apart; for
//! a wrong start: weights of all sizes, which the answer depends on; and for a wrong guard of the endless loop: each of its six cases. Then plans by
//! hand, with the rounds that a loop of each may have.
use crate::checker::{guard_sum, judge, Run};
use crate::library::Answer;
use crate::mistakes::{Mistake, Slip};
use crate::random::{HIGHEST, LOWEST};
use crate::reader::*;
use crate::spans::MOST;
use crate::writer;
use std::ops::Range;

/// A counted loop: its places, its rounds, and what a further round adds.
pub struct Loop {
    places: Range<usize>,
    rounds: i64,
    adds: [i64; 4],
}

impl Loop {
    /// The loop that begins at a place, if one does and it is counted.
    fn at(case: &Case, first: usize) -> Option<Loop> {
        let rounds = case.0[P][first][5]?;
        let adds = case.added_by(case.second_round(first));
        Some(Loop { places: first..first + case.number(P, first, 4), rounds, adds })
    }
}

/// Steps allowed for judging a plan without its weights; one that takes more isn't called refused.
const STEPS: u64 = 20_000;

/// A plan: its counted loops, its weights, and whether it is accepted with them and refused without.
pub struct Plan {
    loops: Vec<Loop>,
    weights: Vec<i64>,
    start_matters: bool,
}

type Shape = (&'static str, usize, fn(&Plan) -> bool);
/// The words for a shape, how many of a hundred cases must have it at least, and whether a plan has it.
pub const SHAPES: [Shape; 11] = [
    ("two counted loops or more", 33, |plan| plan.loops.len() >= 2),
    ("two counted loops of 2 rounds or more that add differently", 25, |plan| {
        let again: Vec<&Loop> = plan.loops.iter().filter(|each| each.rounds > 1).collect();
        again.windows(2).any(|pair| pair[0].adds != pair[1].adds)
    }),
    ("a counted loop of 1 place", 20, |plan| plan.loops.iter().any(|each| each.places.len() == 1)),
    ("a counted loop of more places", 33, |plan| plan.loops.iter().any(|each| each.places.len() > 1)),
    ("a counted loop at place 0", 20, |plan| plan.loops.iter().any(|each| each.places.start == 0)),
    ("two counted loops next to each other", 15, |plan| plan.loops.windows(2).any(|pair| pair[0].places.end == pair[1].places.start)),
    ("two counted loops apart", 15, |plan| plan.loops.windows(2).any(|pair| pair[0].places.end < pair[1].places.start)),
    ("weights", 25, |plan| !plan.weights.is_empty()),
    ("a lowest weight", 12, |plan| plan.weights.contains(&LOWEST)),
    ("a highest weight", 9, |plan| plan.weights.contains(&HIGHEST)),
    ("accepted with its weights only", 11, |plan| plan.start_matters),
];

/// Which of the shapes a case has that got this answer.
pub fn shapes(case: &Case, answer: Answer) -> [bool; SHAPES.len()] {
    let loops = (0..case.0[P].len()).filter_map(|first| Loop::at(case, first)).collect();
    let weights: Vec<i64> = case.0[W].iter().flatten().flatten().copied().collect();
    let start_matters = answer[0] == 0 && !weights.is_empty() && refused_without_weights(case);
    let plan = Plan { loops, weights, start_matters };
    SHAPES.map(|(_, _, has)| has(&plan))
}

fn refused_without_weights(case: &Case) -> bool {
    let mut without = case.clone();
    without.0[W].clear();
    judge(&without, Mistake::Nothing, STEPS).is_ok_and(|answer| answer[0] != 0)
}

/// The six cases of a guard in the endless loop: how its sum goes with each round, and where it is to the bound the first time it is tested.
pub const GUARD_CASES: [&str; 6] = ["rises, at or above", "rises, below", "stays, at or above", "stays, below", "falls, at or above", "falls, below"];

/// Which of them it is, by what a round adds to the counters and what they are the first time.
fn guard_case(guard: &Fields, adds: &[i64; 4], first: &[i64; 4]) -> usize {
    let way = match guard_sum(guard, adds) {
        1.. => 0,
        0 => 1,
        _ => 2,
    };
    2 * way + (Some(guard_sum(guard, first)) < guard[5]) as usize
}

/// For each of them, whether the endless loop has such a guard sentence, if they are looked at (after 33 they aren't), and such a guard of a move.
/// The first time is in round 1, of a back move in round 2.
pub fn endless_guards(case: &Case, answer: Answer) -> [[bool; 2]; GUARD_CASES.len()] {
    let mut has = [[false; 2]; GUARD_CASES.len()];
    let Ok(run) = Run::new(case, Mistake::Nothing, STEPS) else { return has };
    let round_one = &run.moments[run.endless..];
    let adds = case.added_by(case.second_round(round_one[0].place));
    for step in round_one {
        for sentence in case.0[F].iter().filter(|sentence| sentence[1] == Some(2) && answer[0] != 33) {
            let guard = sentence[2].expect("a guard") as usize;
            has[guard_case(&case.0[G][guard], &adds, &step.counters)][0] = true;
        }
        let (way, number) = case.entry(step.place, 2).expect("a way into it");
        let first = std::array::from_fn(|counter| step.counters[counter] + way as i64 * adds[counter]);
        for (_, guard) in case.guards(number) {
            has[guard_case(&case.0[G][guard], &adds, &first)][1] = true;
        }
    }
    has
}

/// Words for a plan by hand; a guard, the rounds of the loop, and the least and the greatest that it may have.
type Counted = (&'static str, &'static str, usize, [usize; 2]);
/// A loop of one place whose every further round adds 1, and the guard of the move behind it.
const COUNTED: [Counted; 6] = [
    ("11 or more", "G 1 0 0 0 10", 15, [11, MOST]),
    ("up to 999,999", "G -1 0 0 0 -999998", 5, [1, MOST - 1]),
    ("up to 1,000,000, with nothing to spare", "G -1 0 0 0 -999999", 5, [1, MOST]),
    ("from 999,999 on", "G 1 0 0 0 999998", MOST, [MOST - 1, MOST]),
    ("1,000,000 alone", "G 1 0 0 0 999999", MOST, [MOST, MOST]),
    ("up to 500,000, each further round counted twice", "G -2 0 0 0 -999999", 500_000, [1, 500_000]),
];

/// Words for a plan by hand with an until; the sum that is never reached, and the greatest rounds with which it isn't.
type Summed = (&'static str, usize, usize);
/// The sum of document 01, whose goal comes behind the loop.
const SUMS: [Summed; 3] = [
    ("up to 4, by the marks of an until", 5, 4),
    ("up to 999,999, by these marks", MOST, MOST - 1),
    ("up to 1,000,000, by these marks, with nothing to spare", MOST + 1, MOST),
];
/// The same with the goal at the place of the loop itself: its last moment isn't counted.
const GOALS: [Summed; 3] = [
    ("up to 5, by the marks of an until whose goal is in the loop", 5, 5),
    ("up to 999,999, by these marks", MOST - 1, MOST - 1),
    ("up to 1,000,000, by these marks, with nothing to spare", MOST, MOST),
];

type Planned = (&'static str, &'static str, usize, [usize; 2]);
/// Other plans by hand: words for one; its records, with `.` for a blank field; the number of a loop, and its ends.
const PLANNED: [Planned; 9] = [
    ("the twelve rounds", TWELVE, 0, [1, MOST]),
    ("from 11 to 21, by guards of a later place", BOX, 0, [11, 21]),
    ("a counted loop between it and the guards, which adds nothing", BOX, 1, [1, MOST]),
    ("11 alone", ALONE, 0, [11, 11]),
    ("the first of two loops under one ceiling", SHARED, 0, [1, 5]),
    ("the second of them", SHARED, 1, [1, 6]),
    ("1 alone: a guard of the back move, which comes in at 2", BACK, 0, [1, 1]),
    ("up to 3, by a guard of the back move", BACK_3, 0, [1, 3]),
    ("1 alone: next at the last place, which looks back from 2 on", NEXT, 0, [1, 1]),
];
const TWELVE: &str = "S 1/S 2/G 1 0 0 0 0/G -1 0 0 0 -1250/T 0 1 1250 0 0 0 1/T 1 0 -1250 0 0 0 0/\
    F 2 1/F 4 0/F 0/F 6 2 1 0/F 4 3/P 0 . 21 2 12 1/P 1 0 21/P 0 1 21 2 . 1/P 1 0 21";
const BOX: &str = "S 1/G 1 0 0 0 10/G -1 0 0 0 -20/T 0 0 1 0 0 0/T 0 0 0 0 0 0 0 1/T 0 0 0 0 0 0/\
    F 0/P 0 . 1 1 15 0/P 0 2 1 1 4 2/P 0 1 1/P 0 2 1 1 . 2";
const ALONE: &str = "S 1/G 1 0 0 0 10/G -1 0 0 0 -10/T 0 0 1 0 0 0/T 0 0 0 0 0 0 0 1/T 0 0 0 0 0 0/\
    F 0/P 0 . 1 1 11 0/P 0 1 1/P 0 2 1 1 . 2";
/// Two loops of 2 and 3 rounds; each further round adds 1, and there may be 6 in the end.
const SHARED: &str = "S 1/G -1 0 0 0 -6/T 0 0 1 0 0 0/T 0 0 0 0 0 0/T 0 0 0 0 0 0 0/\
    F 0/P 0 . 1 1 2 0/P 0 1 1 1 3 0/P 0 2 1 1 . 1";
const BACK: &str = "S 1/G 1 0 0 0 9/T 0 0 1 0 0 0 0/T 0 0 0 0 0 0/F 0/P 0 . 1 1 1 0/P 0 1 1 1 . 1";
const BACK_3: &str = "S 1/G -1 0 0 0 -2/T 0 0 1 0 0 0 0/T 0 0 0 0 0 0/F 0/P 0 . 1 1 2 0/P 0 1 1 1 . 1";
const NEXT: &str = "S 1/S 2/T 0 0 0 0 0 0/T 0 1 0 0 0 0/T 1 1 0 0 0 0/F 1 0/F 5 0/F 4 1/P 0 . 5 1 1 0/P 1 1 4 1 . 2";

/// The plans by hand: words for one, its file, the number of a loop, and the least and the greatest rounds that the loop may have.
pub fn by_hand() -> Vec<(&'static str, Vec<u8>, usize, [usize; 2])> {
    let counted = COUNTED.into_iter().map(|(words, guard, rounds, ends)| {
        let moves = format!("S 1/{guard}/T 0 0 1 0 0 0/T 0 0 0 0 0 0 0/T 0 0 0 0 0 0");
        (words, spelled(&format!("{moves}/F 0/P 0 . 1 1 {rounds} 0/P 0 1 1/P 0 2 1 1 . 2")), 0, ends)
    });
    let sums = SUMS.into_iter().map(|(words, bound, greatest)| {
        let moves = "S 1/S 3/S 0/T 0 0 0 0 0 0/T 0 1 0 0 0 0/T 1 2 0 0 0 0/T 2 2 0 0 0 0";
        let sentences = format!("F 0/F 1 0/F 1 1/F 6 0 2 {bound} 1 1/F 4 3");
        (words, spelled(&format!("{moves}/{sentences}/P 0 . 19 1 2 0/P 1 1 23/P 2 2 17 1 . 3")), 0, [1, greatest])
    });
    let goals = GOALS.into_iter().map(|(words, bound, greatest)| {
        let sentences = format!("F 0/F 1 0/F 6 0 1 {bound} 1 1/F 4 2");
        let records = format!("S 1/S 0/T 0 0 0 0 0 0/T 0 1 0 0 0 0/T 1 1 0 0 0 0/{sentences}/P 0 . 11 1 2 0/P 1 1 9 1 . 2");
        (words, spelled(&records), 0, [1, greatest])
    });
    let planned = PLANNED.into_iter().map(|(words, records, k, ends)| (words, spelled(records), k, ends));
    counted.chain(sums).chain(goals).chain(planned).collect()
}

/// The file of records in this notation.
fn spelled(records: &str) -> Vec<u8> {
    let record = |text: &str| {
        let kind = LETTERS.iter().position(|&letter| letter == text.as_bytes()[0]).expect("a kind");
        let mut fields = [None; 9];
        text.split(' ').enumerate().skip(1).for_each(|(number, word)| fields[number] = word.parse().ok());
        writer::record(kind, &fields, Slip::Nothing)
    };
    records.split('/').flat_map(record).collect()
}
