//! Random cases with loops to cut: those of the other files' generators, some with other rounds, spoiled in one thing, or grown to many places.
use crate::cuts::{cut, loops_to_cut};
use crate::mistakes::{Miscut, Mistake};
use crate::random::{file_to_fill, random_file, Random, HIGHEST};
use crate::reader::{read, Case, F, G, P, ROOM, S, T};
use crate::repeats::file_to_span;
use crate::spans::{with_rounds, MOST};

/// A case whose records are all taken, with a loop to cut; none where the draw gives no such.
pub fn case_to_cut(r: &mut Random) -> Option<Case> {
    let file = match r.below(10) {
        0..=3 => file_to_span(r),
        4..=8 => random_file(r),
        _ => file_to_fill(r),
    };
    let held = read(&file, Mistake::Nothing);
    let firsts = loops_to_cut(&held.case);
    if held.refused.is_some() || firsts.is_empty() {
        return None;
    }
    let (first, rounds) = (r.pick(&firsts), r.pick(&[2, 2, 3, MOST]));
    let mut case = if r.chance(20) { with_rounds(&held.case, first, rounds) } else { held.case };
    if r.chance(10) {
        case = grown(r, case);
    }
    if r.chance(45) {
        spoil(r, &mut case);
    }
    Some(case).filter(|case| !loops_to_cut(case).is_empty())
}

/// The case with its loops cut again and again, until one more cut would go beyond the room for places, or would just fill it.
fn grown(r: &mut Random, mut case: Case) -> Case {
    loop {
        let firsts = loops_to_cut(&case);
        let Some(first) = (!firsts.is_empty()).then(|| r.pick(&firsts)) else { return case };
        let places = case.0[P].len() + case.number(P, first, 4);
        if places > ROOM[P] || places == ROOM[P] && r.chance(70) {
            return case;
        }
        let m = 1 + r.below(case.number(P, first, 5) - 1);
        case = cut(&case, first, m, Miscut::Nothing);
    }
}

/// Changes one thing, such that all records are still taken.
fn spoil(r: &mut Random, case: &mut Case) {
    let (sentences, moves) = (case.0[F].len(), case.0[T].len());
    let (place, state) = (r.below(case.0[P].len()), r.below(case.0[S].len()) as i64);
    match r.below(12) {
        0..=2 if sentences > 0 => change(case, P, place, 3, |marks| marks ^ 1 << r.below(sentences)),
        3 if moves > 0 => change(case, T, r.below(moves), 3 + r.below(4), |update| (update + r.pick(&[-1, 1])).clamp(-9_999, 9_999)),
        4..=5 if !case.0[G].is_empty() => change(case, G, r.below(case.0[G].len()), 5, |bound| (bound + r.between(1, 3)).min(HIGHEST)),
        6 => change(case, P, place, 1, |_| state),
        7 => change(case, P, 0, 1, |_| state),
        8 if moves > 0 => change(case, P, place, r.pick(&[2, 6]), |_| r.below(moves) as i64),
        9 | 10 if (1..ROOM[F]).contains(&sentences) => deny(case),
        11 => case.0[P].truncate(place + 1),
        _ => {}
    }
}

/// Changes a field, where it is filled.
fn change(case: &mut Case, kind: usize, item: usize, field: usize, changed: impl FnOnce(i64) -> i64) {
    let content = &mut case.0[kind][item][field];
    *content = content.map(changed);
}

/// Makes "not" of the root the new root, marked where the old one isn't.
fn deny(case: &mut Case) {
    let root = case.0[F].len() - 1;
    let mut sentence = [None; 9];
    sentence[1..3].copy_from_slice(&[Some(4), Some(root as i64)]);
    case.0[F].push(sentence);
    (0..case.0[P].len()).for_each(|place| change(case, P, place, 3, |marks| marks | (!marks >> root & 1) << (root + 1)));
}
