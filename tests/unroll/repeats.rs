//! Random files for finding the rounds of loops: plans that are mostly accepted, with bounds close to what they bound for few rounds or for many.
use crate::filler::fill;
use crate::mistakes::Lapse;
use crate::plain_judge;
use crate::random::{damaged, plan, Random, HIGHEST, LOWEST};
use crate::reader::{Case, Held, F, G, P};
use crate::spans::{starts, with_rounds, FEW, MOST};
use crate::writer;

/// Steps allowed while the marks of a plan are filled in.
const STEPS: u64 = 30_000;

/// The file of a random plan whose loops' rounds are to be found; a few are damaged.
pub fn file_to_span(r: &mut Random) -> Vec<u8> {
    let (wide, slips, small) = (r.chance(5), r.chance(20), r.chance(80));
    let mut case = plan(r, wide, slips, small);
    if r.chance(40) {
        case = marked(other_rounds(r, &case));
    }
    if r.chance(30) {
        case = marked(eased(r, &case));
    }
    if r.chance(35) {
        case = many_rounds(r, &case);
    }
    let times = r.chance(7) as usize;
    damaged(r, &case, times)
}

/// The case with its marks filled in by the separate filler, where some are right.
fn marked(case: Case) -> Case {
    let held = Held { case, refused: None };
    let filled = fill(&held, Lapse::Nothing, STEPS);
    filled.map_or(held.case, |(_, case)| case)
}

/// The first place of a counted loop.
fn some_loop(r: &mut Random, case: &Case) -> Option<usize> {
    let counted: Vec<usize> = starts(case).into_iter().filter(|&first| case.0[P][first][5].is_some()).collect();
    (!counted.is_empty()).then(|| r.pick(&counted))
}

/// Other rounds in one of the loops.
fn other_rounds(r: &mut Random, case: &Case) -> Case {
    let rounds = r.pick(&[1, 1, 2, 3, 4, 5, 7, 9, 14, 20]);
    some_loop(r, case).map_or_else(|| case.clone(), |first| with_rounds(case, first, rounds))
}

/// The bound of one of the guards lowered, by little or by much.
fn eased(r: &mut Random, case: &Case) -> Case {
    let mut eased = case.clone();
    if !eased.0[G].is_empty() {
        let (guard, most) = (r.below(eased.0[G].len()), 10_i64.pow(r.below(7) as u32));
        eased.0[G][guard][5] = eased.0[G][guard][5].map(|bound| (bound - r.between(1, most)).max(LOWEST));
    }
    eased
}

/// Many rounds in one of the loops, where the case is accepted with them; and the bound of a guard or of an until as far up or down as it is.
/// (Plain Rust says so. This only makes the case; what the library answers is compared elsewhere.)
fn many_rounds(r: &mut Random, case: &Case) -> Case {
    let any = r.between(FEW as i64, MOST as i64) as usize;
    let rounds = r.pick(&[MOST, MOST, MOST - 1, any, any]);
    let many = some_loop(r, case).map(|first| with_rounds(case, first, rounds)).filter(accepted);
    let Some((many, bound)) = many.and_then(|many| some_bound(r, &many).map(|bound| (many, bound))) else { return case.clone() };
    // a guard of a move is mostly true, and the untils that tell are mostly false
    let limit = if bound.0 == G { r.pick(&[HIGHEST, HIGHEST, LOWEST]) } else { r.pick(&[HIGHEST, LOWEST, LOWEST]) };
    let last = last_accepted(&many, bound, limit);
    let room = r.pick(&[0, 0, 0, 1, 2, 10]) * if limit == HIGHEST { -1 } else { 1 };
    let tight = with_bound(&many, bound, (last + room).clamp(LOWEST, HIGHEST));
    if accepted(&tight) {
        tight
    } else {
        many
    }
}

/// Where a bound stands: its kind, its item and its field; of a guard or of an until.
type Bound = (usize, usize, usize);

/// One of the bounds.
fn some_bound(r: &mut Random, case: &Case) -> Option<Bound> {
    let untils = (0..case.0[F].len()).filter(|&sentence| case.0[F][sentence][1] == Some(6)).map(|sentence| (F, sentence, 4));
    let guards = (0..case.0[G].len()).map(|guard| (G, guard, 5));
    let both: [Vec<Bound>; 2] = [guards.collect(), untils.collect()];
    let kind = r.below(2);
    both.iter().cycle().skip(kind).take(2).find(|bounds| !bounds.is_empty()).map(|bounds| r.pick(bounds))
}

fn with_bound(case: &Case, (kind, item, field): Bound, bound: i64) -> Case {
    let mut other = case.clone();
    other.0[kind][item][field] = Some(bound);
    other
}

fn accepted(case: &Case) -> bool {
    plain_judge::answer(&writer::case(case))[0] == 0
}

/// The last bound with which an accepted case is accepted, from its own towards a limit.
fn last_accepted(case: &Case, at: Bound, limit: i64) -> i64 {
    let accepts = |bound: i64| accepted(&with_bound(case, at, bound));
    let (mut good, mut bad) = (case.0[at.0][at.1][at.2].expect("a bound"), limit);
    if accepts(limit) {
        return limit;
    }
    while good.abs_diff(bad) > 1 {
        let middle = (good + bad) / 2;
        *(if accepts(middle) { &mut good } else { &mut bad }) = middle;
    }
    good
}
