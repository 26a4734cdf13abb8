//! The rounds of a loop with which a case is accepted, and a loop's rounds set, by document 02, item 7. It shares nothing with the proved code:
//! - each number of rounds from 1 to `FEW` is judged by unrolling the run (checker.rs), whether it lies between the ends or not;
//! - above that the plain Rust of the benchmark judges, a second opinion whose cost doesn't depend on the rounds; an end is found there by halving.
//!   It also judges the case as it is, and with few rounds in a loop, where it has many rounds already (in another loop) and would take too long;
//! - for some cases the run is unrolled there too, up to a million rounds (`Tried::unrolled`).
//!
//! To test the tests, one mistake can be planted in it.
use crate::checker::{judge, TooLong};
use crate::filler::line;
use crate::library::Answer;
use crate::mistakes::Blunder::{self, *};
use crate::mistakes::Mistake;
use crate::plain;
use crate::reader::{Case, Held, LENGTH, P, W};
use crate::writer;
use std::cell::RefCell;

/// Up to so many rounds each number is tried by unrolling.
pub const FEW: usize = 40;
/// The most rounds of a loop.
pub const MOST: usize = 1_000_000;
/// Steps of unrolling allowed for many rounds, and moments in loops, for each is held.
const LONG_STEPS: u64 = 100_000_000;
const LONGEST: usize = 3 * MOST;

/// The first places of the loops, in plan order.
pub fn starts(case: &Case) -> Vec<usize> {
    (0..case.0[P].len()).filter(|&place| case.0[P][place][4].is_some()).collect()
}

/// The case with so many rounds in the counted loop of this first place.
pub fn with_rounds(case: &Case, first: usize, rounds: usize) -> Case {
    let mut other = case.clone();
    other.0[P][first][5] = Some(rounds as i64);
    other
}

/// The case as the plain Rust has it.
fn plain_case(case: &Case) -> plain::Case {
    let mut plain = plain::Case::empty();
    plain.take_all(&writer::case(case));
    plain
}

/// A counted loop of an accepted case: its first place, its rounds, and the judgement with other rounds in it, for each number up to `FEW`.
pub struct Tried<'a> {
    case: &'a Case,
    pub first: usize,
    pub own: usize,
    few: Vec<Answer>,
    /// Whether these are by unrolling.
    pub by_unrolling: bool,
    plain: RefCell<plain::Case>,
    steps: u64,
}

impl Tried<'_> {
    fn new(case: &Case, first: usize, own: usize, steps: u64) -> Tried<'_> {
        let plain = RefCell::new(plain_case(case));
        let mut tried = Tried { case, first, own, few: Vec::new(), by_unrolling: true, plain, steps };
        tried.few = tried.few_judged(Nothing).unwrap_or_else(|TooLong| {
            tried.by_unrolling = false;
            (1..=FEW).map(|rounds| tried.plain.borrow_mut().judged_with(first, rounds as u32)).collect()
        });
        tried
    }

    /// The judgements with 1 to `FEW` rounds, by unrolling.
    fn few_judged(&self, blunder: Blunder) -> Result<Vec<Answer>, TooLong> {
        (1..=FEW).map(|rounds| self.judged(rounds, blunder)).collect()
    }

    /// The judgement with these rounds, by unrolling; with the mistakes in what is judged.
    fn judged(&self, rounds: usize, blunder: Blunder) -> Result<Answer, TooLong> {
        let mut case = with_rounds(self.case, self.first, rounds);
        if blunder == AllLoops {
            case.0[P].iter_mut().filter(|place| place[5].is_some()).for_each(|place| place[5] = Some(rounds as i64));
        }
        let asked = if blunder == BackAsked { Mistake::BackWithOneRound } else { Mistake::Nothing };
        let answer = judge(&case, asked, self.steps)?;
        let end = self.first + case.number(P, self.first, 4);
        let forgotten = match blunder {
            BackForgotten => rounds == 2 && answer[..2] == [33, self.first],
            LaterForgotten => answer[1] >= end,
            MarksForgotten => answer[0] == 34,
            GuardsForgotten => answer[0] == 33,
            _ => false,
        };
        Ok(if forgotten { [0; 3] } else { answer })
    }

    /// The judgement with these rounds: few by unrolling, more by plain Rust.
    pub fn told(&self, rounds: usize) -> Answer {
        self.told_by(&self.few, rounds)
    }

    /// The same with these judgements for few rounds.
    fn told_by(&self, few: &[Answer], rounds: usize) -> Answer {
        few.get(rounds - 1).copied().unwrap_or_else(|| self.plain.borrow_mut().judged_with(self.first, rounds as u32))
    }

    /// Whether the case is accepted with these rounds.
    pub fn accepts(&self, rounds: usize) -> bool {
        self.told(rounds)[0] == 0
    }

    /// The same by unrolling alone, however many rounds they are.
    pub fn unrolled(&self, rounds: usize) -> Result<bool, TooLong> {
        let case = with_rounds(self.case, self.first, rounds);
        let length = |&first: &usize| case.number(P, first, 4) * case.0[P][first][5].unwrap_or(1) as usize;
        let steps = if starts(&case).iter().map(length).sum::<usize>() <= LONGEST { LONG_STEPS } else { 0 };
        Ok(judge(&case, Mistake::Nothing, steps)?[0] == 0)
    }

    /// The least and the greatest rounds that are accepted.
    pub fn ends(&self) -> [usize; 2] {
        self.ends_by(&self.few)
    }

    /// Of the few, the first and the last that are accepted, whatever is between. Only where the own rounds are more, or `FEW` rounds are accepted,
    /// is there a search among more.
    fn ends_by(&self, few: &[Answer]) -> [usize; 2] {
        let accepts = |rounds: usize| self.told_by(few, rounds)[0] == 0;
        let accepted = || (1..=FEW).filter(|&rounds| accepts(rounds));
        let least = accepted().next().unwrap_or_else(|| halved(self.own, FEW, accepts));
        let last = accepted().last().unwrap_or(0).max(self.own);
        let greatest = match last {
            _ if last < FEW => last,
            _ if accepts(MOST) => MOST,
            _ => halved(last, MOST, accepts),
        };
        [least, greatest]
    }

    /// The ends, with the mistakes in finding and in telling them.
    fn planted_ends(&self, blunder: Blunder) -> Result<[usize; 2], TooLong> {
        if matches!(blunder, BackAsked | BackForgotten | LaterForgotten | MarksForgotten | GuardsForgotten | AllLoops) {
            return Ok(self.ends_by(&self.few_judged(blunder)?));
        }
        let (own, [least, greatest]) = (self.own, self.ends());
        Ok(match blunder {
            LeastBeyond => [(least - 1).max(1), greatest],
            LeastShort => [(least + 1).min(own), greatest],
            GreatestBeyond => [least, (greatest + 1).min(MOST)],
            GreatestShort => [least, (greatest - 1).max(own)],
            EndsSwapped => [greatest, least],
            LimitShort => [least, greatest].map(|end| end.min(MOST - 1)),
            OwnGreatest => [least, own],
            OwnLeast => [own, greatest],
            LeastOne => [1, greatest],
            MostTold => [least, MOST],
            Doubled => {
                [least, std::iter::successors(Some(own), |rounds| Some(2 * rounds)).take_while(|&rounds| rounds <= greatest).last().unwrap_or(own)]
            }
            LimitOnly => [if least == 1 { 1 } else { own }, if greatest == MOST { MOST } else { own }],
            _ => [least, greatest],
        })
    }
}

/// The last rounds that are accepted, from some that are towards some that aren't.
fn halved(mut accepted: usize, mut refused: usize, accepts: impl Fn(usize) -> bool) -> usize {
    while accepted.abs_diff(refused) > 1 {
        let middle = (accepted + refused) / 2;
        *(if accepts(middle) { &mut accepted } else { &mut refused }) = middle;
    }
    accepted
}

/// The loops of what is held of a file, each tried where the case is accepted and it is counted.
pub struct Loops<'a> {
    held: &'a Held,
    /// What is told without a look at a loop: of a record that is refused, or of the case.
    pub judged: Answer,
    pub tried: Vec<Option<Tried<'a>>>,
}

impl<'a> Loops<'a> {
    pub fn of(held: &'a Held, steps: u64) -> Loops<'a> {
        let case = &held.case;
        let by_run = || judge(case, Mistake::Nothing, steps).unwrap_or_else(|TooLong| plain_case(case).judge());
        let judged = held.refused.unwrap_or_else(by_run);
        let rounds = |first: usize| case.0[P][first][5].filter(|_| judged[0] == 0);
        let tried = |first: usize| rounds(first).map(|own| Tried::new(case, first, own as usize, steps));
        Loops { held, judged, tried: starts(case).into_iter().map(tried).collect() }
    }

    pub fn case(&self) -> &'a Case {
        &self.held.case
    }

    /// What finding the rounds of a loop tells.
    pub fn rounds(&self, k: usize, blunder: Blunder) -> Result<Answer, TooLong> {
        let case = &self.held.case;
        let at = place_in_order(case, k, blunder);
        let tried = at.and_then(|at| self.tried[at].as_ref());
        let own = at.and_then(|at| case.0[P][starts(case)[at]][5]);
        if self.judged[0] != 0 {
            return Ok(match (blunder, own) {
                (AbsentFirst, None) if self.held.refused.is_none() => [27, k, 0],
                (OwnTold, Some(own)) if self.held.refused.is_none() => [0, own as usize, own as usize],
                _ => self.judged,
            });
        }
        let Some(tried) = tried else {
            return Ok(if blunder == EndlessSpanned && at.is_some() { [0, 1, MOST] } else { absent(case, k, blunder) });
        };
        let [least, greatest] = tried.planted_ends(blunder)?;
        Ok([0, least, greatest])
    }
}

/// Where the loop of a number stands among the loops, if there is one; with the mistakes in that.
fn place_in_order(case: &Case, k: usize, blunder: Blunder) -> Option<usize> {
    let starts = starts(case);
    let at = match blunder {
        LoopAfter => k.checked_add(1)?,
        LoopBefore => k.checked_sub(1)?,
        PlaceNamed => starts.iter().position(|&first| first == k)?,
        NumberCut => k % 256,
        _ => k,
    };
    (at < starts.len()).then_some(at)
}

/// 27; with the mistakes in its numbers.
fn absent(case: &Case, k: usize, blunder: Blunder) -> Answer {
    let second = match blunder {
        LoopUntold => 0,
        CountTold => starts(case).len(),
        _ => k,
    };
    [27, second, 0]
}

/// What setting a loop's rounds tells, and the case after it; `steps` are for the mistakes that judge the case.
pub fn set(case: &Case, k: usize, rounds: usize, blunder: Blunder, steps: u64) -> Result<(Answer, Case), TooLong> {
    let first = place_in_order(case, k, blunder).map(|at| starts(case)[at]);
    let counted = first.filter(|&first| case.0[P][first][5].is_some() || blunder == EndlessSet);
    let set = counted.map_or_else(|| case.clone(), |first| altered(case, first, rounds.min(MOST), blunder));
    let altered_if = |yes: bool| if yes { set.clone() } else { case.clone() };
    let refusals = [
        (!case.finished()).then(|| [24, case.0.iter().map(Vec::len).sum(), 0]),
        counted.is_none().then(|| absent(case, k, blunder)),
        (!may_have(rounds, blunder)).then(|| outside(case, first.unwrap_or(0), blunder)),
    ];
    let order = match blunder {
        RangeFirst => [0, 2, 1],
        RangeBeforeUnfinished => [2, 0, 1],
        AbsentBeforeUnfinished => [1, 0, 2],
        _ => [0, 1, 2],
    };
    if let Some(refused) = order.into_iter().find_map(|at| refusals[at]) {
        return Ok((refused, altered_if(blunder == RefusedAltered)));
    }
    let judged = match blunder {
        AcceptedOnly => judge(case, Mistake::Nothing, steps)?,
        AcceptedAfter => judge(&set, Mistake::Nothing, steps)?,
        _ => [0; 3],
    };
    Ok(if judged[0] == 0 { ([0, writer::case(&set).len(), 0], set) } else { (judged, case.clone()) })
}

/// The case with the rounds of a loop set; with the mistakes in that.
fn altered(case: &Case, first: usize, rounds: usize, blunder: Blunder) -> Case {
    let mut set = with_rounds(case, first, rounds);
    let last = first + case.number(P, first, 4) - 1;
    let places = &mut set.0[P];
    match blunder {
        InsideSet if first < last && last < places.len() => (places[first], places[first + 1][5]) = (case.0[P][first], Some(rounds as i64)),
        LengthSet => places[first][4] = Some(rounds.min(64) as i64),
        BackSet => places[first][6] = Some(0),
        MarksLost => places[first][3] = Some(0),
        NothingSet => places[first] = case.0[P][first],
        _ => {}
    }
    set
}

/// Whether a loop may have so many rounds; with the mistakes in that.
fn may_have(rounds: usize, blunder: Blunder) -> bool {
    let (low, high) = match blunder {
        NoneAllowed => (0, MOST),
        OneRefused => (2, MOST),
        OneMoreAllowed => (1, MOST + 1),
        MostRefused => (1, MOST - 1),
        RangeCut => (1, usize::MAX),
        _ => (1, MOST),
    };
    (low..=high).contains(&rounds)
}

/// 16 with the record of the loop's first place; with the mistakes in its numbers.
fn outside(case: &Case, first: usize, blunder: Blunder) -> Answer {
    let record = case.0[..P].iter().map(Vec::len).sum::<usize>() + first;
    match blunder {
        PlaceTold => [16, first, 5],
        RecordAfter => [16, record + 1, 5],
        WeightsUncounted => [16, record - case.0[W].len(), 5],
        LengthTold => [16, record, 4],
        _ => [16, record, 5],
    }
}

/// What the word set puts out for what is held of a file: the line, and behind it the file where the rounds are set; with the mistakes in that.
pub fn set_output(held: &Held, (answer, case): &(Answer, Case), blunder: Blunder) -> Vec<u8> {
    let told = held.refused.filter(|_| blunder != RefusedSet).unwrap_or(*answer);
    let file = if told[0] == 0 && blunder != FileForgotten || blunder == FileGiven { writer::case(case) } else { Vec::new() };
    let second = if blunder == BytesUncounted && told[0] == 0 { told[1] / LENGTH } else { told[1] };
    [line([told[0], second, told[2]]), file].concat()
}
