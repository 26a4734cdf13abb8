//! A separate checker of case files, written from documents 01 and 02 alone: it unrolls the run moment by moment and looks at every moment.
//! It has no formula for a loop and shares nothing with the proved code. To test the tests, one mistake can be planted in it.
//! A run of a million rounds is unrolled too; only the best sums of its untils are then found backwards, each moment's from the next one's.
use crate::library::Answer;
use crate::mistakes::Mistake::{self, *};
use crate::reader::*;
use std::cell::Cell;

/// A run of more moments is long.
const LONG: usize = 100_000;
/// More than any sum before the endless loop: the sum of an until that grows there without end.
const FAR: i64 = 1 << 60;

/// The unrolling takes more steps than were allowed.
#[derive(Debug)]
pub struct TooLong;

/// The answer for a file, with at most `steps` steps of unrolling; and what is held of it.
pub fn check(bytes: &[u8], mistake: Mistake, steps: u64) -> Result<(Answer, Held), TooLong> {
    let held = read(bytes, mistake);
    let answer = held.refused.map_or_else(|| judge(&held.case, mistake, steps), Ok)?;
    Ok((answer, held))
}

impl Case {
    /// The way by which a place is entered in a round of its loop: 0 way in, 1 back move; with the move. None at moment 0.
    pub fn entry(&self, place: usize, round: i64) -> Option<(usize, usize)> {
        let fields = &self.0[P][place];
        let way = (fields[4].is_some() && round > 1) as usize;
        fields[[2, 6][way]].map(|number| (way, number as usize))
    }

    /// The counters at moment 0: the weights, or 0 where there are none.
    pub fn start(&self) -> [i64; 4] {
        self.0[W].first().map_or([0; 4], |weights| std::array::from_fn(|counter| weights[1 + counter].expect("a filled field")))
    }

    /// Whether a place marks a sentence.
    pub fn marked(&self, place: usize, sentence: usize) -> bool {
        self.number(P, place, 3) >> sentence & 1 == 1
    }

    /// The guards of a move, with the field that names each.
    pub fn guards(&self, number: usize) -> impl Iterator<Item = (usize, usize)> + '_ {
        [7, 8].into_iter().filter_map(move |field| self.0[T][number][field].map(|guard| (field, guard as usize)))
    }

    pub fn add_updates(&self, counters: &mut [i64; 4], number: usize) {
        for (counter, update) in counters.iter_mut().zip(&self.0[T][number][3..7]) {
            *counter += update.expect("a filled field");
        }
    }

    /// What moves add, taken one after the other.
    pub fn added_by(&self, moves: Vec<usize>) -> [i64; 4] {
        let mut sums = [0; 4];
        moves.into_iter().for_each(|number| self.add_updates(&mut sums, number));
        sums
    }

    /// The moves of a loop's second round: the back move, and the ways into its other places.
    pub fn second_round(&self, first: usize) -> Vec<usize> {
        (first..first + self.number(P, first, 4)).filter_map(|place| self.entry(place, 2)).map(|(_, number)| number).collect()
    }
}

/// The sum of coefficient times counter.
pub fn guard_sum(guard: &Fields, counters: &[i64; 4]) -> i64 {
    guard[1..5].iter().zip(counters).map(|(coefficient, counter)| coefficient.expect("a filled field") * counter).sum()
}

/// 24, 31 to 35, or 0.
pub fn judge(case: &Case, mistake: Mistake, steps: u64) -> Result<Answer, TooLong> {
    let run = match run_of(case, mistake, steps)? {
        Ok(run) => run,
        Err(refused) => return Ok(refused),
    };
    let mut truths = Vec::new();
    for (number, sentence) in case.0[F].iter().enumerate() {
        let truth = run.truth(case, sentence, &truths)?;
        let marked = |place: usize| case.marked(place, number);
        if let Some(place) = run.wrong_place(case, sentence, &truth, marked)? {
            return Ok([34, place, number]);
        }
        truths.push(truth);
    }
    let root = case.0[F].len() - 1;
    Ok(if case.marked(0, root) { [0, 0, 0] } else { [35, 0, root] })
}

/// The run as sentences see it; or what is told before the marks are looked at: 24, 31, 32 or 33.
pub fn run_of(case: &Case, mistake: Mistake, steps: u64) -> Result<Result<Run, Answer>, TooLong> {
    if !case.finished() {
        return Ok(Err([24, case.0.iter().map(Vec::len).sum(), 0]));
    }
    if case.0[P][0][1] != Some(0) {
        return Ok(Err([31, 0, 0]));
    }
    if let Some((place, number)) = unconnected(case, mistake) {
        return Ok(Err([32, place, number]));
    }
    // guards of moves and sentences see the same run, but for two planted mistakes
    let run = Run::new(case, if mistake == StartForSentences { StartAtZero } else { mistake }, steps)?;
    if let Some((place, guard)) = run.failing_guard(case)? {
        return Ok(Err([33, place, guard]));
    }
    Ok(Ok(match mistake {
        StartForSentences => Run::new(case, Nothing, steps)?,
        StartForMoves => Run::new(case, StartAtZero, steps)?,
        _ => run,
    }))
}

/// The first place whose way in, or else its back move, leads from or to another state; with that move.
fn unconnected(case: &Case, mistake: Mistake) -> Option<(usize, usize)> {
    let state = |place: usize| case.number(P, place, 1);
    let leads = |number, from, to| case.number(T, number, 1) == state(from) && case.number(T, number, 2) == state(to);
    for (place, fields) in case.0[P].iter().enumerate() {
        if let Some(number) = fields[2].filter(|&number| !leads(number as usize, place - 1, place)) {
            return Some((place, number as usize));
        }
        let Some(length) = fields[4] else { continue };
        let back = case.number(P, place, 6);
        let skipped = mistake == UnconnectedOneRound && fields[5] == Some(1);
        if !skipped && !leads(back, place + length as usize - 1, place) {
            return Some((place, back));
        }
    }
    None
}

/// A moment of the run: its place, the round of its loop from 1, how many rounds and places that loop has (rounds 0 for the endless
/// one; a place outside loops is one round of one place), whether it is the last place there, and the counters.
pub struct Step {
    pub place: usize,
    pub round: i64,
    rounds: i64,
    length: usize,
    last: bool,
    pub counters: [i64; 4],
}

/// The start, with the mistakes in what it is.
fn planted_start(start: [i64; 4], mistake: Mistake) -> [i64; 4] {
    match mistake {
        StartAtZero => [0; 4],
        StartOfFirst => [start[0]; 4],
        StartWithoutLast => [start[0], start[1], start[2], 0],
        _ => start,
    }
}

/// The moments before the endless loop and those of its first round.
pub struct Run {
    pub moments: Vec<Step>,
    /// The moment at which the endless loop starts.
    pub endless: usize,
    mistake: Mistake,
    steps: Cell<u64>,
}

/// What an until asks of each moment, and adds for it.
struct Until {
    goal: Vec<bool>,
    held: Vec<bool>,
    adds: Vec<i64>,
}

impl Run {
    pub fn new(case: &Case, mistake: Mistake, steps: u64) -> Result<Run, TooLong> {
        let mut run = Run { moments: Vec::new(), endless: 0, mistake, steps: Cell::new(steps) };
        let (mut first, mut counters) = (0, planted_start(case.start(), mistake));
        while first < case.0[P].len() {
            let fields = &case.0[P][first];
            let length = fields[4].unwrap_or(1) as usize;
            let endless = fields[4].is_some() && fields[5].is_none();
            let rounds = if endless { 0 } else { fields[5].unwrap_or(1) };
            run.endless = run.moments.len();
            run.spend(length as u64 * rounds.max(1) as u64)?;
            for round in 1..=rounds.max(1) {
                for place in first..first + length {
                    run.enter(case, &mut counters, place, round);
                    let shown = run.shown(place - first, counters);
                    run.moments.push(Step { place, round, rounds, length, last: place + 1 == first + length, counters: shown });
                }
            }
            if run.mistake == ExtraDrift && fields[4].is_some() {
                (first..first + length).for_each(|place| run.enter(case, &mut counters, place, 2));
            }
            first += length;
        }
        Ok(run)
    }

    fn spend(&self, steps: u64) -> Result<(), TooLong> {
        self.steps.set(self.steps.get().checked_sub(steps).ok_or(TooLong)?);
        Ok(())
    }

    /// The counters on going into a place.
    fn enter(&self, case: &Case, counters: &mut [i64; 4], place: usize, round: i64) {
        let Some((way, number)) = case.entry(place, round) else { return };
        case.add_updates(counters, number);
        if way == 1 {
            self.planted_drift(case, counters, place);
            if self.mistake == StartEachRound {
                counters.iter_mut().zip(case.start()).for_each(|(counter, weight)| *counter += weight);
            }
        }
    }

    /// The mistakes in what a round adds, made on going back to a loop's first place: each further round is off by the same moves.
    fn planted_drift(&self, case: &Case, counters: &mut [i64; 4], first: usize) {
        let places = &case.0[P];
        let last = first + case.number(P, first, 4) - 1;
        let way_in = |place: usize| Vec::from_iter(places[place][2].map(|number| number as usize));
        let loops_before = || (0..first).filter(|&place| places[place][4].is_some());
        let moves = match self.mistake {
            DriftWithWayIn => [way_in(first), vec![]],
            OnePlaceWithWayIn if first == last => [way_in(first), vec![]],
            DriftWithoutBack => [vec![], vec![case.number(P, first, 6)]],
            DriftWithoutLast if first < last => [vec![], way_in(last)],
            DriftNotCleared => [loops_before().flat_map(|other| case.second_round(other)).collect(), vec![]],
            DriftOfLast => [case.second_round(case.endless().expect("a finished plan").0), case.second_round(first)],
            _ => return,
        };
        let [more, less] = moves.map(|moves| case.added_by(moves));
        (0..4).for_each(|counter| counters[counter] += more[counter] - less[counter]);
    }

    /// The counters as a place of the present loop shows them. The mistakes are to show those of the first round everywhere but at its first place;
    /// and in the endless loop to take away what has been added since the first round.
    fn shown(&self, at: usize, counters: [i64; 4]) -> [i64; 4] {
        match (self.mistake, self.moments.get(self.endless + at)) {
            (DriftAtFirst, Some(step)) if at > 0 => step.counters,
            (RisesForFalls, Some(step)) if step.rounds == 0 => std::array::from_fn(|counter| 2 * step.counters[counter] - counters[counter]),
            _ => counters,
        }
    }

    /// Whether a guard is true of the counters; where it is tested in every round of the endless loop, with the mistakes in its cases there.
    fn holds(&self, case: &Case, guard: &Fields, counters: &[i64; 4], every_round: bool) -> bool {
        let over = guard_sum(guard, counters) - guard[5].expect("a bound");
        let adds = || guard_sum(guard, &case.added_by(case.second_round(self.moments[self.endless].place)));
        match self.mistake {
            RisesBelowTrue if every_round => over >= 0 || adds() > 0,
            StaysAboveFalse if every_round => over >= 0 && adds() != 0,
            StaysBelowTrue if every_round => over >= 0 || adds() == 0,
            AtBoundBelow if every_round => over > 0,
            _ => over >= 0,
        }
    }

    /// The moment after this one; after the first round of the endless loop its first place comes again.
    fn after(&self, moment: usize) -> usize {
        if moment + 1 < self.moments.len() {
            moment + 1
        } else {
            self.endless
        }
    }

    /// For each place of the endless loop: whether the guard is true, and whether it is false, in some round from the second on.
    /// Each round takes the same moves, so it changes the sum at a place by the same amount. The walk ends when at every place the
    /// last round has not changed the sum, or the sum has passed the bound and moves away from it: no later round is different.
    pub fn later(&self, case: &Case, guard: &Fields) -> Result<Vec<[bool; 2]>, TooLong> {
        let round_one = &self.moments[self.endless..];
        let mut sums: Vec<i64> = round_one.iter().map(|step| guard_sum(guard, &step.counters)).collect();
        let mut counters = round_one[round_one.len() - 1].counters;
        let mut seen = vec![[false; 2]; sums.len()];
        let mut settled = false;
        while !settled {
            self.spend(sums.len() as u64)?;
            settled = true;
            for (at, step) in round_one.iter().enumerate() {
                self.enter(case, &mut counters, step.place, 2);
                let shown = self.shown(at, counters);
                let (before, now, truth) = (sums[at], guard_sum(guard, &shown), self.holds(case, guard, &shown, true));
                seen[at][!truth as usize] = true;
                settled &= now == before || (now > before) == truth;
                sums[at] = now;
            }
        }
        Ok(seen)
    }

    /// Of the guards that fail at some moment of their move: the smallest place, way in before back move, field 7 before 8; with the guard.
    fn failing_guard(&self, case: &Case) -> Result<Option<(usize, usize)>, TooLong> {
        let mut failing: Vec<(usize, usize, usize, usize)> = Vec::new();
        for (moment, step) in self.moments.iter().enumerate() {
            let Some((way, number)) = case.entry(step.place, step.round) else { continue };
            let skipped = match self.mistake {
                GuardsFirstRound => step.round > 1 + way as i64,
                GuardsLastRound => step.round < step.rounds,
                _ => false,
            };
            let counters = if self.mistake == GuardsBefore { &self.moments[moment - 1].counters } else { &step.counters };
            for (field, guard) in case.guards(number) {
                if !skipped && !self.holds(case, &case.0[G][guard], counters, moment > self.endless) {
                    failing.push((step.place, way, field, guard));
                }
            }
        }
        self.planted_back_guards(case, &mut failing);
        if self.mistake != GuardsEndlessOnce {
            self.add_failing_later(case, &mut failing)?;
        }
        let told = if self.mistake == FirstInTime { failing.first() } else { failing.iter().min() };
        Ok(told.map(|&(place, _, _, guard)| (place, guard)))
    }

    /// The guards that fail in a later round of the endless loop; the mistake is to test those of its way in there.
    fn add_failing_later(&self, case: &Case, failing: &mut Vec<(usize, usize, usize, usize)>) -> Result<(), TooLong> {
        for (at, step) in self.moments[self.endless..].iter().enumerate() {
            let again = case.entry(step.place, 1).filter(|_| self.mistake == WayInEveryRound);
            for (way, number) in case.entry(step.place, 2).into_iter().chain(again) {
                for (field, guard) in case.guards(number) {
                    if self.later(case, &case.0[G][guard])?[at][1] {
                        failing.push((step.place, way, field, guard));
                    }
                }
            }
        }
        Ok(())
    }

    /// The mistakes that test the guards of a back move where it is not taken.
    fn planted_back_guards(&self, case: &Case, failing: &mut Vec<(usize, usize, usize, usize)>) {
        for (moment, step) in self.moments.iter().enumerate() {
            let Some(back) = case.0[P][step.place][6] else { continue };
            let mut counters = step.counters;
            match self.mistake {
                BackFromRoundOne if step.round == 1 && step.rounds != 1 => {}
                BackFromRoundOneEndless if step.rounds == 0 => {}
                BackWithOneRound if step.rounds == 1 => {
                    counters = self.moments[moment + step.length - 1].counters;
                    case.add_updates(&mut counters, back as usize);
                }
                _ => continue,
            }
            let wrong = |&(_, guard): &(usize, usize)| !self.holds(case, &case.0[G][guard], &counters, false);
            failing.extend(case.guards(back as usize).filter(wrong).map(|(field, guard)| (step.place, 1, field, guard)));
        }
    }

    /// The truth of a sentence at each moment of `moments`, from the truths of the lower ones. Where each of those is the same in
    /// every round of the endless loop, all rounds of it have the same future, so its first round tells the truth in each.
    pub fn truth(&self, case: &Case, sentence: &Fields, lower: &[Vec<bool>]) -> Result<Vec<bool>, TooLong> {
        let operand = |field: usize| sentence[field].expect("a filled field") as usize;
        let at = |field: usize, moment: usize| lower[operand(field)][moment];
        let all = 0..self.moments.len();
        self.spend(all.len() as u64)?;
        Ok(match sentence[1].expect("a form") {
            0 => vec![true; all.len()],
            1 => self.moments.iter().map(|step| case.number(S, case.number(P, step.place, 1), 1) >> operand(2) & 1 == 1).collect(),
            2 => {
                let seen = |moment: usize| if moment == 0 && self.mistake == StartAfterMoment0 { [0; 4] } else { self.moments[moment].counters };
                all.map(|moment| self.holds(case, &case.0[G][operand(2)], &seen(moment), moment >= self.endless)).collect()
            }
            3 => all.map(|moment| at(2, moment) && at(3, moment)).collect(),
            4 => all.map(|moment| !at(2, moment)).collect(),
            5 => all.map(|moment| at(2, self.next_looked_at(moment))).collect(),
            _ => {
                let bound = sentence[4].expect("a bound");
                let best = self.best_sums(sentence, lower, bound)?;
                best.iter().map(|&sum| sum >= Some(bound)).collect()
            }
        })
    }

    /// The moment that `next` looks at.
    fn next_looked_at(&self, moment: usize) -> usize {
        let step = &self.moments[moment];
        let counted = step.last && step.rounds > 1;
        match self.mistake {
            NextStays if counted && step.round == step.rounds => moment + 1 - step.length,
            NextLeaves if counted => moment + 1 + (step.rounds - step.round) as usize * step.length,
            _ => self.after(moment),
        }
    }

    /// For each moment, the greatest sum with which an until's goal is reached from it; `enough` or more ends the search.
    pub fn best_sums(&self, sentence: &Fields, lower: &[Vec<bool>], enough: i64) -> Result<Vec<Option<i64>>, TooLong> {
        let operand = |field: usize| &lower[sentence[field].expect("a filled field") as usize];
        let mut adds = vec![0; self.moments.len()];
        for field in [5, 7].into_iter().filter(|&field| sentence[field].is_some()) {
            if self.mistake == TermsOnce && field == 7 && sentence[6] == sentence[8] {
                continue;
            }
            for (sum, _) in adds.iter_mut().zip(operand(field + 1)).filter(|(_, &truth)| truth) {
                *sum += sentence[field].expect("a filled field");
            }
        }
        let until = Until { goal: operand(3).clone(), held: operand(2).clone(), adds };
        if self.moments.len() > LONG {
            return self.best_sums_backwards(&until);
        }
        (0..self.moments.len()).map(|start| self.best_sum(&until, start, enough)).collect()
    }

    /// The same from the last moment to the first: the goal is reached at once, or from the next moment on where the held sentence is true.
    fn best_sums_backwards(&self, until: &Until) -> Result<Vec<Option<i64>>, TooLong> {
        let mut best: Vec<Option<i64>> = vec![None; self.moments.len()];
        for moment in (0..best.len()).rev() {
            best[moment] = if moment >= self.endless {
                self.best_sum(until, moment, FAR)?
            } else {
                let next = best[moment + 1].filter(|_| until.held[moment]);
                until.goal[moment].then_some(0).max(next.map(|sum| sum + until.adds[moment]))
            };
        }
        Ok(best)
    }

    /// Goes on from a moment as long as the held sentence is true. In the endless loop it stops after a whole round in which no goal
    /// stood or the sum has not grown: the next round would be the same, with no greater sums. Otherwise the sum grows by 1 or more
    /// each round, so `enough` is reached, and need not be waited for where it is far.
    fn best_sum(&self, until: &Until, start: usize, enough: i64) -> Result<Option<i64>, TooLong> {
        let (mut moment, mut sum, mut best) = (start, 0, None);
        let (mut round_start, mut goal_seen) = (None, false);
        loop {
            self.spend(1)?;
            let step = &self.moments[moment];
            let later_round = step.rounds > 1 && step.round > 1;
            let unseen = self.mistake == GrowthCounted && later_round && start + step.length <= moment;
            if until.goal[moment] && !unseen {
                let own = if self.mistake == GoalCounted { until.adds[moment] } else { 0 };
                best = best.max(Some(sum + own));
                goal_seen = true;
                if best >= Some(enough) {
                    return Ok(best);
                }
            }
            if !until.held[moment] && !(self.mistake == CountedUnheld && later_round) {
                return Ok(best);
            }
            sum += until.adds[moment];
            self.planted_on_leaving(until, start, moment, &mut sum, &mut best);
            moment = self.after(moment);
            if moment == self.endless {
                if let Some(before) = round_start {
                    let grown = if self.mistake == GrowthEndless { sum < before } else { sum > before };
                    if !goal_seen || !grown {
                        return Ok(best);
                    }
                    if enough == FAR {
                        return Ok(Some(FAR));
                    }
                }
                if self.planted_infinity(until, round_start.is_some()) {
                    return Ok(Some(enough));
                }
                (round_start, goal_seen) = (Some(sum), false);
            }
        }
    }

    /// The two mistakes in the sums of a counted loop, on leaving it after more than its last round.
    fn planted_on_leaving(&self, until: &Until, start: usize, moment: usize, sum: &mut i64, best: &mut Option<i64>) {
        let step = &self.moments[moment];
        if !(step.last && step.rounds > 1 && step.round == step.rounds && start + step.length <= moment) {
            return;
        }
        let last_round = moment + 1 - step.length..=moment;
        if self.mistake == RoundShort {
            *sum -= until.adds[last_round].iter().sum::<i64>();
        } else if self.mistake == ExtraRound {
            let mut beyond = *sum;
            for again in last_round {
                if until.goal[again] {
                    *best = (*best).max(Some(beyond));
                }
                beyond += until.adds[again];
            }
        }
    }

    /// The two mistakes that take the sums of the endless loop for growing without end.
    fn planted_infinity(&self, until: &Until, round_done: bool) -> bool {
        let growth: i64 = until.adds[self.endless..].iter().sum();
        match self.mistake {
            GrowthEndless => round_done,
            EndlessUnheld => growth > 0 && until.goal[self.endless..].contains(&true),
            _ => false,
        }
    }

    /// The smallest place where the mark differs from the truth at some moment.
    pub fn wrong_place(&self, case: &Case, sentence: &Fields, truth: &[bool], marked: impl Fn(usize) -> bool) -> Result<Option<usize>, TooLong> {
        Ok(self.wrong_places(case, sentence, truth, marked)?.into_iter().position(|wrong| wrong))
    }

    /// By place, whether the mark differs from the truth at some moment.
    pub fn wrong_places(&self, case: &Case, sentence: &Fields, truth: &[bool], marked: impl Fn(usize) -> bool) -> Result<Vec<bool>, TooLong> {
        let guard = (sentence[1] == Some(2)).then(|| &case.0[G][sentence[2].expect("a guard") as usize]);
        let once = |place: usize| self.mistake == FalseOnce && guard.is_some() && !marked(place);
        let mut wrong = vec![false; case.0[P].len()];
        for (step, &truth) in self.moments.iter().zip(truth) {
            let skipped = match self.mistake {
                MarksFirstRound => step.round > 1,
                MarksLastRound => step.round < step.rounds,
                _ => once(step.place) && step.round > 1,
            };
            if !skipped && truth != marked(step.place) {
                wrong[step.place] = true;
            }
        }
        if let Some(guard) = guard.filter(|_| self.mistake != MarksEndlessOnce) {
            for (step, seen) in self.moments[self.endless..].iter().zip(self.later(case, guard)?) {
                if !once(step.place) && seen[marked(step.place) as usize] {
                    wrong[step.place] = true;
                }
            }
        }
        Ok(wrong)
    }
}
