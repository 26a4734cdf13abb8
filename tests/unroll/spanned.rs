//! The rounds of loops, found and set: what the library puts out beside the separate finding and setting; and mistakes planted in these.
use crate::checker::TooLong;
use crate::filler::line;
use crate::library::{Output, Word, SHOWN};
use crate::mistakes::{Blunder, Mistake, BLUNDERS};
use crate::random::Random;
use crate::reader::{read, Case, Held, LENGTH, P, ROOM};
use crate::shapes::by_hand;
use crate::spans::{set, set_output, starts, with_rounds, Loops, Tried, FEW, MOST};
use crate::writer;
use std::collections::BTreeMap;

/// Each planted mistake must be found by so many calls.
const FOUND: usize = 3;
/// Steps of unrolling allowed where a planted mistake judges a case.
const STEPS: u64 = 100_000;
/// Of so many calls, one is also given a buffer that is too short.
const SHORT_EACH: usize = 4;
/// Of so many loops with an end between few rounds and the most, and of so many that may have the most, one has the run unrolled there.
const UNROLLED_EACH: [usize; 2] = [30, 900];
/// Numbers of loops that are absent, and rounds.
const FAR: [usize; 8] = [62, 63, 64, 255, 256, 65_536, 1 << 32, usize::MAX];
const ROUNDS: [usize; 10] = [0, 1, 2, 3, 12, MOST - 1, MOST, MOST + 1, 9_999_999, usize::MAX];

/// A counted loop of an accepted case, and its ends.
struct Trial<'a> {
    tried: &'a Tried<'a>,
    case: &'a Case,
    ends: [usize; 2],
}

type Sort = (&'static str, usize, fn(&Trial) -> bool);
/// The words for a sort of loop, how many of ten thousand loops must be of it at least, and whether one is.
const SORTS: [Sort; 22] = [
    ("least 1", 4000, |trial| trial.ends[0] == 1),
    ("least the own rounds", 1000, |trial| trial.between(trial.ends[0]) && trial.ends[0] == trial.tried.own),
    ("least between 1 and the own rounds", 500, |trial| trial.between(trial.ends[0]) && trial.ends[0] < trial.tried.own),
    ("least 1,000,000", 10, |trial| trial.ends[0] == MOST),
    ("greatest 1", 100, |trial| trial.ends[1] == 1),
    ("greatest the own rounds", 1000, |trial| trial.between(trial.ends[1]) && trial.ends[1] == trial.tried.own),
    ("greatest between the own rounds and 1,000,000", 500, |trial| trial.between(trial.ends[1]) && trial.ends[1] > trial.tried.own),
    ("greatest 1,000,000", 3000, |trial| trial.ends[1] == MOST),
    ("least 2", 500, |trial| trial.ends[0] == 2),
    ("least among many", 60, |trial| trial.ends[0] > FEW),
    ("least 999,999", 6, |trial| trial.ends[0] == MOST - 1),
    ("greatest among many", 200, |trial| trial.ends[1] > FEW && trial.ends[1] < MOST),
    ("greatest 999,999", 4, |trial| trial.ends[1] == MOST - 1),
    ("one number alone", 500, |trial| trial.ends[0] == trial.ends[1]),
    ("2 rounds refused by a guard of the back move", 80, |trial| trial.ends[1] == 1 && trial.refused(2, 33, 0)),
    ("refused below by a guard of a later place", 1000, |trial| trial.refused(trial.ends[0] - 1, 33, trial.behind())),
    ("refused above by a guard of a later place", 1000, |trial| trial.refused(trial.ends[1] + 1, 33, trial.behind())),
    ("refused below by a mark", 60, |trial| trial.refused(trial.ends[0] - 1, 34, 0)),
    ("refused above by a mark", 120, |trial| trial.refused(trial.ends[1] + 1, 34, 0)),
    ("refused above by a mark, among many", 10, |trial| trial.ends[1] > FEW && trial.refused(trial.ends[1] + 1, 34, 0)),
    ("beside another counted loop", 1000, |trial| starts(trial.case).len() > 2),
    ("not the first loop", 500, |trial| starts(trial.case)[0] < trial.tried.first),
];
/// The results that must be seen, of finding and of setting.
const RESULTS: [&[usize]; 2] =
    [&[0, 11, 12, 13, 14, 15, 16, 21, 22, 23, 24, 25, 26, 27, 31, 32, 33, 34, 35], &[0, 11, 12, 13, 14, 15, 16, 21, 22, 23, 24, 25, 26, 27]];

impl Trial<'_> {
    fn between(&self, end: usize) -> bool {
        (2..MOST).contains(&end)
    }

    /// The place behind the loop.
    fn behind(&self) -> usize {
        self.tried.first + self.case.number(P, self.tried.first, 4)
    }

    /// Whether these rounds, where a loop can have them, get this result, at this place or a later one.
    fn refused(&self, rounds: usize, result: usize, place: usize) -> bool {
        (1..=MOST).contains(&rounds) && matches!(self.tried.told(rounds), [told, at, _] if told == result && at >= place)
    }

    /// Whether exactly the rounds between the ends are accepted: of all up to `FEW`, of some that are more, and of those beside the ends.
    fn none_beyond(&self, r: &mut Random) -> bool {
        let [least, greatest] = self.ends;
        let some = [0; 4].map(|_| FEW + 1 + r.below(MOST - FEW));
        let beside = [least - 1, greatest + 1, greatest, self.tried.own].into_iter().filter(|rounds| (1..=MOST).contains(rounds));
        let right = |rounds: usize| self.tried.accepts(rounds) == (least..=greatest).contains(&rounds);
        (1..=FEW + 1).chain(some).chain([MOST - 1, MOST]).chain(beside).all(right)
    }

    /// The same of one number of rounds above `FEW`, by unrolling: at an end, beside one, or the most.
    fn unrolled(&self, r: &mut Random) -> Result<bool, TooLong> {
        let [least, greatest] = self.ends;
        let many: Vec<usize> =
            [least - 1, least, greatest, greatest + 1, MOST].into_iter().filter(|rounds| (FEW + 1..=MOST).contains(rounds)).collect();
        let rounds = r.pick(&many);
        Ok(self.tried.unrolled(rounds)? == (least..=greatest).contains(&rounds))
    }

    /// Other rounds that are accepted too.
    fn other_rounds(&self, r: &mut Random) -> usize {
        let [least, greatest] = self.ends;
        let few = greatest.min(least + FEW);
        let (some, any) = (r.between(least as i64, few as i64) as usize, r.between(least as i64, greatest as i64) as usize);
        r.pick(&[least, greatest, some, some, some, any, any])
    }
}

/// What finding and setting rounds has shown.
pub struct Spannings {
    r: Random,
    files: usize,
    failed: usize,
    accepted: usize,
    calls: [usize; 2],
    buffers: usize,
    results: [BTreeMap<usize, usize>; 2],
    /// The loops whose ends were found, of the case as it is and with other rounds; and those of each sort.
    loops: [usize; 2],
    sorts: [usize; SORTS.len()],
    /// Of how many of them many rounds are an end, or beside one; and for how many the run was unrolled with few rounds, and with many.
    many: [usize; 2],
    unrolled: [usize; 2],
    /// By how many calls each mistake is found, up to `FOUND`; and how many files there were then.
    found: [usize; BLUNDERS.len()],
    found_after: [usize; BLUNDERS.len()],
}

impl Spannings {
    pub fn new(seed: u64) -> Spannings {
        Spannings {
            r: Random(seed),
            files: 0,
            failed: 0,
            accepted: 0,
            calls: [0; 2],
            buffers: 0,
            results: Default::default(),
            loops: [0; 2],
            sorts: [0; SORTS.len()],
            many: [0; 2],
            unrolled: [0; 2],
            found: [0; BLUNDERS.len()],
            found_after: [0; BLUNDERS.len()],
        }
    }

    /// How many cases were accepted.
    pub fn accepted(&self) -> usize {
        self.accepted
    }

    /// One more file, with so many steps of unrolling for each judgement. Whether all that the library puts out for it is right.
    pub fn add(&mut self, bytes: &[u8], steps: u64) -> bool {
        let held = read(bytes, Mistake::Nothing);
        let loops = Loops::of(&held, steps);
        self.files += 1;
        self.accepted += (loops.judged[0] == 0) as usize;
        let wrong = self.wrong_finding(bytes, loops).or_else(|| self.wrong_setting(bytes, &held));
        self.failed += wrong.is_some() as usize;
        if let Some(word) = wrong.filter(|_| self.failed <= SHOWN) {
            println!("unroll: {word:?} is answered wrongly, of\n{}", String::from_utf8_lossy(bytes));
        }
        wrong.is_none()
    }

    /// The plans by hand, whose ends are given; of many rounds those at the ends and beside them are unrolled.
    pub fn by_hand(&mut self, steps: u64) -> bool {
        let plans = by_hand();
        for &(words, ref bytes, k, ends) in &plans {
            let held = read(bytes, Mistake::Nothing);
            let right = || {
                let loops = Loops::of(&held, steps);
                let tried = loops.tried[k].as_ref()?;
                let [least, greatest] = ends;
                let beside = [least - 1, least, greatest, greatest + 1].into_iter().filter(|rounds| (1..=MOST).contains(rounds));
                let unrolled = |rounds: usize| tried.unrolled(rounds).is_ok_and(|accepted| accepted == (least..=greatest).contains(&rounds));
                Some(tried.ends() == ends && beside.into_iter().all(unrolled))
            };
            if right() != Some(true) || !self.add(bytes, steps) {
                println!("unroll: a plan by hand, of which loop {k} may have {ends:?} rounds, isn't right: {words}");
                return false;
            }
        }
        println!("unroll: plans by hand, with their rounds: {} passed, 0 failed", plans.len());
        true
    }

    /// Numbers of loops to try: those there are, the next, and one that is far.
    fn numbers(&mut self, count: usize) -> Vec<usize> {
        let far = self.r.pick(&FAR);
        (0..=count).chain([far]).collect()
    }

    /// Finds the rounds of the loops; each counted one also with other rounds. A word that is answered wrongly, if there is one.
    fn wrong_finding(&mut self, bytes: &[u8], mut loops: Loops) -> Option<Word> {
        let count = loops.tried.len();
        for k in self.numbers(count) {
            let alike = self.finding_alike(bytes, &loops, k);
            if !alike || k < count && loops.tried[k].is_some() && !self.ends_right(&mut loops, k) {
                return Some(Word::Rounds(k));
            }
        }
        None
    }

    /// Whether the ends of a counted loop are right, and the library finds the same ones where the loop has other rounds.
    fn ends_right(&mut self, loops: &mut Loops, k: usize) -> bool {
        let case = loops.case();
        let Some(tried) = &mut loops.tried[k] else { return false };
        let trial = Trial { case, ends: tried.ends(), tried: &*tried };
        let right = trial.none_beyond(&mut self.r) && self.count(&trial, 0);
        let other = trial.other_rounds(&mut self.r);
        tried.own = other;
        let trial = Trial { case, ends: tried.ends(), tried: &*tried };
        let right = right && trial.none_beyond(&mut self.r) && self.count(&trial, 1);
        let file = writer::case(&with_rounds(case, tried.first, other));
        let alike = self.finding_alike(&file, loops, k);
        loops.tried[k].as_mut().into_iter().for_each(|tried| tried.own = case.number(P, tried.first, 5));
        right && alike
    }

    /// Counts a loop, and unrolls the run of some at many rounds; whether that is right.
    fn count(&mut self, trial: &Trial, which: usize) -> bool {
        self.loops[which] += 1;
        self.unrolled[0] += trial.tried.by_unrolling as usize;
        self.sorts.iter_mut().zip(SORTS).for_each(|(times, (.., is))| *times += is(trial) as usize);
        if trial.ends[1] <= FEW {
            return true;
        }
        let most = (trial.ends[0] <= FEW && trial.ends[1] == MOST) as usize;
        self.many[most] += 1;
        if self.many[most] % UNROLLED_EACH[most] > 0 {
            return true;
        }
        let right = trial.unrolled(&mut self.r);
        self.unrolled[1] += right.is_ok() as usize;
        right.unwrap_or(true)
    }

    /// Whether the library puts out what finding the rounds of a loop tells.
    fn finding_alike(&mut self, bytes: &[u8], loops: &Loops, k: usize) -> bool {
        let Ok(told) = loops.rounds(k, Blunder::Nothing) else { return false };
        *self.results[0].entry(told[0]).or_default() += 1;
        self.calls[0] += 1;
        let output = self.put_out(Word::Rounds(k), bytes, &line(told));
        let wrong = |blunder: Blunder| {
            let told = line(loops.rounds(k, blunder)?);
            Ok(!output.as_ref().is_some_and(|output| output.agrees(&told)))
        };
        self.find_mistakes(wrong);
        output.is_some()
    }

    /// What the library puts out, where that is as it must be, into a buffer that is long enough and for some calls also into one that is too short.
    fn put_out(&mut self, word: Word, bytes: &[u8], whole: &[u8]) -> Option<Output> {
        let turn = self.calls.iter().sum::<usize>();
        let output = Output::of(word, bytes, whole.len() + turn % (2 * LENGTH), turn);
        let short = turn % SHORT_EACH > 0 || Output::of(word, bytes, turn % whole.len(), turn).agrees(whole);
        self.buffers += 1 + (turn % SHORT_EACH == 0) as usize;
        Some(output).filter(|output| short && output.agrees(whole))
    }

    /// Sets the rounds of the loops, of a counted one twice. A word that is answered wrongly, if there is one.
    fn wrong_setting(&mut self, bytes: &[u8], held: &Held) -> Option<Word> {
        let firsts = starts(&held.case);
        for k in self.numbers(firsts.len()) {
            let own = firsts.get(k).and_then(|&first| held.case.0[P][first][5]).map(|own| own as usize);
            let any = 1 + self.r.below(MOST);
            let other = own.map(|own| self.r.pick(&[own, own + 1, any]));
            for rounds in [self.r.pick(&ROUNDS)].into_iter().chain(other) {
                if !self.setting_alike(bytes, held, k, rounds) {
                    return Some(Word::Set(k, rounds));
                }
            }
        }
        None
    }

    /// Whether the library puts out what setting the rounds of a loop gives, and hands back the same case.
    fn setting_alike(&mut self, bytes: &[u8], held: &Held, k: usize, rounds: usize) -> bool {
        let word = Word::Set(k, rounds);
        let Ok(done) = set(&held.case, k, rounds, Blunder::Nothing, STEPS) else { return false };
        let whole = set_output(held, &done, Blunder::Nothing);
        *self.results[1].entry(held.refused.unwrap_or(done.0)[0]).or_default() += 1;
        self.calls[1] += 1;
        let output = self.put_out(word, bytes, &whole);
        let kept = word.kept(bytes, ROOM.iter().sum::<usize>() * LENGTH);
        let right = kept == writer::case(&done.1);
        let wrong = |blunder: Blunder| {
            let done = set(&held.case, k, rounds, blunder, STEPS)?;
            let alike = output.as_ref().is_some_and(|output| output.agrees(&set_output(held, &done, blunder)));
            Ok(!alike || kept != writer::case(&done.1))
        };
        self.find_mistakes(wrong);
        right && output.is_some()
    }

    /// Counts which planted mistakes show in a call.
    fn find_mistakes(&mut self, wrong: impl Fn(Blunder) -> Result<bool, TooLong>) {
        for (at, (blunder, _)) in BLUNDERS.into_iter().enumerate() {
            if self.found[at] < FOUND && wrong(blunder).unwrap_or(false) {
                self.found[at] += 1;
                self.found_after[at] = self.files;
            }
        }
    }

    /// How many files there were, with these words for them.
    pub fn passed(&self, words: &str) -> String {
        let Spannings { files, failed, accepted, calls: [found, set], buffers, loops: [loops, other], unrolled: [few, many], .. } = self;
        let passed = files - failed;
        format!(
            "unroll: {words} with rounds found and set: {passed} passed, {failed} failed; {accepted} are accepted; {found} times found, of {loops} \
             loops as they are and {other} with other rounds, and {set} times set, into {buffers} buffers; the run unrolled for each of 1 to {FEW} \
             rounds of {few} of these loops, and for more, up to {MOST}, of {many}"
        )
    }

    /// Whether none failed.
    pub fn all_passed(&self) -> bool {
        self.failed == 0
    }

    /// How many loops are of each sort.
    fn sorts(&self) -> Vec<(&str, usize)> {
        SORTS.iter().map(|(words, ..)| *words).zip(self.sorts).collect()
    }

    /// The planted mistakes that too few calls find.
    fn unfound(&self) -> Vec<&str> {
        BLUNDERS.iter().zip(self.found).filter(|(_, times)| *times < FOUND).map(|((_, words), _)| *words).collect()
    }

    /// Says what the files were, and what they find.
    pub fn show(&self) {
        let (planted, unfound, after) = (BLUNDERS.len(), self.unfound().len(), self.found_after.iter().max().unwrap_or(&0));
        println!("unroll: rounds found, and set, and how often each result: {:?}", self.results);
        println!("unroll: loops whose rounds were found, and how many are such: {:?}", self.sorts());
        print!("{}", self.passed("cases"));
        println!("; {after} files find {} of {planted} planted mistakes, each in {FOUND} calls", planted - unfound);
    }

    /// Says what is missing for the files to be a test; whether nothing is.
    pub fn enough(&self) -> bool {
        let loops: usize = self.loops.iter().sum();
        let few: Vec<_> =
            self.sorts().into_iter().zip(SORTS).filter(|(sort, (_, least, _))| sort.1 * 10_000 < least * loops).map(|(sort, _)| sort).collect();
        let seldom = |at: usize, result: &&usize| self.results[at].get(result).copied().unwrap_or(0) * 10_000 < self.calls[at];
        let results = [0, 1].map(|at| RESULTS[at].iter().filter(|result| seldom(at, result)).collect::<Vec<_>>());
        let unfound = self.unfound();
        let lacks = [
            (!few.is_empty(), format!("loops seen too seldom, and how many: {few:?}")),
            (results.iter().any(|results| !results.is_empty()), format!("results of finding, or of setting, seen too seldom: {results:?}")),
            (self.unrolled[0] * 10 < loops * 9, format!("the run unrolled with few rounds of {} of {loops} loops only", self.unrolled[0])),
            (self.unrolled[1] * 1000 < loops, format!("the run unrolled with many rounds of {} loops only", self.unrolled[1])),
            (!unfound.is_empty(), format!("planted mistakes in rounds found by fewer than {FOUND} calls: {unfound:?}")),
        ];
        lacks.iter().filter(|(lacks, _)| *lacks).for_each(|(_, words)| println!("unroll: {words}"));
        lacks.iter().all(|(lacks, _)| !lacks)
    }
}
