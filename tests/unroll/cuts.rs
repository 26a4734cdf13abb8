//! A counted loop cut in two, one behind the other, by document 02, item 8: the case with the cut is accepted exactly where the case is. The cutter
//! shares nothing with the proved code. To test the tests, one mistake can be planted in it.
use crate::checker::check;
use crate::library::{self, Answer};
use crate::mistakes::Miscut::{self, *};
use crate::mistakes::{Mistake, MISCUTS};
use crate::random::Random;
use crate::reader::{read, Case, Fields, P, ROOM, T, W};
use crate::shapes::by_hand;
use crate::spans::{starts, with_rounds, MOST};
use crate::writer;

/// Each planted mistake must be found by so many cuts.
const FOUND: usize = 3;
/// Of a case with more loops than this, so many are cut.
const LOOPS: usize = 4;
/// Steps of unrolling allowed for a plan by hand, of up to a million rounds.
const LONG_STEPS: u64 = 30_000_000;

/// The first places of the counted loops of 2 rounds or more, all of whose places are there.
pub fn loops_to_cut(case: &Case) -> Vec<usize> {
    let there = |&first: &usize| case.0[P][first][5] >= Some(2) && first + case.number(P, first, 4) <= case.0[P].len();
    starts(case).into_iter().filter(there).collect()
}

/// The case with the loop of this first place cut: first a loop of m rounds, then one like it of the others, which the back move leads into.
pub fn cut(case: &Case, first: usize, m: usize, miscut: Miscut) -> Case {
    let (before, rest) = case.0[P].split_at(first);
    let (whole, behind) = rest.split_at(case.number(P, first, 4));
    let [mut one, mut two, mut behind] = [whole, whole, behind].map(<[Fields]>::to_vec);
    one[0][5] = Some(m as i64);
    two[0][5] = whole[0][5].map(|rounds| rounds - m as i64);
    two[0][2] = whole[0][6];
    plant(miscut, whole, [&mut one, &mut two, &mut behind]);
    let mut other = case.clone();
    other.0[P] = [before, &one, &two, &behind].concat();
    other
}

/// The mistakes in the two halves of a loop, and in the place behind.
fn plant(miscut: Miscut, whole: &[Fields], [one, two, behind]: [&mut Vec<Fields>; 3]) {
    let short = whole.len() as i64 - 1;
    let fewer = |rounds: Option<i64>| rounds.map(|rounds| (rounds - 1).max(1));
    match miscut {
        WayInKept => two[0][2] = whole[0][2],
        WayInBehind => two[0][2] = behind.first().map_or(whole[0][6], |place| place[2]),
        FirstByBack => one[0][2] = whole[0][6],
        BehindByBack => behind.iter_mut().take(1).for_each(|place| place[2] = whole[0][6]),
        BackByWayIn => two[0][6] = whole[0][2],
        FirstBackByWayIn => one[0][6] = whole[0][2],
        FirstWhole => one[0][5] = whole[0][5],
        SecondWhole => two[0][5] = whole[0][5],
        SecondLikeFirst => two[0][5] = one[0][5],
        FirstFewer => one[0][5] = fewer(one[0][5]),
        SecondFewer => two[0][5] = fewer(two[0][5]),
        FirstMore => one[0][5] = one[0][5].map(|rounds| rounds + 1),
        SecondMore => two[0][5] = two[0][5].map(|rounds| rounds + 1),
        FirstUnlooped => one[0][4..7].fill(None),
        SecondUnlooped => two[0][4..7].fill(None),
        LastLeftOut if short > 0 => (two[0][4], _) = (Some(short), two.pop()),
        FirstLastLeftOut if short > 0 => (one[0][4], _) = (Some(short), one.pop()),
        MarksEmpty => two.iter_mut().for_each(|place| place[3] = Some(0)),
        MarksOfFirst => two.iter_mut().for_each(|place| place[3] = whole[0][3]),
        MarksOfBehind => two.iter_mut().for_each(|place| place[3] = behind.first().map_or(place[3], |place| place[3])),
        SecondLost => two.clear(),
        _ => {}
    }
}

/// A case with its answer, and a cut of one of its loops.
struct Trial<'a> {
    case: &'a Case,
    answer: Answer,
    first: usize,
    m: usize,
    cut: Case,
}

type Sort = (&'static str, usize, fn(&Trial) -> bool);
/// The words for a sort of cut, how many of ten thousand cuts must be of it at least, and whether one is.
const SORTS: [Sort; 27] = [
    ("at place 0", 2000, |trial| trial.first == 0),
    ("of one place", 2000, |trial| trial.whole().len() == 1),
    ("of more places", 3000, |trial| trial.whole().len() > 1),
    ("right behind a loop", 900, |trial| starts(trial.case).iter().any(|&other| other + trial.case.number(P, other, 4) == trial.first)),
    ("right before a counted loop", 900, |trial| trial.behind().is_some_and(|place| place[5].is_some())),
    ("right before the endless loop", 2000, |trial| trial.behind().is_some_and(|place| place[4].is_some() && place[5].is_none())),
    ("a guard of the back move", 4500, |trial| trial.guarded(trial.whole()[0][6])),
    ("a guard of the way into the place behind", 3000, |trial| trial.guarded(trial.behind().and_then(|place| place[2]))),
    ("marks that differ in the loop", 1700, |trial| trial.whole().windows(2).any(|pair| pair[0][3] != pair[1][3])),
    ("m = 1", 2800, |trial| trial.m == 1),
    ("m = n - 1", 2600, |trial| trial.m == trial.rounds() - 1),
    ("n = 2", 1500, |trial| trial.rounds() == 2),
    ("n = 3", 1000, |trial| trial.rounds() == 3),
    ("n = 1,000,000", 250, |trial| trial.rounds() == MOST),
    ("weights", 2500, |trial| !trial.case.0[W].is_empty()),
    ("accepted", 3400, |trial| trial.answer[0] == 0),
    ("accepted, n = 1,000,000", 100, |trial| trial.answer[0] == 0 && trial.rounds() == MOST),
    ("refused at a place of the loop or behind", 1800, |trial| matches!(trial.answer, [32..=34, place, _] if place >= trial.first)),
    ("refused, 24", 120, |trial| trial.answer[0] == 24),
    ("refused, 31", 160, |trial| trial.answer[0] == 31),
    ("refused, 32", 270, |trial| trial.answer[0] == 32),
    ("refused, 33", 1000, |trial| trial.answer[0] == 33),
    ("refused, 34", 900, |trial| trial.answer[0] == 34),
    ("refused, 35", 270, |trial| trial.answer[0] == 35),
    ("exactly 64 places", 90, |trial| trial.cut.0[P].len() == ROOM[P]),
    ("more than 64 places, with a loop that is then too long", 50, |trial| !trial.fits() && outgrown(&trial.cut)[0] == 25),
    ("more than 64 places, with none", 50, |trial| !trial.fits() && outgrown(&trial.cut)[0] == 22),
];

impl Trial<'_> {
    fn new(case: &Case, answer: Answer, first: usize, m: usize) -> Trial<'_> {
        Trial { case, answer, first, m, cut: cut(case, first, m, Nothing) }
    }

    fn rounds(&self) -> usize {
        self.case.number(P, self.first, 5)
    }

    /// The places of the loop.
    fn whole(&self) -> &[Fields] {
        &self.case.0[P][self.first..self.first + self.case.number(P, self.first, 4)]
    }

    /// The place behind the loop.
    fn behind(&self) -> Option<&Fields> {
        self.case.0[P].get(self.first + self.whole().len())
    }

    /// Whether a move has a guard.
    fn guarded(&self, number: Option<i64>) -> bool {
        number.is_some_and(|number| self.case.0[T][number as usize][7].is_some())
    }

    /// Whether there is room for the places of the cut.
    fn fits(&self) -> bool {
        self.cut.0[P].len() <= ROOM[P]
    }

    /// Whether the endless loop has closed, so that something is said of the records of the cut.
    fn closed(&self) -> bool {
        self.case.endless().is_some_and(|(first, length)| first + length <= self.case.0[P].len())
    }

    /// Whether the cut may get this answer: accepted exactly where the case is, with all records taken; too many places are refused.
    fn allows(&self, answer: Answer) -> bool {
        match answer[0] {
            result if !self.closed() => result != 0,
            _ if !self.fits() => answer == outgrown(&self.cut),
            result => !untaken(result) && (result == 0) == (self.answer[0] == 0),
        }
    }

    /// Whether a planted mistake shows: all records are taken, but the case is accepted and this cut isn't, or the other way round.
    fn shows(&self, miscut: Miscut) -> bool {
        let result = library::result(&writer::case(&cut(self.case, self.first, self.m, miscut)));
        self.closed() && self.fits() && !untaken(result) && (result == 0) != (self.answer[0] == 0)
    }
}

/// Whether a result is that of a record that is refused.
fn untaken(result: usize) -> bool {
    (11..=26).contains(&result) && result != 24
}

/// The answer for too many places: the first loop that ends behind place 63 is refused as too long, and else place 64.
fn outgrown(case: &Case) -> Answer {
    let record = |place: usize| case.0[..P].iter().map(Vec::len).sum::<usize>() + place;
    let too_long = |&first: &usize| first < ROOM[P] && first + case.number(P, first, 4) > ROOM[P];
    starts(case).into_iter().find(too_long).map_or([22, record(ROOM[P]), 0], |first| [25, record(first), 4])
}

/// What cutting loops has shown.
pub struct Cuttings {
    r: Random,
    cases: usize,
    /// Loops of these that were cut.
    pub cuts: usize,
    /// Halves that were cut again.
    again: usize,
    /// Cuts whose run was unrolled.
    unrolled: usize,
    sorts: [usize; SORTS.len()],
    /// By how many cuts each mistake is found, up to `FOUND`; and how many cases there were when the last was.
    found: [usize; MISCUTS.len()],
    found_after: usize,
}

impl Cuttings {
    pub fn new(seed: u64) -> Cuttings {
        let (sorts, found) = ([0; SORTS.len()], [0; MISCUTS.len()]);
        Cuttings { r: Random(seed), cases: 0, cuts: 0, again: 0, unrolled: 0, sorts, found, found_after: 0 }
    }

    /// One more case, with so many steps of unrolling for each judgement. Whether it and its cuts are answered rightly.
    pub fn add(&mut self, case: &Case, steps: u64) -> bool {
        let file = writer::case(case);
        let answer = library::answer(&file);
        let mut firsts = loops_to_cut(case);
        while firsts.len() > LOOPS {
            firsts.swap_remove(self.r.below(firsts.len()));
        }
        self.cases += 1;
        let right = check(&file, Mistake::Nothing, steps).map_or(true, |(told, _)| told == answer);
        let wrong = firsts.into_iter().find(|&first| !self.cut_rightly(case, answer, first, steps));
        if !right || wrong.is_some() {
            let text = String::from_utf8_lossy(&file);
            println!("unroll: the library answers {answer:?}; that is wrong, or what it answers with the loop of place {wrong:?} cut, of\n{text}");
        }
        right && wrong.is_none()
    }

    /// The plans by hand, with the least and the greatest rounds and those beside them.
    pub fn by_hand(&mut self) -> bool {
        by_hand().into_iter().all(|(_, bytes, k, [least, greatest])| {
            let case = read(&bytes, Mistake::Nothing).case;
            let several = [least - 1, least, greatest, greatest + 1].into_iter().filter(|rounds| (2..=MOST).contains(rounds));
            several.into_iter().all(|rounds| self.add(&with_rounds(&case, starts(&case)[k], rounds), LONG_STEPS))
        })
    }

    /// Rounds for the first half of so many.
    fn some_of(&mut self, rounds: usize) -> usize {
        let any = 1 + self.r.below(rounds - 1);
        self.r.pick(&[1, rounds - 1, rounds / 2, any, any])
    }

    /// Cuts a loop, and mostly one of the halves again, where it has the rounds; whether both are answered rightly.
    fn cut_rightly(&mut self, case: &Case, answer: Answer, first: usize, steps: u64) -> bool {
        let trial = Trial::new(case, answer, first, self.some_of(case.number(P, first, 5)));
        self.cuts += 1;
        self.sorts.iter_mut().zip(SORTS).for_each(|(times, (.., is))| *times += is(&trial) as usize);
        self.find_mistakes(&trial);
        if !self.right(&trial, steps) {
            return false;
        }
        let half = self.r.pick(&[first, first + trial.whole().len()]);
        let rounds = trial.cut.number(P, half, 5);
        if rounds < 2 || !trial.fits() || self.r.chance(20) {
            return true;
        }
        self.again += 1;
        let twice = Trial::new(&trial.cut, answer, half, self.some_of(rounds));
        self.right(&twice, steps)
    }

    /// Whether the library gives the cut an answer that it may get, and unrolling gives the same where it is short.
    fn right(&mut self, trial: &Trial, steps: u64) -> bool {
        let file = writer::case(&trial.cut);
        let answer = library::answer(&file);
        let told = check(&file, Mistake::Nothing, steps);
        self.unrolled += matches!(told, Ok(([0 | 33..=35, ..], _))) as usize;
        trial.allows(answer) && told.map_or(true, |(told, _)| told == answer)
    }

    /// Counts which planted mistakes show in a cut.
    fn find_mistakes(&mut self, trial: &Trial) {
        for (times, (miscut, _)) in self.found.iter_mut().zip(MISCUTS) {
            if *times < FOUND && trial.shows(miscut) {
                *times += 1;
                self.found_after = self.cases;
            }
        }
    }

    /// How many cuts are of each sort.
    fn sorts(&self) -> Vec<(&str, usize)> {
        SORTS.iter().map(|(words, ..)| *words).zip(self.sorts).collect()
    }

    /// The planted mistakes that too few cuts find.
    fn unfound(&self) -> Vec<&str> {
        MISCUTS.iter().zip(self.found).filter(|(_, times)| *times < FOUND).map(|((_, words), _)| *words).collect()
    }

    /// Says what the cuts were, and what they find.
    pub fn show(&self) {
        let Cuttings { cases, cuts, again, unrolled, found_after, .. } = self;
        let (planted, unfound) = (MISCUTS.len(), self.unfound().len());
        println!("unroll: loops cut, and how many are such: {:?}", self.sorts());
        println!(
            "unroll: cuts: {} passed, 0 failed; {cuts} in {cases} cases, and {again} of halves; the run unrolled of {unrolled}; {found_after} cases \
             find {} of {planted} planted mistakes, each in {FOUND} cuts",
            cuts + again,
            planted - unfound
        );
    }

    /// Says what is missing for the cuts to be a test; whether nothing is.
    pub fn enough(&self) -> bool {
        let seldom = |times: usize, least: usize| times * 10_000 < least * self.cuts;
        let few: Vec<_> = self.sorts().into_iter().zip(SORTS).filter(|(sort, (_, least, _))| seldom(sort.1, *least)).map(|(sort, _)| sort).collect();
        let unfound = self.unfound();
        let lacks = [
            (!few.is_empty(), format!("cuts seen too seldom, and how many: {few:?}")),
            (seldom(self.again, 2000), format!("only {} halves cut again", self.again)),
            (seldom(self.unrolled, 7000), format!("the run unrolled of {} cuts only", self.unrolled)),
            (!unfound.is_empty(), format!("planted mistakes in cutting found by fewer than {FOUND} cuts: {unfound:?}")),
        ];
        lacks.iter().filter(|(lacks, _)| *lacks).for_each(|(_, words)| println!("unroll: {words}"));
        lacks.iter().all(|(lacks, _)| !lacks)
    }
}
