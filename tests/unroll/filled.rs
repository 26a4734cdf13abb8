//! Filling in the marks: what the library puts out beside the separate filler, and beside all marks where there are few; and mistakes planted in
//! the filler.
use crate::checker::{judge, TooLong};
use crate::filler::{fill, output, reached};
use crate::library::{self, Answer, Output, Word, SHOWN};
use crate::mistakes::{Lapse, Mistake, LAPSES};
use crate::reader::{read, Case, Held, F, LENGTH, P, ROOM};
use crate::writer;
use std::collections::BTreeMap;

/// Each planted mistake must be found by so many files.
const FOUND: usize = 3;
/// Where there are so many marks at most, sentence by place, all are tried; those of more than a few in one case of so many only.
const MARKS: usize = 12;
const FEW_MARKS: usize = 8;
const MORE_EACH: usize = 60;
/// Steps of unrolling allowed with a planted mistake, and where all marks are tried.
const STEPS: u64 = 100_000;
/// Of so many files, one is also put into a buffer that is too short.
const SHORT_EACH: usize = 4;

/// A file that was taken whole or not, with the answer and the case that filling gives.
struct Trial<'a> {
    held: &'a Held,
    answer: Answer,
    filled: Case,
}

type Sort = (&'static str, usize, fn(&Trial) -> bool);
/// The words for a sort of file, how many of a thousand files must be of it at least, and whether one is.
const SORTS: [Sort; 14] = [
    ("filled, marks right before", 30, |trial| trial.answer[0] == 0 && trial.same_marks()),
    ("filled, marks wrong before", 300, |trial| trial.answer[0] == 0 && !trial.same_marks()),
    ("filled, the root false at the start", 5, |trial| trial.answer[0] == 0 && !trial.filled.marked(0, trial.root())),
    ("filled, a sentence that the root doesn't reach", 200, |trial| trial.answer[0] == 0 && reached(&trial.filled).contains(&false)),
    ("filled, a mark that isn't the same at all places", 300, |trial| trial.answer[0] == 0 && trial.uneven()),
    ("filled, next at the end of a counted loop", 60, |trial| trial.answer[0] == 0 && trial.next_at_end()),
    ("37 by a guard in a counted loop", 10, |trial| trial.changes(2, false)),
    ("37 by a guard in the endless loop", 10, |trial| trial.changes(2, true)),
    ("37 by next at the end of a counted loop", 10, |trial| trial.changes(5, false)),
    ("37 by an until", 5, |trial| trial.changes(6, false)),
    ("37 at a place after the first", 20, |trial| trial.answer[0] == 37 && trial.answer[1] > 0),
    ("37 of a sentence after the first", 50, |trial| trial.answer[0] == 37 && trial.answer[2] > 0),
    ("37 of a sentence that the root doesn't reach", 10, |trial| trial.answer[0] == 37 && !reached(&trial.filled)[trial.answer[2]]),
    ("a record is refused", 40, |trial| trial.held.refused.is_some()),
];
/// The results that must be seen.
const RESULTS: [usize; 6] = [0, 24, 31, 32, 33, 37];

impl Trial<'_> {
    fn same_marks(&self) -> bool {
        let marks = |case: &Case| case.0[P].iter().map(|place| place[3]).collect::<Vec<_>>();
        marks(&self.held.case) == marks(&self.filled)
    }

    fn root(&self) -> usize {
        self.filled.0[F].len() - 1
    }

    /// Whether places differ in their marks.
    fn uneven(&self) -> bool {
        self.filled.0[P].windows(2).any(|pair| pair[0][3] != pair[1][3])
    }

    /// Whether there is a next, and a counted loop that goes back.
    fn next_at_end(&self) -> bool {
        self.filled.0[F].iter().any(|sentence| sentence[1] == Some(5)) && self.filled.0[P].iter().any(|place| place[5] >= Some(2))
    }

    /// Whether 37 tells a sentence of this form, at a place of the endless loop or before it.
    fn changes(&self, form: i64, in_endless: bool) -> bool {
        let [result, place, sentence] = self.answer;
        let there = || self.filled.endless().is_some_and(|(first, _)| first <= place);
        result == 37 && self.filled.0[F][sentence][1] == Some(form) && there() == in_endless
    }
}

/// The marks of a case in one number, place by place.
fn with_marks(case: &Case, all: usize) -> Case {
    let (mut marked, sentences) = (case.clone(), case.0[F].len());
    for (place, fields) in marked.0[P].iter_mut().enumerate() {
        fields[3] = Some((all >> (place * sentences) & ((1 << sentences) - 1)) as i64);
    }
    marked
}

/// What filling files has shown.
#[derive(Default)]
pub struct Fillings {
    files: usize,
    failed: usize,
    buffers: usize,
    too_long: usize,
    results: BTreeMap<usize, usize>,
    sorts: [usize; SORTS.len()],
    /// For how many cases all marks were tried, of those that are filled and of those that can't be; and how many marks in all.
    all_tried: [usize; 2],
    markings: usize,
    /// By how many files each mistake is found, up to `FOUND`; and how many files there were when the last was.
    found: [usize; LAPSES.len()],
    found_after: usize,
}

impl Fillings {
    /// One more file, with so many steps of unrolling. Whether all that the library puts out for it is right.
    pub fn add(&mut self, bytes: &[u8], steps: u64) -> bool {
        let held = read(bytes, Mistake::Nothing);
        let Ok((answer, filled)) = fill(&held, Lapse::Nothing, steps) else {
            self.too_long += 1;
            return true;
        };
        let trial = Trial { held: &held, answer, filled };
        let right = self.right(bytes, &trial, steps);
        self.files += 1;
        self.failed += !right as usize;
        *self.results.entry(answer[0]).or_default() += 1;
        self.sorts.iter_mut().zip(SORTS).for_each(|(times, (.., is))| *times += is(&trial) as usize);
        if !right && self.failed <= SHOWN {
            println!("unroll: marks are filled in wrongly, where the filler tells {answer:?}, of\n{}", String::from_utf8_lossy(bytes));
        }
        right
    }

    /// Whether the library and the filler put out the same, and what is filled is as it must be; and which planted mistakes that finds.
    fn right(&mut self, bytes: &[u8], trial: &Trial, steps: u64) -> bool {
        let whole = output(&(trial.answer, trial.filled.clone()), Lapse::Nothing);
        let library = Output::of(Word::Fill, bytes, whole.len() + self.files % (2 * LENGTH), self.files);
        let short = self.files % SHORT_EACH > 0 || Output::of(Word::Fill, bytes, self.files % whole.len(), self.files).agrees(&whole);
        self.buffers += 1 + (self.files % SHORT_EACH == 0) as usize;
        let kept = Word::Fill.kept(bytes, ROOM.iter().sum::<usize>() * LENGTH);
        self.find_mistakes(trial.held, &library, &kept);
        let stays = trial.answer[0] != 0 || filled_stays(&trial.filled, steps).unwrap_or(false);
        library.agrees(&whole) && short && keeps(trial.held, &trial.filled, &kept) && stays && self.only_marks(trial, steps).unwrap_or(false)
    }

    /// Where there are few marks and the run is short, tries all of them: those that are given, and no others, may not be called wrong by judging.
    /// Where filling is refused before 37, no marks are tried.
    fn only_marks(&mut self, trial: &Trial, steps: u64) -> Result<bool, TooLong> {
        let count = trial.filled.0[F].len() * trial.filled.0[P].len();
        let tried = count <= FEW_MARKS || count <= MARKS && self.files % MORE_EACH == 0;
        if !matches!(trial.answer[0], 0 | 37) || !tried || judge(&trial.filled, Mistake::Nothing, STEPS).is_err() {
            return Ok(true);
        }
        let filled = trial.answer[0] == 0;
        self.all_tried[!filled as usize] += 1;
        self.markings += 1 << count;
        for all in 0..1 << count {
            let marked = with_marks(&trial.filled, all);
            let passes = matches!(judge(&marked, Mistake::Nothing, steps)?, [0 | 35, ..]);
            if passes != (filled && marked.0[P] == trial.filled.0[P]) {
                return Ok(false);
            }
        }
        Ok(true)
    }

    /// Counts which planted mistakes make the filler put out something else than the library.
    fn find_mistakes(&mut self, held: &Held, library: &Output, kept: &[u8]) {
        for (times, (lapse, _)) in self.found.iter_mut().zip(LAPSES) {
            let found = |wrong: &(Answer, Case)| !library.agrees(&output(wrong, lapse)) || !keeps(held, &wrong.1, kept);
            if *times < FOUND && fill(held, lapse, STEPS).is_ok_and(|wrong| found(&wrong)) {
                *times += 1;
                self.found_after = self.files + 1;
            }
        }
    }

    /// How many files were filled, with these words for them.
    pub fn passed(&self, words: &str) -> String {
        let Fillings { files, failed, buffers, all_tried: [filled, changing], markings, too_long, .. } = self;
        let passed = files - failed;
        format!(
            "unroll: {words} filled: {passed} passed, {failed} failed; into {buffers} buffers; all marks tried of {filled} cases that are filled and \
             {changing} with a truth that changes, {markings} in all; {too_long} were too long"
        )
    }

    /// Whether none failed, and few were too long.
    pub fn all_passed(&self) -> bool {
        self.failed == 0 && self.too_long * 30 < self.files
    }

    /// How many files are of each sort.
    fn sorts(&self) -> Vec<(&str, usize)> {
        SORTS.iter().map(|(words, ..)| *words).zip(self.sorts).collect()
    }

    /// The planted mistakes that too few files find.
    fn unfound(&self) -> Vec<&str> {
        LAPSES.iter().zip(self.found).filter(|(_, times)| *times < FOUND).map(|((_, words), _)| *words).collect()
    }

    /// Says what the files were, and what they find.
    pub fn show(&self) {
        let (planted, unfound) = (LAPSES.len(), self.unfound().len());
        println!("unroll: files filled, and how often each result: {:?}", self.results);
        println!("unroll: files filled, and how many are such: {:?}", self.sorts());
        print!("{}", self.passed("cases"));
        println!("; {} of them find {} of {planted} planted mistakes, each by {FOUND} files", self.found_after, planted - unfound);
    }

    /// Says what is missing for the files to be a test; whether nothing is.
    pub fn enough(&self) -> bool {
        let seldom = |times: usize, least: usize| times * 1000 < least * self.files;
        let few: Vec<_> = self.sorts().into_iter().zip(SORTS).filter(|(sort, (_, least, _))| seldom(sort.1, *least)).map(|(sort, _)| sort).collect();
        let times = |result: usize| self.results.get(&result).copied().unwrap_or(0);
        let results: Vec<_> = RESULTS.iter().filter(|&&result| times(result) * 2000 < self.files).collect();
        let unfound = self.unfound();
        let lacks = [
            (!few.is_empty(), format!("files filled too seldom, and how many: {few:?}")),
            (!results.is_empty(), format!("results of filling seen too seldom: {results:?}")),
            (self.all_tried.iter().any(|&tried| tried * 200 < self.files), format!("all marks tried of too few cases: {:?}", self.all_tried)),
            (self.too_long * 100 > self.files, format!("{} cases to fill are too long", self.too_long)),
            (!unfound.is_empty(), format!("planted mistakes in filling found by fewer than {FOUND} files: {unfound:?}")),
        ];
        lacks.iter().filter(|(lacks, _)| *lacks).for_each(|(_, words)| println!("unroll: {words}"));
        lacks.iter().all(|(lacks, _)| !lacks)
    }
}

/// Whether the library hands back this case, with its marks or as it was. (Where a record is refused nothing is filled.)
fn keeps(held: &Held, case: &Case, kept: &[u8]) -> bool {
    held.refused.is_some() || kept == writer::case(case)
}

/// Whether the library and the checker judge a filled case alike, by 0 or 35, and the library fills it as it is.
fn filled_stays(filled: &Case, steps: u64) -> Result<bool, TooLong> {
    let file = writer::case(filled);
    let answer = judge(filled, Mistake::Nothing, steps)?;
    let line = format!("0 {} 0\n", file.len()).into_bytes();
    let again = Output::of(Word::Fill, &file, line.len() + file.len(), answer[0]).agrees(&[line, file.clone()].concat());
    Ok(matches!(answer[0], 0 | 35) && library::answer(&file) == answer && again)
}
