//! Writing back: what the library writes of a file beside the file itself and the separate speller; and mistakes planted in that.
use crate::library::{self, Answer, Buffer, Written, SHOWN};
use crate::mistakes::{Slip, SLIPS};
use crate::random::{HIGHEST, LOWEST};
use crate::reader::{Case, Fields, Held, LENGTH, ROOM, W};
use crate::writer;
use std::collections::BTreeSet;
use std::ops::Range;

/// The planted mistakes are tried on one file of so many, and each must be found by so many files.
const SLIPS_EACH: usize = 200;
const FOUND: usize = 3;
/// Cases of so many sizes must be written into buffers of every length.
const SIZES: usize = 50;

type Sort = (&'static str, usize, fn(&Held) -> bool);
/// The words for a sort of file, how many of a thousand files must be of it at least, and whether one is by what is held of it.
const SORTS: [Sort; 10] = [
    ("finished", 400, |held| held.refused.is_none() && held.case.finished()),
    ("taken whole and not finished", 50, |held| held.refused.is_none() && !held.case.finished()),
    ("refused after some records", 200, |held| held.refused.is_some() && held.case.records() > 0),
    ("refused at once", 10, |held| held.refused.is_some() && held.case.records() == 0),
    ("of 213 records", 1, |held| held.case.records() == ROOM.iter().sum()),
    ("with a number below 0", 700, |held| held.case.numbers().any(|number| number < 0)),
    ("with a blank field before a filled one", 500, |held| held.case.0.iter().flatten().any(blank_inside)),
    ("with weights", 400, |held| !held.case.0[W].is_empty()),
    ("with a lowest number", 300, |held| held.case.numbers().any(|number| number == LOWEST)),
    ("with a highest number", 200, |held| held.case.numbers().any(|number| number == HIGHEST)),
];

fn blank_inside(fields: &Fields) -> bool {
    let filled = |field: &Option<i64>| field.is_some();
    fields[1..].iter().skip_while(|field| filled(field)).any(filled)
}

impl Case {
    fn records(&self) -> usize {
        self.0.iter().map(Vec::len).sum()
    }

    /// What the filled fields hold.
    fn numbers(&self) -> impl Iterator<Item = i64> + '_ {
        self.0.iter().flatten().flatten().copied().flatten()
    }
}

/// A buffer of some length before the writing; what the library told, and what its two functions left.
struct Trial {
    length: usize,
    before: Buffer,
    told: Written,
    left: [Buffer; 2],
}

impl Trial {
    fn new(bytes: &[u8], length: usize, seed: usize) -> Trial {
        let before = Buffer::new(length, seed);
        let (told, left) = library::write(bytes, &before);
        Trial { length, before, told, left }
    }

    /// Whether the separate speller tells the same of its bytes, and leaves the same.
    fn agrees(&self, file: &[u8], slip: Slip) -> bool {
        let mut after = self.before.clone();
        let told = writer::write(file, after.lent(), slip);
        self.told == told && self.left.iter().all(|left| *left == after)
    }
}

/// Whether an answer is one to a file of which these records, and all, were taken.
fn of_all(answer: Answer, records: usize) -> bool {
    matches!(answer, [0 | 31..=35, ..]) || answer == [24, records, 0]
}

/// Whether bytes that were written are taken whole, get the answer of the file that they were written from, and are written as they are.
fn taken_again(written: &[u8], held: &Held, answer: Answer) -> bool {
    let again = library::answer(written);
    let same = of_all(again, held.case.records()) && (held.refused.is_some() || again == answer);
    same && Trial::new(written, written.len(), again[0]).agrees(written, Slip::Nothing)
}

/// What writing files back has shown.
#[derive(Default)]
pub struct Writings {
    /// A case of fewer records is written into buffers of every length, and of the others the first of its size.
    few: usize,
    sizes: BTreeSet<usize>,
    thorough: usize,
    files: usize,
    buffers: usize,
    failed: usize,
    sorts: [usize; SORTS.len()],
    /// On how many files the planted mistakes were tried, and by how many each was found.
    tried: usize,
    found: [usize; SLIPS.len()],
}

impl Writings {
    pub fn new(few: usize) -> Writings {
        Writings { few, ..Writings::default() }
    }

    /// The lengths of the three buffers for every case: one that is longer, one as long, and one that is too short.
    fn lengths(&self, count: usize) -> impl Iterator<Item = usize> {
        let varying = 31 * self.files;
        [count + 1 + varying % 130, count].into_iter().chain(varying.checked_rem(count))
    }

    /// Every length up to one more than is needed, where the case is to be tried with them. Of the large ones only some are, for it takes long.
    fn every_length(&mut self, count: usize) -> Range<usize> {
        let records = count / LENGTH;
        let short = records <= 64 || records % 50 == 0 || records == ROOM.iter().sum();
        let first = short && self.sizes.insert(records);
        let tried = first || records < self.few;
        self.thorough += tried as usize;
        0..if tried { count + 2 } else { 0 }
    }

    /// One more file, what the separate reader holds of it, and its answer. Whether all that is written of it is right.
    pub fn add(&mut self, bytes: &[u8], held: &Held, answer: Answer) -> bool {
        let file = writer::file(held, Slip::Nothing);
        let trial = |length: usize| Trial::new(bytes, length, self.files + length);
        let trials: Vec<Trial> = self.lengths(file.len()).map(trial).collect();
        let mut every = self.every_length(file.len());
        self.buffers += trials.len() + every.len();
        let otherwise = |trial: &Trial| (!trial.agrees(&file, Slip::Nothing)).then_some((trial.length, trial.told));
        let wrong = trials.iter().find_map(otherwise).or_else(|| every.find_map(|length| otherwise(&Trial::new(bytes, length, length))));
        let itself = bytes.starts_with(&file) && (held.refused.is_some() || bytes.len() == file.len());
        let again = taken_again(trials[1].left[1].clone().lent(), held, answer);
        self.count(held, &trials);
        let right = itself && again && wrong.is_none();
        self.failed += !right as usize;
        if !right && self.failed <= SHOWN {
            println!("unroll: {} bytes are to be written back of\n{}", file.len(), String::from_utf8_lossy(bytes));
            println!("unroll: the speller's bytes are the file's: {itself}; the library's, taken again, are the same: {again}");
            println!("unroll: a buffer that the library leaves otherwise than the speller, its length and what is told: {wrong:?}");
        }
        right
    }

    /// Counts what the file is, and which planted mistakes are found by it.
    fn count(&mut self, held: &Held, trials: &[Trial]) {
        self.files += 1;
        self.sorts.iter_mut().zip(SORTS).for_each(|(times, (.., is))| *times += is(held) as usize);
        if self.files % SLIPS_EACH != 0 {
            return;
        }
        self.tried += 1;
        for (times, (slip, _)) in self.found.iter_mut().zip(SLIPS) {
            let file = writer::file(held, slip);
            *times += trials.iter().any(|trial| !trial.agrees(&file, slip)) as usize;
        }
    }

    /// How many files were written back, with these words for them.
    pub fn passed(&self, words: &str) -> String {
        let Writings { files, failed, buffers, thorough, .. } = self;
        let passed = files - failed;
        format!(
            "unroll: {words} written back: {passed} passed, {failed} failed; into {buffers} buffers, {thorough} of them into those of every length"
        )
    }

    pub fn all_passed(&self) -> bool {
        self.failed == 0
    }

    /// How many files are of each sort.
    fn sorts(&self) -> Vec<(&str, usize)> {
        SORTS.iter().map(|(words, ..)| *words).zip(self.sorts).collect()
    }

    /// Those of which there are too few.
    fn seldom(&self) -> Vec<(&str, usize)> {
        let few = SORTS.map(|(_, least, _)| least * self.files);
        self.sorts().into_iter().zip(few).filter(|((_, times), few)| times * 1000 < *few).map(|(sort, _)| sort).collect()
    }

    /// The planted mistakes that too few files find.
    fn unfound(&self) -> Vec<&str> {
        SLIPS.iter().zip(self.found).filter(|(_, times)| *times < FOUND).map(|((_, words), _)| *words).collect()
    }

    /// Says what the files were, and what they find.
    pub fn show(&self) {
        let (tried, planted, unfound) = (self.tried, SLIPS.len(), self.unfound().len());
        let least = self.found.iter().min().unwrap_or(&0);
        println!("unroll: files written back, and how many are such: {:?}", self.sorts());
        print!("{}", self.passed("cases"));
        println!("; {tried} of them find {} of {planted} planted mistakes, each mistake found by {least} or more", planted - unfound);
    }

    /// Says what is missing for the files to be a test; whether nothing is.
    pub fn enough(&self) -> bool {
        let (seldom, unfound, sizes) = (self.seldom(), self.unfound(), self.sizes.len());
        let ends = [0, ROOM.iter().sum()].iter().all(|size| self.sizes.contains(size));
        let lacks = [
            (!seldom.is_empty(), format!("files written back too seldom, and how many: {seldom:?}")),
            (!unfound.is_empty(), format!("planted mistakes in writing found by fewer than {FOUND} files: {unfound:?}")),
            (sizes < SIZES || !ends, format!("only {sizes} sizes were written into buffers of every length, or not the empty case or the full one")),
        ];
        lacks.iter().filter(|(lacks, _)| *lacks).for_each(|(_, words)| println!("unroll: {words}"));
        lacks.iter().all(|(lacks, _)| !lacks)
    }
}
