//! The proved library, called through its C functions; buffers to write into, and what the words of the tool leave in them; and the stored cases,
//! answered by the library and by another checker.
use std::collections::BTreeSet;

/// The three numbers of the line.
pub type Answer = [usize; 3];
/// What writing a case back tells: 0 and how many bytes, or 41 and 0.
pub type Written = [usize; 2];

/// So many failures are shown.
pub const SHOWN: usize = 20;
/// Every result that a line can have.
pub const RESULTS: [usize; 18] = [0, 11, 12, 13, 14, 15, 16, 21, 22, 23, 24, 25, 26, 31, 32, 33, 34, 35];

#[link(name = "testing", kind = "static")]
extern "C" {
    fn case_result(bytes: *const u8, count: usize) -> usize;
    fn case_second(bytes: *const u8, count: usize) -> usize;
    fn case_third(bytes: *const u8, count: usize) -> usize;
    fn write_result(bytes: *const u8, count: usize, buffer: *mut u8, room: usize) -> usize;
    fn write_count(bytes: *const u8, count: usize, buffer: *mut u8, room: usize) -> usize;
}

#[link(name = "testing_fill", kind = "static")]
extern "C" {
    fn fill_bytes(bytes: *const u8, count: usize, buffer: *mut u8, room: usize) -> usize;
    fn fill_kept(bytes: *const u8, count: usize, buffer: *mut u8, room: usize) -> usize;
}

#[link(name = "testing_rounds", kind = "static")]
extern "C" {
    fn rounds_bytes(bytes: *const u8, count: usize, k: usize, buffer: *mut u8, room: usize) -> usize;
    fn set_bytes(bytes: *const u8, count: usize, k: usize, n: usize, buffer: *mut u8, room: usize) -> usize;
    fn set_kept(bytes: *const u8, count: usize, k: usize, n: usize, buffer: *mut u8, room: usize) -> usize;
}

/// The first number of the library's answer.
pub fn result(bytes: &[u8]) -> usize {
    // SAFETY: the function reads these bytes and keeps nothing; so do the other two.
    unsafe { case_result(bytes.as_ptr(), bytes.len()) }
}

/// The library's answer.
pub fn answer(bytes: &[u8]) -> Answer {
    let (from, count) = (bytes.as_ptr(), bytes.len());
    unsafe { [result(bytes), case_second(from, count), case_third(from, count)] }
}

/// The bytes on each side of a buffer.
const MARGIN: usize = 64;

/// A buffer to be lent, with more bytes on each side. All are bytes that no record has, and others for another seed, so that each one written
/// shows.
#[derive(Clone, PartialEq)]
pub struct Buffer(Vec<u8>);

impl Buffer {
    pub fn new(length: usize, seed: usize) -> Buffer {
        Buffer((0..MARGIN + length + MARGIN).map(|at| 128 | (37 * at + seed) as u8).collect())
    }

    /// What is lent of it.
    pub fn lent(&mut self) -> &mut [u8] {
        let end = self.0.len() - MARGIN;
        &mut self.0[MARGIN..end]
    }
}

/// The count of the library's writing: of the case that is held after a file is taken, into a buffer.
pub fn count_written(bytes: &[u8], lent: &mut [u8]) -> usize {
    // SAFETY: the function reads the bytes, writes into what is lent and keeps nothing; so does the other one.
    unsafe { write_count(bytes.as_ptr(), bytes.len(), lent.as_mut_ptr(), lent.len()) }
}

/// What the library's writing tells, and the buffer after it; twice, for each of the two functions writes.
pub fn write(bytes: &[u8], buffer: &Buffer) -> (Written, [Buffer; 2]) {
    let [mut one, mut other] = [buffer.clone(), buffer.clone()];
    let lent = one.lent();
    let result = unsafe { write_result(bytes.as_ptr(), bytes.len(), lent.as_mut_ptr(), lent.len()) };
    ([result, count_written(bytes, other.lent())], [one, other])
}

/// A word of the tool, with its numbers: the marks filled in, the rounds of a loop found, and set.
#[derive(Clone, Copy, Debug)]
pub enum Word {
    Fill,
    Rounds(usize),
    Set(usize, usize),
}

impl Word {
    /// Puts out what the word prints for a file, into what is lent: how many bytes are told.
    pub fn put(self, bytes: &[u8], lent: &mut [u8]) -> usize {
        let (from, count, to, room) = (bytes.as_ptr(), bytes.len(), lent.as_mut_ptr(), lent.len());
        // SAFETY: the functions read the bytes, write into what is lent and keep nothing.
        unsafe {
            match self {
                Word::Fill => fill_bytes(from, count, to, room),
                Word::Rounds(k) => rounds_bytes(from, count, k, to, room),
                Word::Set(k, n) => set_bytes(from, count, k, n, to, room),
            }
        }
    }

    /// The file of the case that the library hands back, altered or not, where no case has more bytes than this. Finding rounds hands none back.
    #[allow(dead_code)] // the benchmark doesn't ask for it
    pub fn kept(self, bytes: &[u8], most: usize) -> Vec<u8> {
        let mut file = vec![0; most];
        let (from, count, to) = (bytes.as_ptr(), bytes.len(), file.as_mut_ptr());
        // SAFETY: the functions read the bytes, write into what is lent and keep nothing.
        let count = unsafe {
            match self {
                Word::Fill => fill_kept(from, count, to, most),
                Word::Rounds(_) => 0,
                Word::Set(k, n) => set_kept(from, count, k, n, to, most),
            }
        };
        file.truncate(count);
        file
    }
}

/// What a word puts into a buffer: how many bytes are told, and the buffer before and after.
pub struct Output {
    before: Buffer,
    count: usize,
    after: Buffer,
}

impl Output {
    /// The library's, for a file, into a buffer of this length.
    pub fn of(word: Word, bytes: &[u8], length: usize, seed: usize) -> Output {
        let before = Buffer::new(length, seed);
        let mut after = before.clone();
        let count = word.put(bytes, after.lent());
        Output { before, count, after }
    }

    /// Whether this output stands at the front of the buffer, all else in it being as it was, and its length is told. In a buffer that is too
    /// short for it there is nothing of it.
    pub fn agrees(&self, output: &[u8]) -> bool {
        let mut after = self.before.clone();
        let room = after.lent().get_mut(..output.len());
        let fits = room.is_some();
        if let Some(front) = room {
            front.copy_from_slice(output);
        }
        self.count == if fits { output.len() } else { 0 } && self.after == after
    }
}

/// A stored case: its name, the numbers of its line and its bytes.
pub struct Stored {
    pub name: String,
    pub expected: Answer,
    pub bytes: Vec<u8>,
}

/// A stored case as tests/cases.py prints it.
fn parsed(line: &str) -> Stored {
    let columns: Vec<&str> = line.split('\t').collect();
    let [name, numbers, hex] = columns[..] else { panic!("not a stored case: {line}") };
    let numbers: Vec<usize> = numbers.split(' ').map(|number| number.parse().expect("a number")).collect();
    let bytes = (0..hex.len()).step_by(2).map(|at| u8::from_str_radix(&hex[at..at + 2], 16).expect("a byte in hex"));
    Stored { name: name.to_string(), expected: numbers.try_into().expect("three numbers"), bytes: bytes.collect() }
}

/// The stored cases of standard input.
pub fn stored() -> Vec<Stored> {
    std::io::stdin().lines().map(|line| parsed(&line.expect("a line"))).collect()
}

/// Compares stored cases with the library and with the other checker, which may give up on a few (none).
/// Whether all are alike, and every result is among them.
pub fn compared(program: &str, cases: &[Stored], other: impl Fn(&[u8]) -> Option<Answer>) -> bool {
    let (mut passed, mut failed, mut given_up) = (0, 0, 0);
    let mut missing = BTreeSet::from(RESULTS);
    for Stored { name, expected, bytes } in cases {
        let (expected, library, other) = (*expected, answer(bytes), other(bytes));
        missing.remove(&expected[0]);
        given_up += other.is_none() as usize;
        if library == expected && other.unwrap_or(expected) == expected {
            passed += 1;
        } else {
            failed += 1;
            if failed <= SHOWN {
                println!("{program}: {name}: expected {expected:?}, the library answers {library:?}, the other checker {other:?}");
            }
        }
    }
    println!("{program}: stored cases: {passed} passed, {failed} failed; {given_up} were too long for the other checker");
    if !missing.is_empty() || given_up * 50 > passed {
        println!("{program}: no stored case has one of the results {missing:?}, or too many were too long");
        return false;
    }
    failed == 0
}
