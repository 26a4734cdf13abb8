//! The proved code against plain Rust that does the same computation: reading and taking a file of 213 records, writing it back, judging a case
//! file, from its bytes to its result, filling in the marks of a case, and finding the rounds that a loop may have. Prints the time of a call and the
//! ratio, measured by turns in one run; the full size with 1 round against 1,000,000; and filling and finding against judging. `check` only compares
//! the two, on these files and on the stored cases (standard input, as tests/cases.py prints them), and the bytes that they write; `proved NAME` or
//! `plain NAME` makes one call, for counting instructions.
mod cases;
#[path = "../tests/library.rs"]
mod library;
mod plain;
mod plain_fill;
mod plain_judge;
mod plain_span;
mod plain_write;

use library::{Buffer, Output, Stored, Word};
use plain::{Case, LENGTH};
use std::hint::black_box;
use std::process::exit;
use std::time::Instant;

extern "C" {
    fn marks_held(src: *const u8, count: usize, place: usize) -> u32;
    fn write_times(src: *const u8, count: usize, lent: *mut u8, room: usize, times: usize);
    fn fill_times(src: *const u8, count: usize, times: usize, place: usize) -> u32;
}

/// The place whose marks are read, so that the stores cannot be left out.
const LAST: usize = 63;

fn proved_marks_held(src: &[u8]) -> usize {
    // SAFETY: the function reads these bytes and keeps nothing.
    unsafe { marks_held(src.as_ptr(), src.len(), LAST) as usize }
}

#[no_mangle]
#[inline(never)]
pub fn plain_marks_held(src: &[u8]) -> usize {
    let mut case = Case::empty();
    case.take_all(src);
    black_box(&mut case);
    case.places[LAST].marks as usize
}

#[no_mangle]
#[inline(never)]
pub fn plain_case_result(src: &[u8]) -> usize {
    plain_judge::answer(src)[0]
}

/// So many times a file is written back or filled, besides once, to tell that from the taking.
const MORE: usize = 20;

fn proved_write_times(src: &[u8], lent: &mut [u8], times: usize) -> usize {
    // SAFETY: the function reads the bytes, writes into what is lent and keeps nothing.
    unsafe { write_times(src.as_ptr(), src.len(), lent.as_mut_ptr(), lent.len(), times) }
    times
}

#[no_mangle]
#[inline(never)]
pub fn plain_write_times(src: &[u8], lent: &mut [u8], times: usize) -> usize {
    let mut case = Case::empty();
    case.take_all(src);
    for _ in 0..times {
        black_box(&case).write(black_box(lent));
    }
    times
}

fn proved_fill_times(src: &[u8], times: usize) -> usize {
    // SAFETY: the function reads these bytes and keeps nothing.
    black_box(unsafe { fill_times(src.as_ptr(), src.len(), times, LAST) });
    times
}

#[no_mangle]
#[inline(never)]
pub fn plain_fill_times(src: &[u8], times: usize) -> usize {
    let mut case = Case::empty();
    case.take_all(src);
    for _ in 0..times {
        black_box(&mut case).fill();
    }
    times
}

#[no_mangle]
#[inline(never)]
pub fn plain_rounds_bytes(src: &[u8], lent: &mut [u8]) -> usize {
    let line = plain_span::rounds(src, 0);
    lent[..line.len()].copy_from_slice(&line);
    line.len()
}

/// What is called on a file, with a buffer to write into.
type Call = fn(&[u8], &mut [u8]) -> usize;

/// A file, what is called on it, what both answer, and how many calls make a turn.
struct Bench {
    name: &'static str,
    file: Vec<u8>,
    proved: Call,
    plain: Call,
    expected: usize,
    calls: usize,
}

/// The file that is taken; then those that are judged, all accepted. The two of the full size differ in the rounds of their twelve counted loops
/// only.
fn benches() -> [Bench; 5] {
    let judged = |name, file: Vec<u8>| {
        let calls = 60_000 / file.len();
        Bench { name, file, proved: |file, _| library::result(file), plain: |file, _| plain_case_result(file), expected: 0, calls }
    };
    let (file, expected) = (cases::all_rooms(), 1_048_575 - LAST);
    [
        Bench { name: "213 records", file, proved: |file, _| proved_marks_held(file), plain: |file, _| plain_marks_held(file), expected, calls: 20 },
        judged("twelve-rounds", cases::TWELVE_ROUNDS.to_vec()),
        judged("middle", cases::plan(8, None, 10, 16, 1000)),
        judged("full-1", cases::full(1)),
        judged("full-1000000", cases::full(1_000_000)),
    ]
}

/// The file that is taken, written back once, and so many times more.
fn writing() -> [Bench; 2] {
    let written = |name, proved, plain, expected| Bench { name, file: cases::all_rooms(), proved, plain, expected, calls: 5 };
    [
        written("written once", |file, lent| proved_write_times(file, lent, 1), |file, lent| plain_write_times(file, lent, 1), 1),
        written(
            "written more",
            |file, lent| proved_write_times(file, lent, 1 + MORE),
            |file, lent| plain_write_times(file, lent, 1 + MORE),
            1 + MORE,
        ),
    ]
}

/// The marks of the last place of a file; apart from what is measured, for the counting of instructions.
fn last_marks(file: &[u8]) -> usize {
    let mut case = Case::empty();
    case.take_all(file);
    case.places[LAST].marks as usize
}

/// The full size: taken, judged, filled once, and so many times more.
fn filling() -> [Bench; 4] {
    let (file, calls) = (cases::full(1_000_000), 5);
    let marks = last_marks(&file);
    let of_full = |name, proved, plain, expected| Bench { name, file: file.clone(), proved, plain, expected, calls };
    [
        of_full("full taken", |file, _| proved_marks_held(file), |file, _| plain_marks_held(file), marks),
        of_full("full judged", |file, _| library::result(file), |file, _| plain_case_result(file), 0),
        of_full("filled once", |file, _| proved_fill_times(file, 1), |file, _| plain_fill_times(file, 1), 1),
        of_full("filled more", |file, _| proved_fill_times(file, 1 + MORE), |file, _| plain_fill_times(file, 1 + MORE), 1 + MORE),
    ]
}

/// A file whose first loop may have the rounds of this line: taken, judged, and these rounds found; by these names.
fn finding_of([taken, judged, found]: [&'static str; 3], file: Vec<u8>, line: &str) -> [Bench; 3] {
    let of_file = |name, proved, plain, expected| Bench { name, file: file.clone(), proved, plain, expected, calls: 3 };
    [
        of_file(taken, |file, _| proved_marks_held(file), |file, _| plain_marks_held(file), last_marks(&file)),
        of_file(judged, |file, _| library::result(file), |file, _| plain_case_result(file), 0),
        of_file(found, |file, lent| Word::Rounds(0).put(file, lent), plain_rounds_bytes, line.len()),
    ]
}

/// The full size with all rounds accepted, and with ends between.
fn finding() -> [[Bench; 3]; 2] {
    [
        finding_of(["all taken", "all judged", "all found"], cases::full(1000), "0 1 1000000\n"),
        finding_of(["between taken", "between judged", "between found"], cases::full_between(), "0 2 999999\n"),
    ]
}

/// A buffer that is long enough for every file that is measured.
fn buffer() -> Vec<u8> {
    vec![0; 213 * LENGTH]
}

/// Both answer as they must.
fn assert_alike(benches: &[&Bench]) {
    for Bench { name, file, proved, plain, expected, .. } in benches {
        let buffer = &mut buffer();
        assert_eq!([proved(file, buffer), plain(file, buffer)], [*expected; 2], "proved and plain Rust, {name}");
    }
}

/// Whether the two write the same of a file, into a buffer of this length.
fn written_alike(file: &[u8], case: &Case, length: usize) -> bool {
    let before = Buffer::new(length, file.len());
    let mut after = before.clone();
    let told = case.write(after.lent()).map_or([41, 0], |count| [0, count]);
    library::write(file, &before) == (told, [after.clone(), after])
}

/// For buffers that are longer than what is held of a file, as long, and shorter: whether the two write the same.
fn each_written_alike(file: &[u8]) -> [bool; 4] {
    let mut case = Case::empty();
    case.take_all(file);
    let count = LENGTH * case.count.iter().sum::<usize>();
    [count + 2 * LENGTH, count, count.saturating_sub(1), count / 2].map(|length| written_alike(file, &case, length))
}

/// Compares what the two write of the files that are measured, and of the stored cases.
fn check_written(benches: &[Bench], stored: &[Stored]) -> bool {
    let files = benches.iter().map(|bench| &bench.file).chain(stored.iter().map(|case| &case.bytes));
    let alike: Vec<bool> = files.flat_map(|file| each_written_alike(file)).collect();
    let passed = alike.iter().filter(|&&alike| alike).count();
    println!("bench: buffers written into, four for each file: {passed} passed, {} failed", alike.len() - passed);
    passed == alike.len()
}

/// What plain Rust puts out for a word.
fn plain_output(word: Word, file: &[u8]) -> Vec<u8> {
    match word {
        Word::Fill => plain_fill::filled(file),
        Word::Rounds(k) => plain_span::rounds(file, k),
        Word::Set(k, n) => plain_span::set(file, k, n),
    }
}

/// Compares what the two put out for words, of the files that are measured and of the stored cases.
fn check_words(what: &str, words: &[Word], benches: &[Bench], stored: &[Stored]) -> bool {
    let alike = |file: &[u8]| {
        words.iter().all(|&word| {
            let output = plain_output(word, file);
            Output::of(word, file, output.len() + LENGTH, output.len()).agrees(&output)
        })
    };
    let files = || benches.iter().map(|bench| &bench.file).chain(stored.iter().map(|case| &case.bytes));
    let (passed, all) = (files().filter(|file| alike(file)).count(), files().count());
    println!("bench: files {what}: {passed} passed, {} failed", all - passed);
    passed == all
}

/// Of each file, the rounds of these loops are found, and these are set.
const ROUNDS: [Word; 8] = [
    Word::Rounds(0),
    Word::Rounds(1),
    Word::Rounds(2),
    Word::Rounds(64),
    Word::Set(0, 1_000_000),
    Word::Set(1, 1),
    Word::Set(0, 0),
    Word::Set(2, usize::MAX),
];

/// Compares the two on the files that are measured, and on the stored cases.
fn check(benches: &[Bench]) -> bool {
    assert_alike(&Vec::from_iter(benches));
    println!("bench: files that are measured: {} passed, 0 failed", benches.len());
    let stored = library::stored();
    let answers = library::compared("bench", &stored, |bytes| Some(plain_judge::answer(bytes)));
    let written = check_written(benches, &stored);
    let filled = check_words("whose marks are filled in", &[Word::Fill], benches, &stored);
    check_words("with the rounds of loops found and set", &ROUNDS, benches, &stored) && filled && written && answers
}

/// Nanoseconds of one call, after a first that isn't counted.
fn nanoseconds(calls: usize, call: Call, file: &[u8]) -> f64 {
    let mut buffer = buffer();
    let mut once = || black_box(call(black_box(file), black_box(&mut buffer)));
    once();
    let start = Instant::now();
    for _ in 0..calls {
        once();
    }
    start.elapsed().as_nanos() as f64 / calls as f64
}

/// The medians of both, by turns.
fn medians(benches: &[&Bench], turns: usize) -> Vec<[f64; 2]> {
    let mut times: Vec<[Vec<f64>; 2]> = benches.iter().map(|_| [Vec::new(), Vec::new()]).collect();
    for _ in 0..turns {
        for (bench, [proved, plain]) in benches.iter().zip(&mut times) {
            proved.push(nanoseconds(bench.calls, bench.proved, &bench.file));
            plain.push(nanoseconds(bench.calls, bench.plain, &bench.file));
        }
    }
    let median = |mut times: Vec<f64>| {
        times.sort_by(f64::total_cmp);
        times[times.len() / 2]
    };
    times.into_iter().map(|pair| pair.map(median)).collect()
}

/// Prints the times of both, in microseconds, and the ratio.
fn show(what: &str, [a, b]: [f64; 2]) {
    println!("{what}: proved {:.2} us, plain Rust {:.2} us, ratio {:.2}", a / 1000.0, b / 1000.0, a / b);
}

/// Writing back alone: what the writing that comes after the first takes.
fn measure_writing(writing: &[&Bench]) {
    let [once, more] = medians(writing, 400)[..] else { panic!("two benchmarks") };
    show("213 records written back", [0, 1].map(|side| (more[side] - once[side]) / MORE as f64));
}

/// Filling alone: what the filling that comes after the first takes; and that against judging the filled case, without the taking.
fn measure_filling(filling: &[&Bench]) {
    let [taken, judged, once, more] = medians(filling, 400)[..] else { panic!("four benchmarks") };
    let fill = [0, 1].map(|side| (more[side] - once[side]) / MORE as f64);
    let [proved, plain] = [0, 1].map(|side| fill[side] / (judged[side] - taken[side]));
    show("full-1000000, marks filled in", fill);
    println!("filling against judging the filled case, both without the taking: proved {proved:.2} (limit 2), plain Rust {plain:.2}");
}

/// Finding alone, without the taking; and that against one judgement of the same case.
fn measure_finding(what: &str, finding: &[&Bench]) {
    let [taken, judged, found] = medians(finding, 200)[..] else { panic!("three benchmarks") };
    let find = [0, 1].map(|side| found[side] - taken[side]);
    let [proved, plain] = [0, 1].map(|side| find[side] / (judged[side] - taken[side]));
    show(&format!("full size, {what}, rounds of a loop found"), find);
    println!("finding against judging the same case, both without the taking: proved {proved:.1} (limit 45), plain Rust {plain:.1}");
}

fn measure([benches, writing, filling, finding]: [&[Bench]; 4]) {
    let [benches, writing, filling, finding] = [benches, writing, filling, finding].map(Vec::from_iter);
    let (taken, judged) = benches.split_at(1);
    [&benches, &writing, &filling, &finding].into_iter().for_each(|benches| assert_alike(benches));
    show("213 records read and taken", medians(taken, 400)[0]);
    measure_writing(&writing);
    let times = medians(judged, 1000);
    for (Bench { name, file, .. }, [a, b]) in judged.iter().zip(&times) {
        println!("{name}, {} records judged: proved {a:.0} ns, plain Rust {b:.0} ns, ratio {:.2}", file.len() / LENGTH, a / b);
    }
    // a little above 1: with 1 round the guards of the back moves aren't tested, and the rounds are one digit to read instead of seven
    let ratio = |at: usize| times[3][at] / times[2][at];
    println!("1000000 rounds against 1: proved {:.3}, plain Rust {:.3}", ratio(0), ratio(1));
    measure_filling(&filling);
    let (all, between) = finding.split_at(3);
    measure_finding("all rounds accepted", all);
    measure_finding("ends between", between);
}

fn main() {
    let (benches, writing, filling, finding) = (benches(), writing(), filling(), finding());
    let all: [&[Bench]; 4] = [&benches, &writing, &filling, finding.as_flattened()];
    let words: Vec<String> = std::env::args().skip(1).collect();
    let named = |name: &str| all.into_iter().flatten().find(|bench| bench.name == name).expect("the name of a file");
    match words.iter().map(String::as_str).collect::<Vec<_>>()[..] {
        [] => measure(all),
        ["check"] => exit(!check(&benches) as i32),
        ["proved", name] => println!("{}", (named(name).proved)(&named(name).file, &mut buffer())),
        ["plain", name] => println!("{}", (named(name).plain)(&named(name).file, &mut buffer())),
        _ => panic!("one of: check, proved NAME, plain NAME, or nothing"),
    }
}
