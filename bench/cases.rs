//! The files that are measured.
use crate::plain::{Answer, Case};

/// The twelve rounds of document 01.
pub const TWELVE_ROUNDS: &[u8] = include_bytes!("../crates/plancheck/stdin");

/// The bytes of records, each a letter and its fields with `.` for a blank one.
fn file(records: &[String]) -> Vec<u8> {
    let mut bytes = Vec::new();
    for line in records {
        let (letter, fields) = line.split_at(1);
        let fields: String = fields.split_whitespace().map(|word| format!("{:>7}", word.trim_matches('.'))).collect();
        bytes.extend(format!("{letter}{fields:<56}\n").bytes());
    }
    bytes
}

/// 213 records: every kind fills its room, and every record is taken.
pub fn all_rooms() -> Vec<u8> {
    let mut records: Vec<String> = (0..32).map(|i| format!("S {}", i * 2000)).collect();
    records.push("W -999999 0 1250 9999999".to_string());
    records.extend((0..32).map(|i| format!("G {} {} {} 0 {}", i - 16, 999 - i, i - 999, i * 200_000 - 900_000)));
    for i in 0..64 {
        let guards = ["".to_string(), format!("{}", i % 32), format!("{} {}", i % 32, 31 - i % 32)];
        records.push(format!("T {} {} {} -9999 {i} 0 {}", i % 32, (i + 1) % 32, 1250 - i * 50, guards[i as usize % 3]));
    }
    for i in 0..20 {
        records.push(match i % 7 {
            1 => format!("F 1 {}", i % 16),
            2 => format!("F 2 {i}"),
            3 => format!("F 3 0 {}", i - 1),
            4 => format!("F 4 {}", i - 1),
            5 => format!("F 5 {}", i - 2),
            6 => format!("F 6 0 1 -999999 -999 2 999 {}", i - 1),
            _ => "F 0".to_string(),
        });
    }
    for i in 0..64 {
        let way = if i == 0 { ".".to_string() } else { format!("{}", i - 1) };
        let mark = match i {
            60 => format!("4 . {i}"),
            _ if i % 4 == 0 => format!("4 {} {i}", 1 + i * 15_000),
            _ => "".to_string(),
        };
        records.push(format!("P {} {way} {} {mark}", i % 32, 1_048_575 - i));
    }
    file(&records)
}

/// The sentences of the larger cases: each of the other forms once, then untils. No truth changes between the rounds of a place.
const SENTENCES: [&str; 20] = [
    "F 0",
    "F 1 3",
    "F 2 0",
    "F 3 1 2",
    "F 4 2",
    "F 5 2",
    "F 6 0 1 -1 90 5 -332 1",
    "F 6 6 2 50 -84 4 532 4",
    "F 6 0 5 -1 -7 1 -1 2",
    "F 6 8 3 1 580 0 -49 4",
    "F 6 0 6 1 -550 9 7 0",
    "F 6 9 4 0 98 2 37 2",
    "F 6 0 5 0 89 3 -681 11",
    "F 6 8 9 1 -42 5 29 2",
    "F 6 0 4 0 -4 6 -377 7",
    "F 6 2 8 1 58 13 39 8",
    "F 6 0 8 -51 -8 0 -50 7",
    "F 6 7 4 0 79 11 -4 14",
    "F 6 0 4 -10 -90 14 -209 15",
    "F 6 7 4 0 -502 16 54 7",
];

/// A plan that goes up and down through the states, while three more counters rise or fall in every round. There are as many guards as states,
/// and twice as many moves, each with two guards: from each state to the next, and back over a loop of four places. Guard 0 is in a sentence
/// only, the others hold always.
pub fn plan(states: i64, weights: Option<&str>, sentences: usize, places: i64, rounds: u32) -> Vec<u8> {
    with_right_marks(file(&records(states, weights, sentences, places, rounds)))
}

/// The records of that plan, without marks.
fn records(states: i64, weights: Option<&str>, sentences: usize, places: i64, rounds: u32) -> Vec<String> {
    let mut records: Vec<String> = (0..states).map(|i| format!("S {}", i << 8 | 1 << (i % 8))).collect();
    records.extend(weights.map(str::to_string));
    records.push("G 1 0 0 0 1250".to_string());
    for i in 1..states {
        records.push(match i % 4 {
            0 => "G 1 0 0 0 0".to_string(),
            1 => "G -1 0 0 0 -1250".to_string(),
            2 => format!("G {i} {} 0 1 0", 999 - i),
            _ => format!("G -1 {i} {} 2 -1250", -500 - i),
        });
    }
    let guards = |i: i64| format!("{} {}", 1 + i % (states - 1), 1 + (5 * i + 1) % (states - 1));
    let height = |i: i64| if i % 2 == 0 { 1250 } else { -1250 };
    for i in 0..states {
        records.push(format!("T {i} {} {} {} {} {} {}", (i + 1) % states, height(i), i + 1, -50 * i - 1, 9999 - 100 * i, guards(i)));
    }
    for i in 0..states {
        records.push(format!("T {} {i} {} 10 -7 1 {}", (i + 3) % states, -height(i), guards(states + i)));
    }
    records.extend(SENTENCES[..sentences].iter().map(|sentence| sentence.to_string()));
    records.extend((0..places).map(|p| place(p, states, places, rounds)));
    records
}

/// Weights that the guards of the full size allow.
const WEIGHTS: &str = "W 0 9999999 -999999 9999999";

/// The full size: 213 records.
pub fn full(rounds: u32) -> Vec<u8> {
    plan(32, Some(WEIGHTS), 20, 64, rounds)
}

/// The same, but that the first loop must have 2 to 999,999 rounds. 1 is refused by guard 4, which is first tested behind the loop, and 1,000,000 by the
/// marks of the last sentence: before the next place with proposition 4, of which the first comes behind the loop, proposition 0 is true at 999,999
/// moments at most. The ends are far from the loop's own rounds, so nearly all that are tried between are accepted, which takes longest.
pub fn full_between() -> Vec<u8> {
    let mut records = records(32, Some(WEIGHTS), 20, 64, 500_000);
    records[33 + 4] = "G 0 0 -1 0 1000400".to_string();
    let last = ["F 1 0", "F 1 4", "F 6 0 18 -999999 -1 17"].map(str::to_string);
    records[129 + 17..129 + 20].clone_from_slice(&last);
    with_right_marks(file(&records))
}

/// A place of the plan. Loops of four places and lone places come by turns; the last four places are the endless loop.
fn place(p: i64, states: i64, places: i64, rounds: u32) -> String {
    let way = if p == 0 { ".".to_string() } else { ((p - 1) % states).to_string() };
    let back = states + p % states;
    let mark = if p == places - 4 {
        format!("4 . {back}")
    } else if p % 5 == 0 && p + 8 < places {
        format!("4 {rounds} {back}")
    } else {
        "".to_string()
    };
    format!("P {} {way} 0 {mark}", p % states)
}

/// The file with its marks filled in; no truth may change between the rounds of a place.
fn with_right_marks(file: Vec<u8>) -> Vec<u8> {
    let mut case = Case::empty();
    assert_eq!(case.take_all(&file), Answer::Taken);
    assert_eq!(case.fill(), [0, file.len(), 0]);
    let mut filled = vec![0; file.len()];
    case.write(&mut filled);
    filled
}
