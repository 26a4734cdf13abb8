//! Writing a case back by document 02, item 5: the bytes of its records, and those into a lent buffer. It shares nothing with the proved code.
//! To test the tests, one mistake can be planted in it.
use crate::library::Written;
use crate::mistakes::Slip::{self, *};
use crate::reader::*;

/// The seven characters of a field.
pub fn spelled(content: Option<i64>, slip: Slip) -> String {
    let Some(number) = content else { return if slip == BlankAsZero { "      0".to_string() } else { " ".repeat(WIDTH) } };
    let (sign, size) = (if number < 0 { "-" } else { "" }, number.abs());
    let wrong = match slip {
        ZeroAsBlank if number == 0 => " ".repeat(WIDTH),
        MinusEarly if number < 0 => format!("{:>WIDTH$}", format!("- {size}")),
        MinusFirst if number < 0 => format!("-{size:>6}"),
        MinusLost => format!("{size:>WIDTH$}"),
        Plus if number > 0 => format!("{number:>+WIDTH$}"),
        LeadingZero => format!("{:>WIDTH$}", format!("{sign}0{size}")),
        SetLeft => format!("{number:<WIDTH$}"),
        SixDigits => format!("{:>WIDTH$}", number % 1_000_000),
        _ => String::new(),
    };
    // a mistake that doesn't fit isn't made
    if wrong.len() == WIDTH {
        wrong
    } else {
        format!("{number:>WIDTH$}")
    }
}

/// The mistakes in what a record has in its fields.
fn planted(kind: usize, mut fields: Fields, slip: Slip) -> Fields {
    match (slip, kind) {
        (GuardsSwapped, T) if fields[8].is_some() => fields.swap(7, 8),
        (TermsSwapped, F) if fields[8].is_some() => fields[5..9].rotate_left(2),
        (TermLost, F) => fields[7..9].fill(None),
        (RoundsLost, P) => fields[5] = None,
        (EndlessOnce, P) if fields[4].is_some() => fields[5] = fields[5].or(Some(1)),
        (WayInLost, P) => fields[2] = None,
        _ => {}
    }
    fields
}

/// The bytes of a record.
pub fn record(kind: usize, fields: &Fields, slip: Slip) -> Vec<u8> {
    let mut bytes = Vec::with_capacity(LENGTH);
    bytes.push(LETTERS[kind]);
    for &content in &planted(kind, *fields, slip)[1..] {
        bytes.extend_from_slice(spelled(content, slip).as_bytes());
    }
    bytes.push(b'\n');
    bytes
}

/// The kinds in the order in which they are written.
fn order(slip: Slip) -> [usize; KINDS] {
    match slip {
        WeightsFirst => [W, S, G, T, F, P],
        WeightsLast => [S, G, T, F, P, W],
        MovesFirst => [S, W, T, G, F, P],
        _ => [S, W, G, T, F, P],
    }
}

/// The mistakes in which items are written at all.
fn planted_case(held: &Held, slip: Slip) -> Case {
    let mut case = held.case.clone();
    match slip {
        RefusedForgotten if held.refused.is_some() => case = Case::default(),
        UnfinishedForgotten if !case.finished() => case = Case::default(),
        ZeroWeights if case.0[W].is_empty() => case.0[W].push([None, Some(0), Some(0), Some(0), Some(0), None, None, None, None]),
        _ => {}
    }
    case
}

/// The records of a case, kind by kind.
fn records(case: &Case, slip: Slip) -> Vec<u8> {
    let records = order(slip).into_iter().flat_map(|kind| case.0[kind].iter().map(move |item| record(kind, item, slip)));
    records.collect::<Vec<_>>().concat()
}

/// The bytes of a case.
pub fn case(case: &Case) -> Vec<u8> {
    records(case, Nothing)
}

/// The bytes of the case that is held.
pub fn file(held: &Held, slip: Slip) -> Vec<u8> {
    let mut bytes = records(&planted_case(held, slip), slip);
    match slip {
        LastLeftOut => bytes.truncate(bytes.len().saturating_sub(LENGTH)),
        LineFeedLost => bytes.iter_mut().rev().take(1).for_each(|last| *last = b' '),
        _ => {}
    }
    bytes
}

/// Writes the bytes of a case into a buffer, and tells what there is to be told.
pub fn write(file: &[u8], lent: &mut [u8], slip: Slip) -> Written {
    let count = file.len();
    if lent.len() < count + (slip == ExactRefused) as usize {
        let whole = if slip == PartWritten { lent.len() / LENGTH * LENGTH } else { 0 };
        lent[..whole].copy_from_slice(&file[..whole]);
        return [41, if slip == NeededTold { count } else { 0 }];
    }
    let (records, behind) = lent.split_at_mut(count);
    records.copy_from_slice(file);
    match slip {
        TailBlanked => behind.fill(b' '),
        TailZeroed => behind.fill(0),
        ByteBehind => behind.iter_mut().take(1).for_each(|byte| *byte = 0),
        _ => {}
    }
    [0, if slip == RecordsTold { count / LENGTH } else { count }]
}
