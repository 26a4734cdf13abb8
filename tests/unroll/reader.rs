//! Reading a case file by documents 01 and 02: the records, and the refusals 11 to 26.
use crate::library::Answer;
use crate::mistakes::Mistake::{self, *};

/// The result of a refusal, and what it tells: a field, for 14 a byte, or 0.
type Refusal = (usize, usize);
/// A record's fields by their numbers 1 to 8; entry 0 is not used.
pub type Fields = [Option<i64>; 9];
/// The items of each kind, in the order of the letters.
#[derive(Clone, Default)]
pub struct Case(pub [Vec<Fields>; KINDS]);
pub const LENGTH: usize = 58;
pub const WIDTH: usize = 7;
pub const KINDS: usize = 6;
pub const LETTERS: &[u8; KINDS] = b"SWGTFP";
pub const ROOM: [usize; KINDS] = [32, 1, 32, 64, 20, 64];
pub const S: usize = 0;
pub const W: usize = 1;
pub const G: usize = 2;
pub const T: usize = 3;
pub const F: usize = 4;
pub const P: usize = 5;

/// What is held after a file is taken: the case of the records before the first that is refused, and the answer to that one.
pub struct Held {
    pub case: Case,
    pub refused: Option<Answer>,
}

/// Takes the records of a file, up to the first that is refused.
pub fn read(bytes: &[u8], mistake: Mistake) -> Held {
    let mut held = Held { case: Case::default(), refused: None };
    let whole = bytes.len() / LENGTH * LENGTH;
    let bytes = if mistake == ShortLastLeftOut { &bytes[..whole] } else { bytes };
    for (number, record) in bytes.chunks(LENGTH).enumerate() {
        if let Err((result, what)) = held.case.take(record, mistake) {
            held.refused = Some([result, number, what]);
            break;
        }
    }
    held
}

/// A field: blank, or a number that is spelled back as it stands; anything else is none.
fn field(text: &[u8], mistake: Mistake) -> Option<Option<i64>> {
    if text.iter().all(|&byte| byte == b' ') {
        return Some(None);
    }
    let text = std::str::from_utf8(text).ok()?;
    let word = if mistake == SpacesAfter { text.trim_matches(' ') } else { text.trim_start_matches(' ') };
    let number: i64 = word.parse().ok()?;
    (number.to_string() == word || mistake == OtherSpellings).then_some(Some(number))
}

/// Whether some field begins with these bytes. It is enough to try spaces behind them, and ones. Spaces alone begin the blank field. Where there is
/// more than spaces, a field is a number that goes on with digits to its end, and each of these can be a 1: the first behind a minus, and any
/// behind another digit; behind a first 0 there are none.
fn begins_field(bytes: &[u8], mistake: Mistake) -> bool {
    [b' ', b'1'].iter().any(|&more| {
        let mut text = [more; WIDTH];
        text[..bytes.len()].copy_from_slice(bytes);
        field(&text, mistake).is_some()
    })
}

/// The bad byte of a text that is no field, by its place in it from 0: the first up to which the bytes begin no field.
fn bad_byte(text: &[u8], mistake: Mistake) -> usize {
    let at = (0..WIDTH).find(|&at| !begins_field(&text[..=at], mistake)).expect("all of the text is no field");
    let after_spaces = text[..at].iter().all(|&byte| byte == b' ');
    let late = after_spaces && matches!((mistake, text[at]), (ZeroLate, b'0') | (MinusLate, b'-'));
    at + late as usize
}

/// The fields of a record, or 14 with the place in the record of the lowest bad field's bad byte.
fn contents(record: &[u8], mistake: Mistake) -> Result<Fields, Refusal> {
    let (mut fields, mut bad) = ([None; 9], Vec::new());
    for (text, number) in record[1..LENGTH - 1].chunks(WIDTH).zip(1..) {
        match field(text, mistake) {
            Some(content) => fields[number] = content,
            None => bad.push((number, bad_byte(text, mistake) + 1)),
        }
    }
    let told = if mistake == HighestBad { bad.last() } else { bad.first() };
    let Some(&(number, within)) = told else { return Ok(fields) };
    let place = (number - 1) * WIDTH + within;
    let what = match mistake {
        ByteAfter => place + 1,
        ByteWithin => within,
        FieldTold => number,
        _ => place,
    };
    Err((14, what))
}

/// What fields 1 to 8 of a kind and form are: w propositions, a weight, c coefficient, b bound, s state, t move, g guard, u update, f form,
/// p proposition, x sentence, m marks, l loop length, r rounds, - to be left blank.
fn sorts(kind: usize, form: Option<i64>) -> &'static [u8; 8] {
    match (kind, form.unwrap_or(0)) {
        (S, _) => b"w-------",
        (W, _) => b"aaaa----",
        (G, _) => b"ccccb---",
        (T, _) => b"ssuuuugg",
        (P, _) => b"stmlrt--",
        (_, 0) => b"f-------",
        (_, 1) => b"fp------",
        (_, 2) => b"fg------",
        (_, 3) => b"fxx-----",
        (_, 4 | 5) => b"fx------",
        _ => b"fxxbcxcx",
    }
}

/// Whether a field must be filled, seeing which others are.
fn needed(kind: usize, number: usize, fields: &Fields) -> bool {
    let filled = |numbers: &[usize]| numbers.iter().any(|&other| fields[other].is_some());
    match (kind, number) {
        (T, 7) => filled(&[8]),
        (T, 8) | (P, 2) | (P, 5) => false,
        (P, 4) => filled(&[5, 6]),
        (P, 6) => filled(&[4]),
        (F, 5) if fields[1] == Some(6) => filled(&[6, 7, 8]),
        (F, 6) if fields[1] == Some(6) => filled(&[5, 7, 8]),
        (F, 7) if fields[1] == Some(6) => filled(&[8]),
        (F, 8) if fields[1] == Some(6) => filled(&[7]),
        _ => sorts(kind, fields[1])[number - 1] != b'-',
    }
}

fn in_range(sort: u8, number: i64, mistake: Mistake) -> bool {
    let (low, high) = match sort {
        b'w' => (0, 65_535),
        b'c' => (-999, 999),
        b'u' => (-9_999, 9_999),
        b'f' => (0, 6),
        b'p' => (0, 15),
        b'm' => (0, 1_048_575),
        b'l' => (1, 64),
        b'r' => (1, 1_000_000),
        b'b' if mistake == EvenBounds => (-999_999, 999_999),
        b'a' if mistake == EvenWeights => (-999_999, 999_999),
        b'a' | b'b' => return true,
        _ => (0, 63),
    };
    low <= number && number <= high
}

/// 11 to 16, or the kind and the fields.
fn from_input(record: &[u8], mistake: Mistake) -> Result<(usize, Fields), Refusal> {
    if record.len() != LENGTH {
        return Err((11, 0));
    }
    if record[LENGTH - 1] != b'\n' {
        return Err((12, 0));
    }
    let known = |kind: &usize| !(mistake == LetterUnknown && *kind == W);
    let kind = LETTERS.iter().position(|&letter| letter == record[0]).filter(known).ok_or((13, 0))?;
    let fields = contents(record, mistake)?;
    if kind == F && mistake != FormLate && fields[1].is_some_and(|form| !in_range(b'f', form, mistake)) {
        return Err((16, 1));
    }
    let sort = |number: usize| sorts(kind, fields[1])[number - 1];
    let lowest = |wrong: &dyn Fn(usize) -> bool| (1..=8).find(|&number| wrong(number));
    let missing = lowest(&|n| fields[n].is_none() && needed(kind, n, &fields)).map(|number| (15, number));
    let filled = lowest(&|n| fields[n].is_some() && sort(n) == b'-').map(|number| (15, number));
    let outside = lowest(&|n| fields[n].is_some_and(|content| !in_range(sort(n), content, mistake))).map(|number| (16, number));
    first([missing, filled], mistake == FilledFirst)?;
    outside.map_or(Ok((kind, fields)), Err)
}

/// The first of two refusals that applies, if one does; the mistake is to try the second before it.
fn first([one, other]: [Option<Refusal>; 2], swapped: bool) -> Result<(), Refusal> {
    let refusal = if swapped { other.or(one) } else { one.or(other) };
    refusal.map_or(Ok(()), Err)
}

/// 21 to 26, or nothing.
fn from_state(case: &Case, kind: usize, fields: &Fields, mistake: Mistake) -> Result<(), Refusal> {
    let later = match (mistake, kind) {
        (WeightsFirst, S) => G,
        (WeightsLate, W) => KINDS,
        _ => kind + 1,
    };
    let late = case.0[later..].iter().any(|items| !items.is_empty());
    let more = matches!((mistake, kind), (OneMore, _) | (SecondWeights, W));
    let full = case.0[kind].len() >= ROOM[kind] + more as usize;
    first([late.then_some((21, 0)), full.then_some((22, 0))], mistake == RoomFirst)?;
    for number in 1..=8 {
        let Some(content) = fields[number] else { continue };
        let there = match sorts(kind, fields[1])[number - 1] {
            b's' => content < case.0[S].len() as i64,
            b'g' => content < case.0[G].len() as i64,
            b't' => content < case.0[T].len() as i64,
            b'x' => content < case.0[F].len() as i64,
            b'm' => content < 1 << (case.0[F].len() + (mistake == MarkBit) as usize),
            _ => true,
        };
        if !there {
            return Err((23, number));
        }
    }
    if kind == P {
        place_stands(case, fields, mistake)?;
    }
    Ok(())
}

/// 25 and 26.
fn place_stands(case: &Case, fields: &Fields, mistake: Mistake) -> Result<(), Refusal> {
    let here = case.0[P].len();
    let after_end = case.endless().is_some_and(|(first, length)| first + length <= here);
    let inside = |(first, place): (usize, &Fields)| place[4].is_some_and(|length| here < first + length as usize);
    let misplaced = fields[4].is_some_and(|length| here + length as usize > 64 || case.0[P].iter().enumerate().any(inside));
    first([after_end.then_some((25, 0)), misplaced.then_some((25, 4))], mistake == Swapped25)?;
    if fields[2].is_some() == (here == 0) {
        return Err((26, 2));
    }
    Ok(())
}

impl Case {
    /// Takes a record, or refuses it.
    fn take(&mut self, record: &[u8], mistake: Mistake) -> Result<(), Refusal> {
        let (kind, fields) = from_input(record, mistake)?;
        from_state(self, kind, &fields, mistake)?;
        self.0[kind].push(fields);
        Ok(())
    }

    /// Whether there is a sentence and the endless loop has its last place.
    pub fn finished(&self) -> bool {
        !self.0[F].is_empty() && self.endless().is_some_and(|(first, length)| first + length <= self.0[P].len())
    }

    /// First place and length of the endless loop.
    pub fn endless(&self) -> Option<(usize, usize)> {
        let first = self.0[P].iter().position(|place| place[4].is_some() && place[5].is_none())?;
        Some((first, self.number(P, first, 4)))
    }

    /// A filled field that counts or refers.
    pub fn number(&self, kind: usize, item: usize, field: usize) -> usize {
        self.0[kind][item][field].expect("a filled field") as usize
    }
}
