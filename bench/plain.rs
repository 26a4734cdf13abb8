// Plain Rust that reads records and collects them into a case with `&mut self`: the same tests as the proved collector's.
pub const WIDTH: usize = 7;
const FIELDS: usize = 8;
pub const LENGTH: usize = 58;
pub const COUNTERS: usize = 4;
pub const PLACES: usize = 64;

pub type Counters = [i64; COUNTERS];

#[derive(Clone, Copy, PartialEq)]
enum Field {
    Blank,
    Number(i32),
    // the place of the bad byte within the field, from 0
    Bad(u8),
}

#[derive(Clone, Copy, PartialEq)]
#[repr(usize)]
pub enum Kind {
    State,
    Weights,
    Guard,
    Move,
    Sentence,
    Place,
}

#[derive(Clone, Copy)]
enum Sort {
    Propositions,
    Weight,
    Coefficient,
    Bound,
    Update,
    Form,
    Proposition,
    Marks,
    LoopLength,
    Rounds,
    Reference(Kind),
}

#[derive(Clone, Copy)]
enum Rule {
    Blank,
    Needed(Sort),
    Optional(Sort),
}

#[derive(Clone, Copy, PartialEq, Debug)]
pub enum Answer {
    Taken,
    // the result; then the field, for 14 the place of the bad byte in the record, or 0
    Refused(u8, u8),
}

#[derive(Clone, Copy)]
pub struct State {
    pub propositions: u16,
}

// What the counters start with.
pub type Weights = [i32; COUNTERS];

#[derive(Clone, Copy)]
pub struct Guard {
    pub coefficients: [i16; COUNTERS],
    pub bound: i32,
}

#[derive(Clone, Copy)]
pub struct Move {
    pub from: u8,
    pub to: u8,
    pub updates: [i16; COUNTERS],
    pub guard1: Option<u8>,
    pub guard2: Option<u8>,
}

#[derive(Clone, Copy)]
pub enum Form {
    True,
    Proposition(u8),
    Guard(u8),
    And(u8, u8),
    Not(u8),
    Next(u8),
    Until { held: u8, goal: u8, bound: i32, term1: Option<(i16, u8)>, term2: Option<(i16, u8)> },
}

#[derive(Clone, Copy)]
pub enum LoopMark {
    None,
    Counted { length: u8, rounds: u32, back: u8 },
    Endless { length: u8, back: u8 },
}

#[derive(Clone, Copy)]
pub struct Place {
    pub state: u8,
    pub way: Option<u8>,
    pub marks: u32,
    pub mark: LoopMark,
}

pub struct Case {
    pub count: [usize; KINDS],
    // the last loop: its first place, the place behind its last, and whether it is endless
    pub first: usize,
    pub end: usize,
    pub endless: bool,
    // what a round of each loop adds to the counters, by the loop's first place; 0 until the loop closes
    pub drifts: [Counters; PLACES],
    pub states: [State; 32],
    // all 0 where the case has none
    pub weights: [Weights; 1],
    pub guards: [Guard; 32],
    pub moves: [Move; 64],
    pub sentences: [Form; 20],
    pub places: [Place; PLACES],
}

const KINDS: usize = 6;
const ROOM: [usize; KINDS] = [32, 1, 32, 64, 20, PLACES];

impl Move {
    pub fn add_to(&self, counters: &mut Counters) {
        for (counter, &update) in counters.iter_mut().zip(&self.updates) {
            *counter += update as i64;
        }
    }
}

impl LoopMark {
    pub fn length(self) -> usize {
        match self {
            LoopMark::None => 1,
            LoopMark::Counted { length, .. } | LoopMark::Endless { length, .. } => length as usize,
        }
    }

    pub fn back(self) -> Option<u8> {
        match self {
            LoopMark::None => None,
            LoopMark::Counted { back, .. } | LoopMark::Endless { back, .. } => Some(back),
        }
    }

    // The same mark with other rounds, where it has rounds at all.
    pub fn with_rounds(self, rounds: u32) -> LoopMark {
        match self {
            LoopMark::Counted { length, back, .. } => LoopMark::Counted { length, rounds, back },
            other => other,
        }
    }
}

fn read_field(part: &[u8]) -> Field {
    let bad = |i: usize| Field::Bad(i as u8);
    let mut i = 0;
    while i < part.len() && part[i] == b' ' {
        i += 1;
    }
    if i == part.len() {
        return Field::Blank;
    }
    let negative = part[i] == b'-';
    if negative {
        i += 1;
        if i == part.len() {
            return bad(i - 1);
        }
    } else if part[i] == b'0' {
        return if i + 1 == part.len() { Field::Number(0) } else { bad(i) };
    }
    if !(b'1'..=b'9').contains(&part[i]) {
        return bad(i);
    }
    let mut n = 0i32;
    while i < part.len() {
        let b = part[i];
        if !b.is_ascii_digit() {
            return bad(i);
        }
        n = 10 * n + (b - b'0') as i32;
        i += 1;
    }
    Field::Number(if negative { -n } else { n })
}

fn natural(f: Field) -> u32 {
    match f {
        Field::Number(x) if x >= 0 => x as u32,
        _ => 0,
    }
}

fn integer(f: Field) -> i32 {
    match f {
        Field::Number(x) => x,
        _ => 0,
    }
}

fn reference(f: Field) -> Option<u8> {
    match f {
        Field::Number(x) => Some(x as u8),
        _ => None,
    }
}

fn byte(f: Field) -> u8 {
    natural(f) as u8
}

fn short(f: Field) -> i16 {
    integer(f) as i16
}

fn four(x: &[Field]) -> [i16; COUNTERS] {
    [short(x[0]), short(x[1]), short(x[2]), short(x[3])]
}

fn sentence(form: u32, x: &[Field; FIELDS]) -> Form {
    let term = |k: usize| if filled(x[k]) { Some((short(x[k]), byte(x[k + 1]))) } else { None };
    match form {
        1 => Form::Proposition(byte(x[1])),
        2 => Form::Guard(byte(x[1])),
        3 => Form::And(byte(x[1]), byte(x[2])),
        4 => Form::Not(byte(x[1])),
        5 => Form::Next(byte(x[1])),
        6 => Form::Until { held: byte(x[1]), goal: byte(x[2]), bound: integer(x[3]), term1: term(4), term2: term(6) },
        _ => Form::True,
    }
}

fn loop_mark(x: &[Field; FIELDS]) -> LoopMark {
    let (length, back) = (byte(x[3]), byte(x[5]));
    match (x[3], x[4]) {
        (Field::Number(_), Field::Blank) => LoopMark::Endless { length, back },
        (Field::Number(_), Field::Number(_)) => LoopMark::Counted { length, rounds: natural(x[4]), back },
        _ => LoopMark::None,
    }
}

fn filled(f: Field) -> bool {
    matches!(f, Field::Number(_))
}

fn needed_if(needed: bool, sort: Sort) -> Rule {
    if needed {
        Rule::Needed(sort)
    } else {
        Rule::Optional(sort)
    }
}

fn rule(kind: Kind, form: u32, x: &[Field; FIELDS], k: usize) -> Rule {
    use Kind::*;
    use Rule::{Blank, Needed, Optional};
    let f = |n: usize| filled(x[n - 1]);
    match (kind, k, form) {
        (State, 0, _) => Needed(Sort::Propositions),
        (Weights, 0..=3, _) => Needed(Sort::Weight),
        (Guard, 0..=3, _) => Needed(Sort::Coefficient),
        (Guard, 4, _) => Needed(Sort::Bound),
        (Move, 0 | 1, _) => Needed(Sort::Reference(State)),
        (Move, 2..=5, _) => Needed(Sort::Update),
        (Move, 6, _) => needed_if(f(8), Sort::Reference(Guard)),
        (Move, ..) => Optional(Sort::Reference(Guard)),
        (Sentence, 0, _) => Needed(Sort::Form),
        (Sentence, 1, 1) => Needed(Sort::Proposition),
        (Sentence, 1, 2) => Needed(Sort::Reference(Guard)),
        (Sentence, 1, 3..=6) | (Sentence, 2, 3 | 6) => Needed(Sort::Reference(Sentence)),
        (Sentence, 3, 6) => Needed(Sort::Bound),
        (Sentence, 4, 6) => needed_if(f(6) || f(7) || f(8), Sort::Coefficient),
        (Sentence, 5, 6) => needed_if(f(5) || f(7) || f(8), Sort::Reference(Sentence)),
        (Sentence, 6, 6) => needed_if(f(8), Sort::Coefficient),
        (Sentence, 7, 6) => needed_if(f(7), Sort::Reference(Sentence)),
        (Place, 0, _) => Needed(Sort::Reference(State)),
        (Place, 1, _) => Optional(Sort::Reference(Move)),
        (Place, 2, _) => Needed(Sort::Marks),
        (Place, 3, _) => needed_if(f(5) || f(6), Sort::LoopLength),
        (Place, 4, _) => Optional(Sort::Rounds),
        (Place, 5, _) => needed_if(f(4), Sort::Reference(Move)),
        _ => Blank,
    }
}

fn range(sort: Sort) -> (i32, i32) {
    match sort {
        Sort::Propositions => (0, 65535),
        Sort::Coefficient => (-999, 999),
        Sort::Weight | Sort::Bound => (-999999, 9999999),
        Sort::Update => (-9999, 9999),
        Sort::Form => (0, 6),
        Sort::Proposition => (0, 15),
        Sort::Marks => (0, 1048575),
        Sort::LoopLength => (1, 64),
        Sort::Rounds => (1, 1000000),
        Sort::Reference(_) => (0, 63),
    }
}

fn outside(sort: Sort, f: Field) -> bool {
    let (low, high) = range(sort);
    matches!(f, Field::Number(x) if x < low || high < x)
}

impl Case {
    pub fn empty() -> Case {
        Case {
            count: [0; KINDS],
            first: 0,
            end: 0,
            endless: false,
            drifts: [[0; COUNTERS]; PLACES],
            states: [State { propositions: 0 }; 32],
            weights: [[0; COUNTERS]; 1],
            guards: [Guard { coefficients: [0; COUNTERS], bound: 0 }; 32],
            moves: [Move { from: 0, to: 0, updates: [0; COUNTERS], guard1: None, guard2: None }; 64],
            sentences: [Form::True; 20],
            places: [Place { state: 0, way: None, marks: 0, mark: LoopMark::None }; PLACES],
        }
    }

    fn lowest(test: impl Fn(usize) -> bool) -> Option<u8> {
        (0..FIELDS).find(|&k| test(k)).map(|k| k as u8 + 1)
    }

    fn fields_answer(kind: Kind, form: u32, x: &[Field; FIELDS]) -> Answer {
        // one pass settles a record that is right
        let wrong = |k: usize| match rule(kind, form, x, k) {
            Rule::Blank => x[k] != Field::Blank,
            Rule::Needed(sort) => !filled(x[k]) || outside(sort, x[k]),
            Rule::Optional(sort) => matches!(x[k], Field::Bad(_)) || outside(sort, x[k]),
        };
        if (0..FIELDS).all(|k| !wrong(k)) {
            return Answer::Taken;
        }
        let bad = |(k, field): (usize, &Field)| match *field {
            Field::Bad(i) => Some((1 + k * WIDTH) as u8 + i),
            _ => None,
        };
        if let Some(place) = x.iter().enumerate().find_map(bad) {
            return Answer::Refused(14, place);
        }
        if kind == Kind::Sentence && outside(Sort::Form, x[0]) {
            return Answer::Refused(16, 1);
        }
        if let Some(k) = Case::lowest(|k| matches!(rule(kind, form, x, k), Rule::Needed(_)) && x[k] == Field::Blank) {
            return Answer::Refused(15, k);
        }
        if let Some(k) = Case::lowest(|k| matches!(rule(kind, form, x, k), Rule::Blank) && filled(x[k])) {
            return Answer::Refused(15, k);
        }
        let far = |k: usize| match rule(kind, form, x, k) {
            Rule::Blank => false,
            Rule::Needed(sort) | Rule::Optional(sort) => outside(sort, x[k]),
        };
        match Case::lowest(far) {
            Some(k) => Answer::Refused(16, k),
            None => Answer::Taken,
        }
    }

    fn state_answer(&self, kind: Kind, form: u32, x: &[Field; FIELDS]) -> Answer {
        let rank = kind as usize;
        if self.count[rank + 1..].iter().any(|&n| n > 0) {
            return Answer::Refused(21, 0);
        }
        if ROOM[rank] <= self.count[rank] {
            return Answer::Refused(22, 0);
        }
        let absent = |k: usize| match (rule(kind, form, x, k), x[k]) {
            (Rule::Needed(Sort::Reference(to)) | Rule::Optional(Sort::Reference(to)), Field::Number(n)) => self.count[to as usize] as i32 <= n,
            (Rule::Needed(Sort::Marks), Field::Number(n)) => (n as u32) >> self.sentences() != 0,
            _ => false,
        };
        if let Some(k) = Case::lowest(absent) {
            return Answer::Refused(23, k);
        }
        if kind != Kind::Place {
            return Answer::Taken;
        }
        let n = self.places();
        if self.endless && self.end <= n {
            return Answer::Refused(25, 0);
        }
        if filled(x[3]) && (n < self.end || PLACES < n + natural(x[3]) as usize) {
            return Answer::Refused(25, 4);
        }
        if filled(x[1]) == (n == 0) {
            return Answer::Refused(26, 2);
        }
        Answer::Taken
    }

    fn store(&mut self, kind: Kind, form: u32, x: &[Field; FIELDS]) {
        let n = self.count[kind as usize];
        match kind {
            Kind::State => self.states[n] = State { propositions: natural(x[0]) as u16 },
            Kind::Weights => self.weights[n] = [integer(x[0]), integer(x[1]), integer(x[2]), integer(x[3])],
            Kind::Guard => self.guards[n] = Guard { coefficients: four(&x[..4]), bound: integer(x[4]) },
            Kind::Move => {
                let (guard1, guard2) = (reference(x[6]), reference(x[7]));
                self.moves[n] = Move { from: byte(x[0]), to: byte(x[1]), updates: four(&x[2..6]), guard1, guard2 }
            }
            Kind::Sentence => self.sentences[n] = sentence(form, x),
            Kind::Place => {
                let mark = loop_mark(x);
                if !matches!(mark, LoopMark::None) {
                    self.first = n;
                    self.end = n + mark.length();
                    self.endless = matches!(mark, LoopMark::Endless { .. });
                }
                self.places[n] = Place { state: byte(x[0]), way: reference(x[1]), marks: natural(x[2]), mark };
                if n + 1 == self.end {
                    self.drifts[self.first] = self.round_sums();
                }
            }
        }
        self.count[kind as usize] = n + 1;
    }

    // What a round of the last loop adds to the counters: by the ways into its places but the first, and by the back move.
    fn round_sums(&self) -> Counters {
        let mut sums = [0; COUNTERS];
        for place in &self.places[self.first + 1..self.end] {
            if let Some(way) = place.way {
                self.moves[way as usize].add_to(&mut sums);
            }
        }
        if let Some(back) = self.places[self.first].mark.back() {
            self.moves[back as usize].add_to(&mut sums);
        }
        sums
    }

    // Takes the records of a file, up to the first that is refused.
    pub fn take_all(&mut self, src: &[u8]) -> Answer {
        for bytes in src.chunks(LENGTH) {
            let answer = self.take(bytes);
            if answer != Answer::Taken {
                return answer;
            }
        }
        Answer::Taken
    }

    fn take(&mut self, bytes: &[u8]) -> Answer {
        if bytes.len() != LENGTH {
            return Answer::Refused(11, 0);
        }
        if bytes[LENGTH - 1] != b'\n' {
            return Answer::Refused(12, 0);
        }
        let kind = match bytes[0] {
            b'S' => Kind::State,
            b'W' => Kind::Weights,
            b'G' => Kind::Guard,
            b'T' => Kind::Move,
            b'F' => Kind::Sentence,
            b'P' => Kind::Place,
            _ => return Answer::Refused(13, 0),
        };
        let mut x = [Field::Blank; FIELDS];
        for (k, field) in x.iter_mut().enumerate() {
            *field = read_field(&bytes[1 + k * WIDTH..1 + (k + 1) * WIDTH]);
        }
        let form = natural(x[0]);
        let mut answer = Case::fields_answer(kind, form, &x);
        if answer == Answer::Taken {
            answer = self.state_answer(kind, form, &x);
        }
        if answer == Answer::Taken {
            self.store(kind, form, &x);
        }
        answer
    }
}
