// Plain Rust that writes a case back into a lent buffer: the only spelling of each record, into its own bytes.
use crate::plain::{Case, Form, Guard, Kind, LoopMark, Move, Place, State, Weights, LENGTH, WIDTH};

type Record = [u8; LENGTH];

// Makes a record one of a kind, with all fields blank.
fn clear(record: &mut Record, letter: u8) {
    *record = [b' '; LENGTH];
    record[0] = letter;
    record[LENGTH - 1] = b'\n';
}

// Writes a number that ends with a field: its digits from the right, and before them the minus.
fn put(record: &mut Record, field: usize, number: i32) {
    let mut at = field * WIDTH;
    let mut rest = number.unsigned_abs();
    while rest > 9 {
        record[at] = b'0' + (rest % 10) as u8;
        rest /= 10;
        at -= 1;
    }
    record[at] = b'0' + rest as u8;
    if number < 0 {
        record[at - 1] = b'-';
    }
}

// Writes numbers into the fields from one on.
fn put_from<A: Copy + Into<i32>>(record: &mut Record, first: usize, numbers: &[A]) {
    for (field, &number) in (first..).zip(numbers) {
        put(record, field, number.into());
    }
}

// Writes the number of an item, where there is one; else the field stays blank.
fn put_reference(record: &mut Record, field: usize, item: Option<u8>) {
    if let Some(number) = item {
        put(record, field, number.into());
    }
}

fn put_term(record: &mut Record, field: usize, term: Option<(i16, u8)>) {
    if let Some((coefficient, sentence)) = term {
        put(record, field, coefficient.into());
        put(record, field + 1, sentence.into());
    }
}

fn write_state(state: &State, record: &mut Record) {
    clear(record, b'S');
    put(record, 1, state.propositions.into());
}

fn write_weights(weights: &Weights, record: &mut Record) {
    clear(record, b'W');
    put_from(record, 1, weights);
}

fn write_guard(guard: &Guard, record: &mut Record) {
    clear(record, b'G');
    put_from(record, 1, &guard.coefficients);
    put(record, 5, guard.bound);
}

fn write_move(item: &Move, record: &mut Record) {
    clear(record, b'T');
    put_from(record, 1, &[item.from, item.to]);
    put_from(record, 3, &item.updates);
    put_reference(record, 7, item.guard1);
    put_reference(record, 8, item.guard2);
}

fn write_sentence(sentence: &Form, record: &mut Record) {
    clear(record, b'F');
    match *sentence {
        Form::True => put(record, 1, 0),
        Form::Proposition(proposition) => put_from(record, 1, &[1, proposition]),
        Form::Guard(guard) => put_from(record, 1, &[2, guard]),
        Form::And(one, other) => put_from(record, 1, &[3, one, other]),
        Form::Not(sentence) => put_from(record, 1, &[4, sentence]),
        Form::Next(sentence) => put_from(record, 1, &[5, sentence]),
        Form::Until { held, goal, bound, term1, term2 } => {
            put_from(record, 1, &[6, held, goal]);
            put(record, 4, bound);
            put_term(record, 5, term1);
            put_term(record, 7, term2);
        }
    }
}

fn write_place(place: &Place, record: &mut Record) {
    clear(record, b'P');
    put(record, 1, place.state.into());
    put_reference(record, 2, place.way);
    put(record, 3, place.marks as i32);
    match place.mark {
        LoopMark::None => {}
        LoopMark::Counted { length, rounds, back } => {
            put(record, 4, length.into());
            put(record, 5, rounds as i32);
            put(record, 6, back.into());
        }
        LoopMark::Endless { length, back } => {
            put(record, 4, length.into());
            put(record, 6, back.into());
        }
    }
}

// Writes the items of a kind into the first bytes, a record each, and gives the bytes behind them.
fn write_items<'a, A>(items: &[A], bytes: &'a mut [u8], write: impl Fn(&A, &mut Record)) -> &'a mut [u8] {
    let (here, behind) = bytes.split_at_mut(LENGTH * items.len());
    for (item, record) in items.iter().zip(here.chunks_exact_mut(LENGTH)) {
        write(item, record.try_into().expect("the bytes of a record"));
    }
    behind
}

impl Case {
    // Writes the records to the front of a buffer and says how many bytes they are; nothing where the buffer is shorter.
    pub fn write(&self, buf: &mut [u8]) -> Option<usize> {
        let needed = LENGTH * self.count.iter().sum::<usize>();
        let bytes = buf.get_mut(..needed)?;
        let count = |kind: Kind| self.count[kind as usize];
        let bytes = write_items(&self.states[..count(Kind::State)], bytes, write_state);
        let bytes = write_items(&self.weights[..count(Kind::Weights)], bytes, write_weights);
        let bytes = write_items(&self.guards[..count(Kind::Guard)], bytes, write_guard);
        let bytes = write_items(&self.moves[..count(Kind::Move)], bytes, write_move);
        let bytes = write_items(&self.sentences[..count(Kind::Sentence)], bytes, write_sentence);
        write_items(&self.places[..count(Kind::Place)], bytes, write_place);
        Some(needed)
    }

    // What a word of the tool prints: the line of three numbers; behind it the bytes of the case, where the result is 0 and a file comes of the word.
    pub fn output(&self, [result, second, third]: [usize; 3], file: bool) -> Vec<u8> {
        let mut output = format!("{result} {second} {third}\n").into_bytes();
        if file && result == 0 {
            let line = output.len();
            output.resize(line + second, 0);
            self.write(&mut output[line..]);
        }
        output
    }
}
