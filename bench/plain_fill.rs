// Plain Rust that fills in the marks of a case: what comes before the marks in judging, then each sentence by the marks of those below it.
use crate::plain::{Case, LENGTH};
use crate::plain_judge::Throughout;

impl Case {
    // Puts the right marks in the place of the old ones, whatever these are. A refusal leaves the case as it was.
    pub fn fill(&mut self) -> [usize; 3] {
        let run = match self.run() {
            Ok(run) => run,
            Err(refused) => return refused,
        };
        let before = self.places;
        let count = self.places();
        for place in &mut self.places[..count] {
            place.marks = 0;
        }
        for i in 0..self.sentences() {
            let truth = self.truth(&run, i);
            if let Some(p) = truth[..count].iter().position(|&truth| truth == Throughout::Changes) {
                self.places = before;
                return [37, p, i];
            }
            for (place, &truth) in self.places[..count].iter_mut().zip(&truth) {
                place.marks |= u32::from(truth == Throughout::Always) << i;
            }
        }
        [0, LENGTH * self.count.iter().sum::<usize>(), 0]
    }
}

// Fills the case of a file: the line, and behind it the bytes of the filled case, if there is one.
pub fn filled(src: &[u8]) -> Vec<u8> {
    let mut case = Case::empty();
    let numbers = case.take_file(src).map_or_else(|refused| refused, |()| case.fill());
    case.output(numbers, true)
}
