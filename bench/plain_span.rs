// Plain Rust that finds the least and the greatest rounds of a loop with which a case is accepted, and sets a loop's rounds.
use crate::plain::{Case, LoopMark, LENGTH};

// The most rounds of a counted loop.
const MOST: u32 = 1_000_000;

impl Case {
    // The first place of loop k and its rounds, or 27.
    fn counted(&self, k: usize) -> Result<(usize, u32), [usize; 3]> {
        let mut starts = (0..self.places()).filter(|&p| self.places[p].mark.back().is_some());
        let first = starts.nth(k).ok_or([27, k, 0])?;
        match self.places[first].mark {
            LoopMark::Counted { rounds, .. } => Ok((first, rounds)),
            _ => Err([27, k, 0]),
        }
    }

    // The last rounds that are accepted, from accepted ones towards a limit: the limit is tried first, then the middle.
    fn last_rounds(&mut self, first: usize, accepted: u32, limit: u32) -> u32 {
        if accepted == limit || self.judged_with(first, limit)[0] == 0 {
            return limit;
        }
        let (mut good, mut bad) = (accepted, limit);
        while good.abs_diff(bad) > 1 {
            let middle = (good + bad) / 2;
            if self.judged_with(first, middle)[0] == 0 {
                good = middle;
            } else {
                bad = middle;
            }
        }
        good
    }

    // The least and the greatest rounds of loop k with which the case is accepted; or the judgement's refusal, or 27.
    pub fn span(&mut self, k: usize) -> [usize; 3] {
        let judged = self.judge();
        if judged[0] != 0 {
            return judged;
        }
        let (first, own) = match self.counted(k) {
            Ok(found) => found,
            Err(refused) => return refused,
        };
        let [least, greatest] = [1, MOST].map(|limit| self.last_rounds(first, own, limit) as usize);
        self.places[first].mark = self.places[first].mark.with_rounds(own);
        [0, least, greatest]
    }

    // Sets the rounds of loop k. A refusal (24, 27 or 16) leaves the case as it was.
    pub fn set(&mut self, k: usize, n: usize) -> [usize; 3] {
        let records: usize = self.count.iter().sum();
        if !self.finished() {
            return [24, records, 0];
        }
        let first = match self.counted(k) {
            Ok((first, _)) => first,
            Err(refused) => return refused,
        };
        if !(1..=MOST as usize).contains(&n) {
            return [16, records - self.places() + first, 5];
        }
        self.places[first].mark = self.places[first].mark.with_rounds(n as u32);
        [0, LENGTH * records, 0]
    }
}

// The rounds of a loop in the case of a file: the line.
pub fn rounds(src: &[u8], k: usize) -> Vec<u8> {
    let mut case = Case::empty();
    let numbers = case.take_file(src).map_or_else(|refused| refused, |()| case.span(k));
    case.output(numbers, false)
}

// Sets the rounds of a loop in the case of a file: the line, and behind it the bytes of the case with them, if there is one.
pub fn set(src: &[u8], k: usize, n: usize) -> Vec<u8> {
    let mut case = Case::empty();
    let numbers = case.take_file(src).map_or_else(|refused| refused, |()| case.set(k, n));
    case.output(numbers, true)
}
