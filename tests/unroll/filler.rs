//! Filling in the marks by document 02, item 6: each sentence at each place as it is at every moment of the place, by unrolling the run. It shares
//! nothing with the proved code. To test the tests, one mistake can be planted in it.
use crate::checker::*;
use crate::library::Answer;
use crate::mistakes::Lapse::{self, *};
use crate::mistakes::Mistake;
use crate::reader::*;
use crate::writer;

/// A sentence by place: whether it is false at one of its moments, and whether it is true at one.
type Row = Vec<[bool; 2]>;

/// What filling tells, and the case after it; `steps` of unrolling are allowed.
pub fn fill(held: &Held, lapse: Lapse, steps: u64) -> Result<(Answer, Case), TooLong> {
    let case = &held.case;
    let told = held.refused.map_or_else(|| old_marks_refused(case, lapse, steps), |refused| Ok(Some(refused)))?;
    let run = match told.map_or_else(|| run_of(case, planted(lapse), steps), |answer| Ok(Err(answer)))? {
        Err([33, ..]) if lapse == GuardsIgnored || lapse == GuardsLate && changes(case, steps)? => Run::new(case, Mistake::Nothing, steps)?,
        Err(answer) => return Ok((answer, case.clone())),
        Ok(run) => run,
    };
    let rows = rows(case, &run, lapse)?;
    let filled = marked_by(case, &rows, lapse);
    Ok(match changing(case, &rows, lapse) {
        Some((sentence, place)) => ([37, place, sentence], if lapse == RefusedAltered { filled } else { case.clone() }),
        None => ([0, writer::case(&filled).len(), 0], filled),
    })
}

/// The mistakes of refusing old marks, as judging does.
fn old_marks_refused(case: &Case, lapse: Lapse, steps: u64) -> Result<Option<Answer>, TooLong> {
    let wrong = match lapse {
        WrongRefused => 34,
        RootAsked => 35,
        _ => return Ok(None),
    };
    Ok(Some(judge(case, Mistake::Nothing, steps)?).filter(|answer| answer[0] == wrong))
}

/// Whether the truth of a sentence changes between the moments of a place.
fn changes(case: &Case, steps: u64) -> Result<bool, TooLong> {
    let run = Run::new(case, Mistake::Nothing, steps)?;
    Ok(changing(case, &rows(case, &run, Lapse::Nothing)?, Lapse::Nothing).is_some())
}

/// The mistakes that the checker makes in following the run.
fn planted(lapse: Lapse) -> Mistake {
    match lapse {
        FirstRound => Mistake::MarksFirstRound,
        LastRound => Mistake::MarksLastRound,
        EndlessOnce => Mistake::MarksEndlessOnce,
        NextStays => Mistake::NextStays,
        NextLeaves => Mistake::NextLeaves,
        _ => Mistake::Nothing,
    }
}

/// The sentences by place, up to the first that changes: above that one, the first round of the endless loop may not tell the truth in all of
/// them. The mistakes look further.
fn rows(case: &Case, run: &Run, lapse: Lapse) -> Result<Vec<Row>, TooLong> {
    let further = matches!(lapse, PlaceFirst | LargestSentence | ChangesTrue | ChangesFalse | ReachedTold | ReachedOnly);
    let (mut rows, mut truths): (Vec<Row>, Vec<Vec<bool>>) = (Vec::new(), Vec::new());
    for (number, sentence) in case.0[F].iter().enumerate() {
        let truth = run.truth(case, sentence, &truths)?;
        let row = row(case, run, sentence, &truth)?;
        let ends = row.contains(&[true; 2]) && !further;
        rows.push(row);
        if ends {
            break;
        }
        truths.push(if lapse == OldBelow { run.moments.iter().map(|step| case.marked(step.place, number)).collect() } else { truth });
    }
    Ok(rows)
}

/// Where a mark is wrong, the truth is the other one at some moment.
fn row(case: &Case, run: &Run, sentence: &Fields, truth: &[bool]) -> Result<Row, TooLong> {
    let other_than = |marked: bool| run.wrong_places(case, sentence, truth, |_| marked);
    Ok(other_than(true)?.into_iter().zip(other_than(false)?).map(|(is_false, is_true)| [is_false, is_true]).collect())
}

/// The sentence and the place that 37 tells: the smallest sentence that changes, and its smallest place.
fn changing(case: &Case, rows: &[Row], lapse: Lapse) -> Option<(usize, usize)> {
    let reached = reached(case);
    let counts = |sentence: usize| reached[sentence] || !matches!(lapse, ReachedTold | ReachedOnly);
    let places = |sentence: usize| (0..case.0[P].len()).filter(move |&place| rows[sentence][place] == [true; 2]);
    let mut all = (0..rows.len()).filter(|&sentence| counts(sentence)).flat_map(|sentence| places(sentence).map(move |place| (sentence, place)));
    match lapse {
        ChangesTrue | ChangesFalse => None,
        PlaceFirst => all.min_by_key(|&(sentence, place)| (place, sentence)),
        LargestSentence => all.max_by_key(|&(sentence, place)| (sentence, usize::MAX - place)),
        LargestPlace => all.next().and_then(|(sentence, _)| places(sentence).last().map(|place| (sentence, place))),
        Swapped => all.next().map(|(sentence, place)| (place, sentence)),
        _ => all.next(),
    }
}

/// Which sentences the root reaches: itself, and those that one of these names.
pub fn reached(case: &Case) -> Vec<bool> {
    let mut reached = vec![false; case.0[F].len()];
    reached.iter_mut().last().into_iter().for_each(|root| *root = true);
    for sentence in (0..reached.len()).rev() {
        if reached[sentence] {
            named(&case.0[F][sentence]).for_each(|below| reached[below] = true);
        }
    }
    reached
}

/// The sentences that one names.
fn named(sentence: &Fields) -> impl Iterator<Item = usize> + '_ {
    let fields: &[usize] = match sentence[1] {
        Some(0..=2) => &[],
        Some(4 | 5) => &[2],
        Some(3) => &[2, 3],
        _ => &[2, 3, 6, 8],
    };
    fields.iter().filter_map(|&field| sentence[field].map(|number| number as usize))
}

/// The case with the marks of the rows in the place of its own.
fn marked_by(case: &Case, rows: &[Row], lapse: Lapse) -> Case {
    let (mut filled, reached) = (case.clone(), reached(case));
    let (count, root) = (case.0[P].len(), case.0[F].len() - 1);
    for place in 0..count {
        let from = match lapse {
            PlaceBefore => place.saturating_sub(1),
            PlaceAfter => (place + 1).min(count - 1),
            _ => place,
        };
        let is_marked = |sentence: usize| match lapse {
            ChangesFalse => !rows[sentence][from][0],
            ReachedOnly => reached[sentence] && rows[sentence][from][1],
            OldKept => rows[sentence][from][1] || case.marked(place, sentence),
            RootLeft if sentence == root => case.marked(place, sentence),
            _ => rows[sentence][from][1],
        };
        let marks: i64 = (0..rows.len()).map(|sentence| (is_marked(sentence) as i64) << sentence).sum();
        let above = if lapse == BitAbove { 1 << rows.len() } else { 0 };
        filled.0[P][place][3] = Some(marks | above);
    }
    filled
}

/// What the word puts out: the line, and behind it the file where it is filled; with the mistakes in that.
pub fn output(&(answer, ref case): &(Answer, Case), lapse: Lapse) -> Vec<u8> {
    let file = if answer[0] == 0 || lapse == RefusedGiven { writer::case(case) } else { Vec::new() };
    let mut numbers = answer;
    match lapse {
        RecordsTold if answer[0] == 0 => numbers[1] /= LENGTH,
        LineCounted if answer[0] == 0 => numbers[1] += line(answer).len(),
        LineLost if answer[0] == 0 => return file,
        _ => {}
    }
    [line(numbers), file].concat()
}

/// The bytes of a line.
pub fn line([result, second, third]: Answer) -> Vec<u8> {
    format!("{result} {second} {third}\n").into_bytes()
}
