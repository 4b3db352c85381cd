//! Holds the second judge against what is known, and the face against the second judge.

use crate::degrees;
use crate::items::{Judging, Known};
use crate::sixty;
use crate::tally::Tally;
use second::cases::Want;
use second::desk::FINE;
use second::face::{Face, Told};
use second::judge::{judge, Answer, Feed, Place, Reason, Row};
use second::preview::Judged;

/// Facts about answers that differ.
pub fn compare_judged(asked: &Judging, generated: bool, face: Option<&mut Face>, tally: &mut Tally) -> Result<Vec<String>, String> {
    let feed = Feed::new(&asked.feed);
    let headings = feed.headings();
    let answers: Vec<Answer> = asked.messages.iter().map(|message| feed.judge(*message)).collect();
    tally.feeds += 1;
    tally.answers += 1 + answers.len();
    if generated {
        answers.iter().for_each(|answer| tally.judged.add(Judged::of(answer).reason));
        tally.sixties.add_feed(&asked.feed, &feed, &asked.messages, &answers, sixty::things);
        tally.degrees.add_feed(&asked.feed, &feed, &asked.messages, &answers, degrees::things);
    }
    let mut facts = check_known(asked, headings, &answers);
    facts.extend(asked.messages.iter().zip(&answers).flat_map(|(message, answer)| check_earliest(asked, &feed, *message, answer)));
    if let Some(face) = face {
        let told = face.next_judged(asked.messages.len())?;
        facts.extend(check_told(asked, headings, &answers, &told));
    }
    Ok(facts)
}

/// Facts about what the second judge says otherwise than is known.
fn check_known(asked: &Judging, headings: Result<usize, Reason>, answers: &[Answer]) -> Vec<String> {
    match &asked.known {
        Known::Nothing => Vec::new(),
        Known::Case { headings: expected, want } => check_case(*expected, headings, want, &answers[0]),
        Known::Rows(rows) => check_sound(asked, headings, rows, answers),
    }
}

/// Facts about a fault that isn't the earliest: it must stand when the message ends with its line, and not come before that line.
fn check_earliest(asked: &Judging, feed: &Feed, message: u64, answer: &Answer) -> Vec<String> {
    let Answer::Refused { line, .. } = answer else { return Vec::new() };
    let Some(Place { message_start, line_start, line_end }) = feed.place(message, *line) else { return Vec::new() };
    let mut facts = Vec::new();
    let with = judge(&asked.feed[message_start..line_end], 1);
    if with != *answer {
        facts.push(format!("message {message}, by the second program: {}", answer_words(answer)));
        facts.push(format!("the same, ended after that line: {}", answer_words(&with)));
    }
    let without = judge(&asked.feed[message_start..line_start], 1);
    let unfinished = Answer::Refused { reason: Reason::Short, line: *line };
    if *line > 1 && !matches!(without, Answer::Accepted(_)) && without != unfinished {
        facts.push(format!("message {message}, by the second program: {}", answer_words(answer)));
        facts.push(format!("the same, ended before that line: {}", answer_words(&without)));
    }
    facts
}

fn check_case(expected: Result<usize, Reason>, headings: Result<usize, Reason>, want: &Want, answer: &Answer) -> Vec<String> {
    let mut facts = Vec::new();
    if headings != expected {
        facts.push(format!("written by hand, counting headings: {}", headings_words(expected)));
        facts.push(format!("the second program, counting headings: {}", headings_words(headings)));
    }
    let (stands, expected) = match (want, answer) {
        (Want::Refused(reason, line), _) => {
            (*answer == Answer::Refused { reason: *reason, line: *line }, refused_words(reason.name(), *line))
        }
        (Want::Accepted { rows, shown }, Answer::Accepted(got)) => {
            facts.extend(
                shown
                    .iter()
                    .filter(|(at, row)| got.get(*at) != Some(row))
                    .map(|(at, row)| format!("row {at} is {:?}, written by hand: {row:?}", got.get(*at))),
            );
            (got.len() == *rows, accepted_words(*rows))
        }
        (Want::Accepted { rows, .. }, _) => (false, accepted_words(*rows)),
    };
    if !stands {
        facts.push(format!("written by hand: {expected}"));
        facts.push(format!("the second program: {}", answer_words(answer)));
    }
    facts
}

fn check_sound(asked: &Judging, headings: Result<usize, Reason>, rows: &[Vec<Row>], answers: &[Answer]) -> Vec<String> {
    let mut facts = Vec::new();
    if headings != Ok(rows.len()) {
        facts.push(format!("made with {} headings", rows.len()));
        facts.push(format!("the second program, counting headings: {}", headings_words(headings)));
    }
    for (message, answer) in asked.messages.iter().zip(answers) {
        let made = usize::try_from(*message).ok().and_then(|number| number.checked_sub(1)).and_then(|index| rows.get(index));
        match (made, answer) {
            (Some(made), Answer::Accepted(got)) => facts.extend(first_other_row(*message, made, got)),
            (None, Answer::Refused { reason: Reason::NoMessage, line: 0 }) => {}
            _ => {
                facts.push(format!("message {message} was made {}", if made.is_some() { "sound" } else { "not at all" }));
                facts.push(format!("the second program: {}", answer_words(answer)));
            }
        }
    }
    facts
}

/// The first row that isn't as foretold.
fn first_other_row(message: u64, made: &[Row], got: &[Row]) -> Option<String> {
    let at = (0..made.len().max(got.len())).find(|at| made.get(*at) != got.get(*at))?;
    Some(format!("message {message}, row {at}: foretold {:?}, the second program: {:?}", made.get(at), got.get(at)))
}

/// Facts about what the face says otherwise than the second judge.
fn check_told(asked: &Judging, headings: Result<usize, Reason>, answers: &[Answer], told: &Told) -> Vec<String> {
    let mut facts = Vec::new();
    let (reason, count) = match headings {
        Ok(count) => (FINE, count as u32),
        Err(reason) => (reason.number(), 0),
    };
    if (told.reason, told.count) != (reason, count) {
        facts.push(format!("the second program, counting headings: {}", headings_words(headings)));
        facts.push(format!("the product, counting headings: reason {} and count {}", told.reason, told.count));
    }
    for ((message, answer), judged) in asked.messages.iter().zip(answers).zip(&told.judged) {
        if *judged != Judged::of(answer) {
            facts.push(format!("message asked for: {message}"));
            facts.push(format!("the second program: {}", answer_words(answer)));
            facts.push(format!("the product: {}", judged_words(judged)));
        }
    }
    facts
}

fn headings_words(headings: Result<usize, Reason>) -> String {
    match headings {
        Ok(1) => "1 heading".to_string(),
        Ok(count) => format!("{count} headings"),
        Err(reason) => format!("refused {}", reason.name()),
    }
}

fn accepted_words(rows: usize) -> String {
    format!("accepted with {rows} rows")
}

fn refused_words(reason: &str, line: usize) -> String {
    format!("refused {reason} at line {line}")
}

fn answer_words(answer: &Answer) -> String {
    match answer {
        Answer::Accepted(rows) => accepted_words(rows.len()),
        Answer::Refused { reason, line } => refused_words(reason.name(), *line),
    }
}

/// The face's numbers in words; a mixture that no answer has is told as it stands.
pub fn judged_words(judged: &Judged) -> String {
    match (judged.reason, Reason::of_number(judged.reason)) {
        (FINE, _) if judged.line == 0 => accepted_words(judged.rows as usize),
        (_, Some(reason)) if judged.rows == 0 => refused_words(reason.name(), judged.line as usize),
        _ => format!("reason {}, line {} and rows {}", judged.reason, judged.line, judged.rows),
    }
}
