//! Holds the second desk against what is known, and the face against the second desk.

use crate::tally::Tally;
use crate::words::{known_by, other_bytes, reason_words};
use second::desk::{as_told, place, read, Desk, Heard, Outcome, Placed, Placing, Reading, Ticket, FINE};
use second::face::{Face, ToldPlacing};

/// Facts about a placing that differs.
pub fn compare_placing(
    placing: &Placing,
    known: &Placed,
    generated: bool,
    face: Option<&mut Face>,
    tally: &mut Tally,
) -> Result<Vec<String>, String> {
    let placed = place(placing);
    tally.answers += 1;
    if generated {
        tally.placings.add(placed.reason);
    }
    let mut facts = other_placed(known_by(generated), known, "the second program", &placed);
    if let Some(face) = face {
        let told = next_placed(face, placing)?;
        facts.extend(other_placed("the second program", &placed, "the product", &told));
    }
    if !facts.is_empty() {
        facts.insert(0, format!("message {} on a desk with {}", placing.message, desk_words(placing.desk)));
    }
    Ok(facts)
}

/// What the face says of a placing.
pub fn next_placed(face: &mut Face, placing: &Placing) -> Result<Placed, String> {
    let ToldPlacing { numbers: [load, count, reason, line], table } = face.next_placed(placing)?;
    Ok(Placed { desk: Desk { load, count }, reason, line, table })
}

/// Facts about two answers to one placing.
pub fn other_placed(one: &str, left: &Placed, other: &str, right: &Placed) -> Vec<String> {
    let mut facts = Vec::new();
    if left.outcome() != right.outcome() {
        facts.push(format!("{one}: {}", placed_words(left)));
        facts.push(format!("{other}: {}", placed_words(right)));
    }
    facts.extend(other_bytes("table", one, &left.table, other, &right.table));
    facts
}

/// Facts about tickets that differ.
pub fn compare_read(
    reading: &Reading,
    known: &[Option<Heard>],
    generated: bool,
    face: Option<&mut Face>,
    tally: &mut Tally,
) -> Result<Vec<String>, String> {
    let heard = read(reading);
    tally.answers += heard.len();
    if generated {
        heard.iter().for_each(|answer| tally.tickets.add(answer.err().unwrap_or(FINE)));
    }
    let mut facts = other_heard(reading, known_by(generated), known, &heard);
    if let Some(face) = face {
        let told = face.next_read(reading)?;
        facts.extend(other_told(reading, &heard, &told.rows));
        facts.extend(other_bytes("table", "before reading", &reading.table, "after it", &told.table));
    }
    if !facts.is_empty() {
        facts.insert(0, format!("tickets on a desk with {}", desk_words(reading.desk)));
    }
    Ok(facts)
}

/// Facts about tickets that hear from the second desk what they must not.
fn other_heard(reading: &Reading, by: &str, known: &[Option<Heard>], heard: &[Heard]) -> Vec<String> {
    let mut facts = Vec::new();
    for ((ticket, known), heard) in reading.tickets.iter().zip(known).zip(heard) {
        if known.is_some_and(|known| known != *heard) {
            facts.push(ticket_words(*ticket));
            facts.extend(known.map(|known| format!("{by}: {}", heard_words(&known))));
            facts.push(format!("the second program: {}", heard_words(heard)));
        }
    }
    facts
}

/// Facts about tickets that hear from the face something else than from the second desk.
fn other_told(reading: &Reading, heard: &[Heard], told: &[[u32; 6]]) -> Vec<String> {
    let mut facts = Vec::new();
    for ((ticket, heard), told) in reading.tickets.iter().zip(heard).zip(told) {
        if *told != as_told(heard) {
            facts.push(ticket_words(*ticket));
            facts.push(format!("the second program: {}", heard_words(heard)));
            facts.push(format!("the product: {}", told_words(told)));
        }
    }
    facts
}

pub fn desk_words(desk: Desk) -> String {
    format!("load {} and count {}", desk.load, desk.count)
}

pub fn ticket_words(ticket: Ticket) -> String {
    format!("ticket of load {} and row {}", ticket.load, ticket.row)
}

pub fn placed_words(placed: &Placed) -> String {
    outcome_words(placed.outcome())
}

pub fn outcome_words(Outcome { desk, reason, line }: Outcome) -> String {
    let after = desk_words(desk);
    match (reason, line) {
        (FINE, 0) => format!("accepted, then {after}"),
        (FINE, line) => format!("accepted, but with line {line}, then {after}"),
        (reason, line) => format!("refused {} at line {line}, then {after}", reason_words(reason)),
    }
}

fn heard_words(heard: &Heard) -> String {
    told_words(&as_told(heard))
}

/// What a ticket heard, in words; numbers that a refusal must not have are told as they stand.
pub fn told_words(told: &[u32; 6]) -> String {
    let [reason, code, group, line, start, length] = told;
    let row = format!("code {code}, group {group}, line {line}, start {start}, length {length}");
    match told {
        [FINE, ..] => row,
        [_, 0, 0, 0, 0, 0] => format!("refused {}", reason_words(*reason)),
        _ => format!("refused {}, but with {row}", reason_words(*reason)),
    }
}
