//! The rows of an accepted message.

use super::cut::Cut;
use super::facts::{Fact, What};
use super::words::{COMMENT, DATA_FIELDS, MAN_EPOCH_IGNITION, META_START};

/// One row of the table.
#[derive(Clone, Copy, Debug, PartialEq, Eq)]
pub struct Row {
    pub code: u32,
    pub group: u32,
    pub line: u32,
    pub start: u32,
    pub length: u32,
}

/// The rows in reading order.
pub fn rows(facts: &[Fact]) -> Vec<Row> {
    let mut rows = Vec::new();
    // Sets and segments are whole by now, so a group is the number of openers up to the row, for a comment too.
    let mut openers = 0;
    for fact in facts {
        for (code, value) in coded_values(fact) {
            openers += usize::from(code == MAN_EPOCH_IGNITION || code == META_START);
            rows.push(row(code, openers, fact.line, value));
        }
    }
    rows
}

fn coded_values<'f>(fact: &Fact<'f>) -> Vec<(u8, Cut<'f>)> {
    match &fact.what {
        What::Wrong(..) => Vec::new(),
        What::Comment(value) => vec![(COMMENT, *value)],
        What::Mark(code, past) => vec![(*code, *past)],
        What::Assigned { word, value, .. } => vec![(word.code, *value)],
        What::Data(fields) => DATA_FIELDS.into_iter().zip(*fields).collect(),
    }
}

fn row(code: u8, group: usize, line: usize, value: Cut) -> Row {
    let short = |number: usize| u32::try_from(number).expect("a feed within its limit has no number over 32 bits");
    Row { code: u32::from(code), group: short(group), line: short(line), start: short(value.at), length: short(value.text.len()) }
}
