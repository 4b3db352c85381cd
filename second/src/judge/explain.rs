//! Why a message is refused: its least fault, with the bytes that offend and, where the order is broken or breaks off, the codes that could have
//! stood there. A code is tried: a made-up fact of it takes the place of the blamed one, and the checks of the order say whether they blame it.

use super::cut::Cut;
use super::facts::{Fact, What};
use super::faults::{is_last_out_of_order, least};
use super::order::speaks_of;
use super::rows::rows;
use super::words::{coded, Wanted, COMMENT, DATA_FIELDS, DATA_LINE, META_START, META_STOP};
use super::{hear, Kind, Reason};

/// An answer has room for so many codes.
pub const MOST_CODES: usize = 4;

/// What is said of a message: the numbers of the C struct.
#[derive(Clone, Copy, Debug, Default, PartialEq, Eq)]
pub struct Explained {
    /// 0, if the message is accepted.
    pub reason: u32,
    pub rows: u32,
    pub line: u32,
    /// Where the offending bytes stand in the feed, from 0.
    pub start: u32,
    pub length: u32,
    /// How many codes could have stood there.
    pub count: u32,
    // The same as `MOST_CODES`; with its name a compiler of the day stumbles over closures that take a field of this.
    pub codes: [u32; 4],
}

impl Explained {
    /// A refusal that no line is blamed for.
    pub fn refused(reason: Reason) -> Explained {
        Explained { reason: reason.number(), ..Explained::default() }
    }

    pub fn accepted(rows: usize) -> Explained {
        Explained { rows: small(rows), ..Explained::default() }
    }

    /// The same with these codes.
    pub fn with_codes(self, codes: &[u32]) -> Explained {
        let mut all = [0; MOST_CODES];
        all[..codes.len()].copy_from_slice(codes);
        Explained { count: small(codes.len()), codes: all, ..self }
    }

    /// The codes that are listed, as far as there is room for them.
    pub fn listed(&self) -> &[u32] {
        &self.codes[..MOST_CODES.min(self.count as usize)]
    }

    /// All of it, each number by its name.
    pub fn named(&self) -> [(&'static str, u32); 10] {
        let [first, second, third, fourth] = self.codes;
        [
            ("reason", self.reason),
            ("rows", self.rows),
            ("line", self.line),
            ("start", self.start),
            ("length", self.length),
            ("count", self.count),
            ("code 1", first),
            ("code 2", second),
            ("code 3", third),
            ("code 4", fourth),
        ]
    }
}

fn small(number: usize) -> u32 {
    u32::try_from(number).expect("a feed within its limit has no number over 32 bits")
}

/// What is said of the message of this type with this text.
pub fn explain(kind: Kind, text: Cut) -> Explained {
    let (facts, end) = hear(kind, text);
    let Some(fault) = least(kind, &facts, end) else { return Explained::accepted(rows(&facts).len()) };
    let explained =
        Explained { line: small(fault.line), start: small(fault.start), length: small(fault.length), ..Explained::refused(fault.reason) };
    match fault.reason {
        Reason::Order | Reason::Short => explained.with_codes(&could_stand(kind, facts, fault.line)),
        _ => explained,
    }
}

/// The codes that would not be out of order at this line, in their order.
fn could_stand(kind: Kind, mut facts: Vec<Fact>, line: usize) -> Vec<u32> {
    facts.truncate(facts.partition_point(|fact| fact.line < line));
    let mut stands = |code: u8| {
        facts.push(made_up(code, line));
        let stands = !is_last_out_of_order(kind, &facts);
        facts.pop();
        stands
    };
    let mut codes: Vec<u32> = (0..=COMMENT).filter(|code| counts(kind, *code) && stands(*code)).map(told_as).collect();
    codes.sort_unstable();
    codes
}

/// Whether a line of this type can begin with the code. The grammar speaks of no comment, and a heading would begin another message.
fn counts(kind: Kind, code: u8) -> bool {
    speaks_of(kind, code) && (code == DATA_LINE || coded(code.into()).wanted != Wanted::Version)
}

/// A data line is told as the code of its first field.
fn told_as(code: u8) -> u32 {
    u32::from(if code == DATA_LINE { DATA_FIELDS[0] } else { code })
}

/// What a line with this code says, at the least.
fn made_up<'f>(code: u8, line: usize) -> Fact<'f> {
    let nothing = Cut { at: 0, text: b"" };
    let what = match code {
        DATA_LINE => What::Data([nothing; 7]),
        META_START | META_STOP => What::Mark(code, nothing),
        _ => What::Assigned { word: coded(code.into()), value: nothing, rest: nothing },
    };
    Fact { line, text: nothing, what }
}

#[cfg(test)]
mod tests {
    use super::super::explain;
    use super::*;

    #[test]
    fn each_type_has_its_codes() {
        let all = |kind| (0..=COMMENT).filter(|code| counts(kind, *code)).map(told_as).collect::<Vec<_>>();
        assert_eq!(all(Kind::Opm), (2..=35).collect::<Vec<u32>>());
        assert_eq!(all(Kind::Oem), [9, 2, 3, 4, 5, 6, 7, 8, 37, 38, 39, 40, 41, 42, 43, 44]);
    }

    #[test]
    fn numbers_stand_as_the_struct_has_them() {
        let explained = Explained { line: 3, start: 4, length: 5, ..Explained::refused(Reason::Order) }.with_codes(&[8, 9]);
        let numbers = explained.named().map(|(_, number)| number);
        assert_eq!(numbers, [7, 0, 3, 4, 5, 2, 8, 9, 0, 0]);
        assert_eq!(explained.listed(), [8, 9]);
        assert_eq!(Explained::accepted(19).named().map(|(_, number)| number), [0, 19, 0, 0, 0, 0, 0, 0, 0, 0]);
        assert_eq!(Explained { count: u32::MAX, ..explained }.listed(), [8, 9, 0, 0]);
    }

    #[test]
    fn what_stands_after_the_blamed_line_is_not_asked() {
        let feed = b"CCSDS_OPM_VERS=1.0\n\n ORIGINATOR = A \nCREATION_DATE=x\n\x00\n";
        let wrong = Explained { line: 3, start: 21, length: 14, ..Explained::refused(Reason::Order) };
        assert_eq!(explain(feed, 1), wrong.with_codes(&[2]));
    }
}
