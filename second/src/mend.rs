//! Holds what is said of a message against the words of request (vii), without the explainer: by the look of the blamed line about the offending
//! bytes, by what becomes of the message when they are mended, and by a made line of every code that counts, put in the blamed line's place.
//! Only the judge is asked, and only for the reason and the line of whole messages.

use crate::judge::{coded, is_heading, judge, Answer, Explained, Feed, Kind, Place, Reason};

/// What was said of a message of a feed.
pub struct Said<'f> {
    pub bytes: &'f [u8],
    pub feed: &'f Feed<'f>,
    pub message: u64,
    pub explained: Explained,
}

/// A blamed line, in the three parts that the offending bytes make of it, and what stands before it in its message.
struct Blamed<'f> {
    earlier: &'f [u8],
    before: &'f [u8],
    offending: &'f [u8],
    after: &'f [u8],
    reason: Reason,
    line: usize,
}

/// Right values of every kind.
const RIGHT: [&str; 3] = ["1.0", "1", "2000-001T00:00:00"];

impl Said<'_> {
    /// Why this must not be said, in plain words; the codes are looked at by themselves.
    pub fn fault(&self) -> Option<&'static str> {
        let only = |due: Explained, words| (self.explained != due).then_some(words);
        match self.feed.judge(self.message) {
            Answer::Accepted(rows) => only(Explained::accepted(rows.len()), "it is accepted, and nothing but its rows is due"),
            Answer::Refused { reason, line: 0 } => {
                only(Explained::refused(reason), "no line is to blame, so nothing but the reason is due")
            }
            Answer::Refused { reason, line } => self.line_fault(reason, line),
        }
    }

    fn line_fault(&self, reason: Reason, line: usize) -> Option<&'static str> {
        let said = self.explained;
        if (said.reason, said.rows, said.line) != (reason.number(), 0, line as u32) {
            return Some("reason and line are not those of judging, or rows are not 0");
        }
        if !matches!(reason, Reason::Order | Reason::Short) && (said.count, said.codes) != (0, [0; 4]) {
            return Some("codes are due to ORDER and SHORT alone");
        }
        if reason == Reason::Short {
            return ((said.start as usize, said.length) != (self.end(), 0))
                .then_some("SHORT lies at the message's end, and nothing is there");
        }
        let Some(blamed) = self.blamed(reason, line) else { return Some("the offending bytes are not in the blamed line") };
        if !blamed.looks_right() {
            return Some("the blamed line does not look as if these bytes were the offending ones");
        }
        (!blamed.is_mended()).then_some("with these bytes mended, they are still blamed")
    }

    /// Where the next heading line begins, or the feed's end.
    fn end(&self) -> usize {
        self.feed.place(self.message + 1, 1).map_or(self.bytes.len(), |next| next.line_start)
    }

    fn blamed(&self, reason: Reason, line: usize) -> Option<Blamed<'_>> {
        let Place { message_start, line_start, line_end } = self.feed.place(self.message, line)?;
        let (start, length) = (self.explained.start as usize, self.explained.length as usize);
        let end = start.checked_add(length)?;
        (line_start <= start && end <= line_end).then(|| Blamed {
            earlier: &self.bytes[message_start..line_start],
            before: &self.bytes[line_start..start],
            offending: &self.bytes[start..end],
            after: &self.bytes[end..line_end],
            reason,
            line,
        })
    }

    /// Why these codes must not be listed, in plain words: a made line of each code that counts is put there, and the judge says whether it is ORDER.
    pub fn codes_fault(&self) -> Option<String> {
        let Explained { reason, count, codes, line, .. } = self.explained;
        let is_short = reason == Reason::Short.number();
        if !is_short && reason != Reason::Order.number() {
            return None;
        }
        if self.explained.listed().len() != count as usize || codes[count as usize..].iter().any(|code| *code != 0) {
            return Some("the count is not that of the codes".to_string());
        }
        let heading = self.feed.place(self.message, 1)?;
        let kind = is_heading(&self.bytes[heading.line_start..heading.line_end])?;
        // The made line takes the place of the whole line, since it may be longer than the text about its blanks.
        let end = self.feed.place(self.message, line as usize).map_or(self.end(), |place| place.line_start);
        let front = &self.bytes[heading.message_start..end];
        // A last line without an ending would take the made line as its own.
        let gap: &[u8] = if is_short && !ends_a_line(front) { b"\n" } else { b"" };
        let order = Answer::Refused { reason: Reason::Order, line: line as usize };
        let stands = |code: &u32| judge(&[front, gap, &made_line(kind, *code)].concat(), 1) != order;
        let due: Vec<u32> = codes_of(kind).into_iter().filter(stands).collect();
        (due != self.explained.listed()).then(|| format!("made lines of these codes are not ORDER there: {due:?}"))
    }
}

fn ends_a_line(text: &[u8]) -> bool {
    matches!(text.last(), Some(b'\r' | b'\n'))
}

/// The codes that can begin a line of a type, in code order, the heading and comments left out.
fn codes_of(kind: Kind) -> Vec<u32> {
    match kind {
        Kind::Opm => (2..=35).collect(),
        Kind::Oem => (2..=9).chain(37..=44).collect(),
    }
}

/// A line that begins with a code; its value is wrong, but ORDER comes before that.
fn made_line(kind: Kind, code: u32) -> Vec<u8> {
    match (kind, code) {
        (Kind::Oem, 9) => b"1 2 3 4 5 6 7".to_vec(),
        (_, 37 | 44) => coded(code).name.as_bytes().to_vec(),
        _ => format!("{}=", coded(code).name).into_bytes(),
    }
}

fn is_blank(text: &[u8]) -> bool {
    text.iter().all(|byte| *byte == b' ')
}

/// Whether there is neither a blank in front nor one at the end.
fn is_trimmed(text: &[u8]) -> bool {
    !text.starts_with(b" ") && !text.ends_with(b" ")
}

fn is_printable(byte: &u8) -> bool {
    (b' '..=b'~').contains(byte)
}

/// What stands after the first sign of a text, if it has one.
fn after_sign(text: &[u8]) -> Option<&[u8]> {
    text.iter().position(|byte| *byte == b'=').map(|at| &text[at + 1..])
}

impl Blamed<'_> {
    /// Whether the bytes are those that request (vii) means, by the look of the line alone.
    fn looks_right(&self) -> bool {
        let Blamed { before, offending, after, .. } = *self;
        match self.reason {
            Reason::Long => before.len() == 254 && !offending.is_empty() && after.is_empty(),
            Reason::Byte => before.iter().all(is_printable) && offending.len() == 1 && !is_printable(&offending[0]),
            Reason::Form | Reason::Order => is_blank(before) && is_blank(after) && is_trimmed(offending) && !offending.is_empty(),
            Reason::Keyword => {
                let sign = after.iter().position(|byte| *byte != b' ');
                let is_at_sign = sign.is_some_and(|at| after[at] == b'=' && (at == 0 || !offending.is_empty()));
                is_blank(before) && is_trimmed(offending) && !offending.contains(&b'=') && is_at_sign
            }
            Reason::Value => self.is_value() || self.is_field(),
            Reason::TimeOrder => self.is_value() || (self.is_field() && is_blank(before)),
            Reason::Unit => {
                let number = after_sign(before).filter(|number| number.ends_with(b" "));
                let is_one = number.is_some_and(|number| number.split(|byte| *byte == b' ').filter(|run| !run.is_empty()).count() == 1);
                is_one && is_trimmed(offending) && !offending.is_empty() && is_blank(after)
            }
            Reason::Short | Reason::FeedLong | Reason::NoMessage => false,
        }
    }

    /// The first thing after the first sign, up to the end or, if it has no blank in it, up to a blank; nothing lies just past the sign.
    fn is_value(&self) -> bool {
        let Some(gap) = after_sign(self.before).filter(|gap| is_blank(gap)) else { return false };
        if self.offending.is_empty() {
            return gap.is_empty() && is_blank(self.after);
        }
        let is_whole = is_blank(self.after) || (self.after.starts_with(b" ") && !self.offending.contains(&b' '));
        is_trimmed(self.offending) && is_whole
    }

    /// A whole field of a line without a sign.
    fn is_field(&self) -> bool {
        let has_sign = [self.before, self.offending, self.after].iter().any(|part| part.contains(&b'='));
        let is_cut = (self.before.is_empty() || self.before.ends_with(b" ")) && (self.after.is_empty() || self.after.starts_with(b" "));
        !has_sign && is_cut && !self.offending.is_empty() && !self.offending.contains(&b' ')
    }

    /// The judgement of the message up to this line, with other bytes in place of the offending ones and of those after them.
    fn with(&self, instead: &[u8], after: &[u8]) -> Answer {
        judge(&[self.earlier, self.before, instead, after].concat(), 1)
    }

    fn is_blamed_as(&self, answer: &Answer, reason: Reason) -> bool {
        *answer == Answer::Refused { reason, line: self.line }
    }

    /// Whether the line is no more blamed with its reason when something right stands in place of the offending bytes.
    fn is_mended(&self) -> bool {
        let helps = |instead: &str, after: &[u8]| !self.is_blamed_as(&self.with(instead.as_bytes(), after), self.reason);
        match self.reason {
            Reason::Long | Reason::Unit => helps("", self.after),
            // What stands further right may be as wrong.
            Reason::Byte => helps("x", b""),
            Reason::Value if self.is_field() => self.is_first_wrong_field(),
            Reason::Value => RIGHT.iter().any(|right| helps(right, self.after)),
            Reason::Form | Reason::Order => helps("COMMENT", self.after),
            Reason::Keyword => helps("ORIGINATOR", self.after),
            // No time may be left that could stand there, but no epoch at all is a wrong value, which comes first.
            Reason::TimeOrder => self.is_blamed_as(&self.with(b"?", self.after), Reason::Value),
            Reason::Short | Reason::FeedLong | Reason::NoMessage => false,
        }
    }

    /// Whether all fields up to this one stand once it is mended, with right numbers for those after it, and do not without that.
    fn is_first_wrong_field(&self) -> bool {
        let fields_after = self.after.split(|byte| *byte == b' ').filter(|field| !field.is_empty()).count();
        let after = " 1".repeat(fields_after);
        let is_value = |instead: &[u8]| self.is_blamed_as(&self.with(instead, after.as_bytes()), Reason::Value);
        is_value(self.offending) && RIGHT.iter().any(|right| !is_value(right.as_bytes()))
    }
}

#[cfg(test)]
mod tests {
    use super::*;
    use crate::aims::{aimed, Aimed};
    use crate::dice::Dice;
    use crate::judge::{explain, REASONS};

    fn faults(bytes: &[u8], message: u64, explained: Explained) -> bool {
        let said = Said { bytes, feed: &Feed::new(bytes), message, explained };
        said.fault().is_some() || said.codes_fault().is_some()
    }

    #[test]
    fn what_is_foretold_has_no_fault_and_nothing_near_it_stands() {
        let seed = 97;
        for reason in &REASONS[2..] {
            for turn in 0..60 {
                let Aimed { feed, message, known } = aimed(*reason, &mut Dice::new(seed, turn));
                let is_wrong = |explained| faults(&feed, message, explained);
                assert!(!is_wrong(known), "seed {seed}, {}, turn {turn}", reason.name());
                let near = [
                    Explained { reason: known.reason - 1, ..known },
                    Explained { rows: 1, ..known },
                    Explained { line: known.line + 1, ..known },
                    Explained { start: known.start + 1, ..known },
                    Explained { start: known.start - 1, ..known },
                    Explained { start: known.start + 1, length: known.length.wrapping_sub(1), ..known },
                    Explained { start: known.start - 1, length: known.length + 1, ..known },
                    Explained { length: known.length + 1, ..known },
                    Explained { length: known.length.wrapping_sub(1), ..known },
                    Explained { start: u32::MAX, ..known },
                    Explained { length: u32::MAX, ..known },
                    Explained { count: known.count + 1, ..known },
                    Explained { count: known.count.wrapping_sub(1), ..known },
                    Explained { codes: [9, 9, 9, 9], ..known },
                    Explained { codes: [known.codes[0], known.codes[1], known.codes[2], 1], ..known },
                ];
                for (at, other) in near.into_iter().enumerate() {
                    assert!(is_wrong(other), "seed {seed}, {}, turn {turn}, change {at}: {other:?}", reason.name());
                }
            }
        }
    }

    #[test]
    fn a_code_too_many_or_too_few_is_told() {
        let feed =
            b"CCSDS_OEM_VERS=1.0\nCREATION_DATE=2000-001T00:00:00\nORIGINATOR=A\nMETA_START\nOBJECT_NAME=B\nOBJECT_ID=C\nCENTER_NAME=D\n\
            REF_FRAME=E\nTIME_SYSTEM=UTC\nSTART_TIME=2000-001T00:00:00";
        let explained = explain(feed, 1);
        assert_eq!(explained.listed(), [39, 40, 41]);
        assert!(!faults(feed, 1, explained));
        for codes in [&[39, 40][..], &[39, 41], &[40, 41], &[], &[39, 40, 41, 42], &[39, 40, 41, 44], &[9, 39, 40, 41], &[39, 41, 40]] {
            assert!(faults(feed, 1, explained.with_codes(codes)), "{codes:?}");
        }
    }

    #[test]
    fn refusals_without_a_line_and_acceptances_have_nothing_more() {
        let feed = b"CCSDS_OPM_VERS=1.0\n";
        let none = Explained::refused(Reason::NoMessage);
        let fault = |message, explained| Said { bytes: feed, feed: &Feed::new(feed), message, explained }.fault();
        assert_eq!(fault(0, none), None);
        assert_eq!(fault(2, none), None);
        assert!(fault(1, none).is_some());
        assert!(fault(2, Explained { start: 19, ..none }).is_some());
        assert!(fault(2, Explained::refused(Reason::FeedLong)).is_some());
        assert!(fault(2, Explained::accepted(0)).is_some());
    }
}
