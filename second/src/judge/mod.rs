//! The judgement of document 01, by lists: the feed into lines, a message's lines into facts, the facts into faults.
//! A fault is a line with a reason and the bytes that offend, and the least one is the answer, since the reasons' numbers follow the order of
//! checks.

mod cut;
mod explain;
mod facts;
mod faults;
mod order;
mod rows;
mod shape;
mod sort;
mod words;

pub use cut::{is_heading, Cut};
pub use explain::{Explained, MOST_CODES};
pub use rows::Row;
pub use shape::{is_leap, is_number};
pub use words::{coded, with_code, Wanted, COMMENT};

use facts::Fact;
use faults::End;

/// A feed has at most this many bytes.
pub const FEED_LIMIT: usize = 16_777_215;

/// Why a message is refused, with document 01's number.
#[derive(Clone, Copy, Debug, PartialEq, Eq, PartialOrd, Ord, Hash)]
pub enum Reason {
    FeedLong = 1,
    NoMessage = 2,
    Long = 3,
    Byte = 4,
    Form = 5,
    Keyword = 6,
    Order = 7,
    Value = 8,
    Unit = 9,
    TimeOrder = 10,
    Short = 11,
}

/// Every reason that judging can give, in the order of its number.
pub const REASONS: [Reason; 11] = [
    Reason::FeedLong,
    Reason::NoMessage,
    Reason::Long,
    Reason::Byte,
    Reason::Form,
    Reason::Keyword,
    Reason::Order,
    Reason::Value,
    Reason::Unit,
    Reason::TimeOrder,
    Reason::Short,
];

impl Reason {
    pub fn number(self) -> u32 {
        self as u32
    }

    pub fn of_number(number: u32) -> Option<Reason> {
        REASONS.into_iter().find(|reason| reason.number() == number)
    }

    /// Document 01's own name for it.
    pub fn name(self) -> &'static str {
        match self {
            Reason::FeedLong => "FEED_LONG",
            Reason::NoMessage => "NO_MESSAGE",
            Reason::Long => "LONG",
            Reason::Byte => "BYTE",
            Reason::Form => "FORM",
            Reason::Keyword => "KEYWORD",
            Reason::Order => "ORDER",
            Reason::Value => "VALUE",
            Reason::Unit => "UNIT",
            Reason::TimeOrder => "TIME_ORDER",
            Reason::Short => "SHORT",
        }
    }
}

/// The two message types.
#[derive(Clone, Copy, Debug, PartialEq, Eq)]
pub enum Kind {
    Opm,
    Oem,
}

/// What judging one message says.
#[derive(Clone, Debug, PartialEq, Eq)]
pub enum Answer {
    Accepted(Vec<Row>),
    Refused { reason: Reason, line: usize },
}

/// A feed whose headings have been looked for once, so that many messages can be asked for.
pub struct Feed<'f> {
    too_long: bool,
    whole: Cut<'f>,
    /// Where each heading line begins.
    headings: Vec<(usize, Kind)>,
}

impl<'f> Feed<'f> {
    pub fn new(bytes: &'f [u8]) -> Feed<'f> {
        let too_long = bytes.len() > FEED_LIMIT;
        // A feed that is refused whole is not looked into.
        let whole = Cut { at: 0, text: if too_long { &[] } else { bytes } };
        let headings = cut::lines(whole).filter_map(|line| is_heading(line.text).map(|kind| (line.at, kind))).collect();
        Feed { too_long, whole, headings }
    }

    /// How many headings there are, or FEED_LONG.
    pub fn headings(&self) -> Result<usize, Reason> {
        if self.too_long {
            return Err(Reason::FeedLong);
        }
        Ok(self.headings.len())
    }

    /// The judgement of the message with this number, from 1.
    pub fn judge(&self, message: u64) -> Answer {
        if self.too_long {
            return Answer::Refused { reason: Reason::FeedLong, line: 0 };
        }
        match self.message(message) {
            None => Answer::Refused { reason: Reason::NoMessage, line: 0 },
            Some((kind, text)) => decide(kind, text),
        }
    }

    /// Why the message with this number is refused, if it is.
    pub fn explain(&self, message: u64) -> Explained {
        if self.too_long {
            return Explained::refused(Reason::FeedLong);
        }
        match self.message(message) {
            None => Explained::refused(Reason::NoMessage),
            Some((kind, text)) => explain::explain(kind, text),
        }
    }

    /// Where a line of a message stands; the line's number is from 1.
    pub fn place(&self, message: u64, line: usize) -> Option<Place> {
        let (_, text) = self.message(message)?;
        let line = cut::lines(text).nth(line.checked_sub(1)?)?;
        Some(Place { message_start: text.at, line_start: line.at, line_end: line.at + line.text.len() })
    }

    /// The lines of a message, without their endings; none, if there is no such message.
    pub fn lines(&self, message: u64) -> impl Iterator<Item = &'f [u8]> {
        self.message(message).into_iter().flat_map(|(_, text)| cut::lines(text).map(|line| line.text))
    }

    /// The type and the text of a message, if there is one with this number.
    fn message(&self, message: u64) -> Option<(Kind, Cut<'f>)> {
        let index = usize::try_from(message.checked_sub(1)?).ok()?;
        let &(from, kind) = self.headings.get(index)?;
        let to = self.headings.get(index + 1).map_or(self.whole.text.len(), |next| next.0);
        Some((kind, self.whole.part(from, to)))
    }
}

/// Where a line of a message stands in the feed.
#[derive(Clone, Copy, Debug, PartialEq, Eq)]
pub struct Place {
    pub message_start: usize,
    pub line_start: usize,
    pub line_end: usize,
}

/// The least fault of a message, or its rows.
fn decide(kind: Kind, text: Cut) -> Answer {
    let (facts, end) = hear(kind, text);
    match faults::least(kind, &facts, end) {
        Some(fault) => Answer::Refused { reason: fault.reason, line: fault.line },
        None => Answer::Accepted(rows::rows(&facts)),
    }
}

/// What a message says, and where it ends.
fn hear(kind: Kind, text: Cut<'_>) -> (Vec<Fact<'_>>, End) {
    let (facts, lines) = facts::facts(kind, cut::lines(text));
    (facts, End { line: lines + 1, at: text.at + text.text.len() })
}

/// How many headings a feed has, or FEED_LONG.
pub fn headings(feed: &[u8]) -> Result<usize, Reason> {
    Feed::new(feed).headings()
}

/// Why one message of a feed is refused, if it is.
pub fn explain(feed: &[u8], message: u64) -> Explained {
    Feed::new(feed).explain(message)
}

/// The judgement of one message of a feed.
pub fn judge(feed: &[u8], message: u64) -> Answer {
    Feed::new(feed).judge(message)
}

#[cfg(test)]
mod tests {
    use super::*;

    #[test]
    fn reasons_keep_their_numbers() {
        for (at, reason) in REASONS.into_iter().enumerate() {
            assert_eq!(reason.number() as usize, at + 1);
            assert_eq!(Reason::of_number(reason.number()), Some(reason));
        }
        assert_eq!(Reason::of_number(0), None);
        assert_eq!(Reason::of_number(12), None);
    }

    #[test]
    fn a_message_runs_to_the_next_heading() {
        let feed = Feed::new(b"junk\nCCSDS_OPM_VERS=1.0\n\n CCSDS_OEM_VERS =x\ny");
        assert_eq!(feed.headings(), Ok(2));
        assert_eq!(feed.message(1), Some((Kind::Opm, Cut { at: 5, text: b"CCSDS_OPM_VERS=1.0\n\n" })));
        assert_eq!(feed.message(2), Some((Kind::Oem, Cut { at: 25, text: b" CCSDS_OEM_VERS =x\ny" })));
        assert_eq!(feed.lines(1).collect::<Vec<_>>(), [&b"CCSDS_OPM_VERS=1.0"[..], b""]);
        assert_eq!(feed.lines(3).count(), 0);
        assert_eq!(feed.place(2, 2), Some(Place { message_start: 25, line_start: 44, line_end: 45 }));
        assert_eq!(feed.place(2, 3), None);
        assert!(feed.message(0).is_none() && feed.message(3).is_none() && feed.message(u64::MAX).is_none());
    }

    #[test]
    fn the_limit_is_the_feeds_own() {
        let feed = vec![b' '; FEED_LIMIT + 1];
        assert_eq!(headings(&feed[1..]), Ok(0));
        assert_eq!(headings(&feed), Err(Reason::FeedLong));
        assert_eq!(judge(&feed, 0), Answer::Refused { reason: Reason::FeedLong, line: 0 });
    }
}
