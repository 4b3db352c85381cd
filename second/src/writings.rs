//! Makes writings of a feed's messages, on buffers of about the length needed, and has some of what goes out placed and written again.
//! A sound message is foretold by the maker's own text, put into the buffer byte after byte, without judge or writer.

use crate::bytes::Bytes;
use crate::desk::{Placing, FINE, FRESH, NO_ROOM};
use crate::dice::Dice;
use crate::judge::{Answer, Feed, Reason};
use crate::send::{outgoing_as, Outgoing, Sending, Sent};
use std::ops::Range;
use std::rc::Rc;

/// A message and what goes out for it, worked out once for all buffers.
pub struct Letter {
    feed: Bytes,
    message: u64,
    rows: usize,
    /// Where the message stands in the feed; nowhere, if it has no such message.
    own: Range<usize>,
    pub outgoing: Outgoing,
}

/// A message to be written into a buffer, and what must come of it, if that is known without judge and writer.
pub struct Writing {
    pub letter: Rc<Letter>,
    pub sending: Sending,
    pub known: Option<Sent>,
}

/// A message's first placing, and what went out for it to be placed and written again.
pub struct Again {
    pub first: Placing,
    pub then: Placing,
    pub sending: Sending,
}

impl Letter {
    pub fn new(feed: &Bytes, lines: &Feed, message: u64) -> Letter {
        let answer = lines.judge(message);
        let rows = if let Answer::Accepted(rows) = &answer { rows.len() } else { 0 };
        let own = lines.place(message, 1).map_or(0..0, |place| {
            let next = lines.place(message + 1, 1);
            place.message_start..next.map_or(feed.len(), |next| next.message_start)
        });
        Letter { feed: feed.clone(), message, rows, own, outgoing: outgoing_as(feed, &answer) }
    }

    /// The bytes from the message's heading up to the next heading or the feed's end.
    pub fn own_bytes(&self) -> &[u8] {
        &self.feed[self.own.clone()]
    }

    /// Whether it goes out into so much room.
    fn fits(&self, size: usize) -> bool {
        self.outgoing.as_ref().is_ok_and(|text| text.len() <= size)
    }

    /// This message into this buffer.
    pub fn into_buffer(self: &Rc<Letter>, buffer: Vec<u8>, known: Option<Sent>) -> Writing {
        let sending = Sending { feed: self.feed.clone(), message: self.message, buffer };
        Writing { letter: self.clone(), sending, known }
    }

    /// Placings with just enough room for the message and for what goes out for it; nothing, if nothing goes out.
    pub fn again(&self, buffer: impl Fn(usize) -> Vec<u8>) -> Option<Again> {
        let out: Bytes = self.outgoing.as_ref().ok()?.as_slice().into();
        let placing = |feed: &Bytes, message| Placing { desk: FRESH, feed: feed.clone(), message, table: vec![0; 20 * self.rows] };
        let sending = Sending { feed: out.clone(), message: 1, buffer: buffer(out.len()) };
        Some(Again { first: placing(&self.feed, self.message), then: placing(&out, 1), sending })
    }
}

/// So many in a hundred messages are written, the first of a feed always.
const WRITTEN: usize = 35;

/// So many in a hundred messages that went out are placed and written again.
const AGAIN: usize = 30;

/// Writings of some of these messages of a feed, and what of them is placed and written again.
/// If the feed is sound, the texts are what its messages must go out as.
pub fn writings(feed: &Bytes, messages: &[u64], texts: Option<&[Vec<u8>]>, dice: &mut Dice) -> (Vec<Writing>, Vec<Again>) {
    let lines = Feed::new(feed);
    let (mut writings, mut agains) = (Vec::new(), Vec::new());
    for (at, message) in messages.iter().enumerate() {
        if at > 0 && !dice.percent(WRITTEN) {
            continue;
        }
        let letter = Rc::new(Letter::new(feed, &lines, *message));
        let count = if letter.outgoing.is_ok() { dice.pick(&[1, 1, 1, 2]) } else { 1 };
        let buffers: Vec<Vec<u8>> = (0..count).map(|_| any_buffer(&letter, dice)).collect();
        // Only where it was written for all to see are its bytes known to be the product's too.
        if buffers.iter().any(|buffer| letter.fits(buffer.len())) && dice.percent(AGAIN) {
            let more = dice.pick(&[0, 0, 1, 9]);
            agains.extend(letter.again(|size| vec![255; size + more]));
        }
        writings.extend(buffers.into_iter().map(|buffer| {
            let known = texts.map(|texts| foretold(texts, *message, &buffer));
            letter.into_buffer(buffer, known)
        }));
    }
    (writings, agains)
}

/// A buffer of about as many bytes as are needed; its bytes are such that no output has, so that a touched one shows.
fn any_buffer(letter: &Letter, dice: &mut Dice) -> Vec<u8> {
    let needed = letter.outgoing.as_ref().map_or_else(|_| dice.below(400), Vec::len);
    let size = match dice.below(16) {
        0 => 0,
        1 => dice.pick(&[1, 2, needed / 4, needed / 2]),
        2 => dice.below(needed),
        3 | 4 => needed.saturating_sub(1),
        5..=8 => needed,
        9 | 10 => needed + 1,
        11 | 12 => needed + dice.below(20),
        13 | 14 if !letter.own.is_empty() => letter.own.len(),
        _ => needed + dice.below(2_000),
    };
    (0..size).map(|_| dice.byte() | 128).collect()
}

/// What must come of a writing from a sound feed whose messages go out as these texts.
fn foretold(texts: &[Vec<u8>], message: u64, buffer: &[u8]) -> Sent {
    let mut sent = Sent { reason: Reason::NoMessage.number(), line: 0, length: 0, buffer: buffer.to_vec() };
    let Some((_, text)) = (1..).zip(texts).find(|(number, _)| *number == message) else { return sent };
    sent.reason = NO_ROOM;
    if text.len() <= buffer.len() {
        sent.reason = FINE;
        sent.length = text.len() as u32;
        text.iter().enumerate().for_each(|(at, byte)| sent.buffer[at] = *byte);
    }
    sent
}

#[cfg(test)]
mod tests {
    use super::*;
    use crate::make::{draft, sent, write};
    use crate::send::send;

    #[test]
    fn the_writer_answers_as_foretold() {
        let seed = 43;
        let mut again = 0;
        for turn in 0..300 {
            let mut dice = Dice::new(seed, turn);
            let draft = draft(&mut dice);
            let feed: Bytes = write(&draft, &mut dice).feed.into();
            let texts: Vec<Vec<u8>> = draft.messages.iter().map(|lines| sent(lines)).collect();
            let messages: Vec<u64> = (0..=texts.len() as u64 + 1).chain([u64::MAX]).collect();
            let (writings, agains) = writings(&feed, &messages, Some(&texts), &mut dice);
            for writing in &writings {
                assert_eq!(Some(send(&writing.sending)), writing.known, "seed {seed}, turn {turn}");
            }
            again += agains.len();
        }
        assert!(again > 50, "seed {seed}: {again} placed again");
    }

    #[test]
    fn a_message_ends_where_the_next_begins() {
        let feed: Bytes = b"junk\nCCSDS_OPM_VERS=1.0\n\n CCSDS_OEM_VERS =x\ny"[..].into();
        let lines = Feed::new(&feed);
        let own = |message| Letter::new(&feed, &lines, message).own_bytes().to_vec();
        assert_eq!(own(1), b"CCSDS_OPM_VERS=1.0\n\n");
        assert_eq!(own(2), b" CCSDS_OEM_VERS =x\ny");
        assert!(own(0).is_empty() && own(3).is_empty() && own(u64::MAX).is_empty());
    }
}
