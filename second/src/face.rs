//! Asks the product's C face, which runs as a child process, for its answers.
//!
//! There is a kind of request for each thing that is asked: judging, placing, reading, writing, saying, widening, narrowing, explaining and voicing;
//! and one for a sitting, so that what is lent stays where it is from the first act to the last. Tables, buffers, texts and values go over whole, and
//! so do the tables and the buffer on their way back. A feed goes over once for all that is asked about it in a row, and its padding not at all.
//! `face.c` says byte by byte what a request and its answer are.

use crate::bytes::{Bytes, Padded};
use crate::desk::{Desk, Outcome, Placing, Reading, Ticket};
use crate::judge::{Explained, MOST_CODES};
use crate::preview::Judged;
use crate::say::{Said, Saying};
use crate::send::{Sending, Sent};
use crate::sitting::{Act, Reply, Sat, Sitting};
use crate::voice::{Voiced, Voicing};
use crate::widths::{Moved, Moving, Way};
use std::io::{BufReader, Read, Write};
use std::process::{Child, ChildStdin, ChildStdout, Command, Stdio};
use std::sync::mpsc::{sync_channel, SyncSender};
use std::thread::JoinHandle;

/// The kinds of request.
const JUDGE: u32 = 1;
const PLACE: u32 = 2;
const READ: u32 = 3;
const WRITE: u32 = 4;
const SAY: u32 = 5;
const WIDEN: u32 = 6;
const NARROW: u32 = 7;
const EXPLAIN: u32 = 8;
const SIT: u32 = 9;
const VOICE: u32 = 10;

/// The acts of a sitting.
const TICKET: u32 = 1;
const PREVIEW: u32 = 2;
const PLACING: u32 = 3;

/// The forms of a feed.
const WHOLE: u32 = 1;
const PADDED: u32 = 2;
const AGAIN: u32 = 3;
const OWN: u32 = 4;

/// What the face says of one feed.
#[derive(Clone, Debug, PartialEq, Eq)]
pub struct Told {
    pub reason: u32,
    pub count: u32,
    pub judged: Vec<Judged>,
}

/// What the face says of a placing: the numbers of the C struct, in its order, and the table as it is then.
#[derive(Clone, Debug, PartialEq, Eq)]
pub struct ToldPlacing {
    pub numbers: [u32; 4],
    pub table: Vec<u8>,
}

/// What the face says to each ticket, in the C struct's order, and the table as it is then.
#[derive(Clone, Debug, PartialEq, Eq)]
pub struct ToldRows {
    pub rows: Vec<[u32; 6]>,
    pub table: Vec<u8>,
}

/// What the face says of a moving, and the table that the entries came from as it is then.
#[derive(Clone, Debug, PartialEq, Eq)]
pub struct ToldMove {
    pub from: Vec<u8>,
    pub moved: Moved,
}

/// The child process, with a thread that writes to it so that neither side waits for the other.
pub struct Face {
    child: Child,
    requests: Option<SyncSender<Vec<u8>>>,
    writer: Option<JoinHandle<()>>,
    answers: BufReader<ChildStdout>,
}

impl Face {
    pub fn start(command: &[String]) -> Result<Face, String> {
        let (program, arguments) = command.split_first().ok_or("no command was given for the face")?;
        let mut child = Command::new(program)
            .args(arguments)
            .stdin(Stdio::piped())
            .stdout(Stdio::piped())
            .spawn()
            .map_err(|error| format!("the face could not be started: {program}: {error}"))?;
        let stdin = child.stdin.take().ok_or("the face has no input")?;
        let stdout = child.stdout.take().ok_or("the face has no output")?;
        let (requests, writer) = start_writer(stdin);
        Ok(Face { child, requests: Some(requests), writer: Some(writer), answers: BufReader::with_capacity(1 << 16, stdout) })
    }

    /// Hands a batch of requests to the face; the answers are read later, in the same order.
    pub fn send(&mut self, batch: Vec<u8>) {
        if let Some(requests) = &self.requests {
            // A face that has ended takes nothing; it shows when the answers are read.
            let _ = requests.send(batch);
        }
    }

    /// The next answer, for a request to judge so many messages.
    pub fn next_judged(&mut self, messages: usize) -> Result<Told, String> {
        let [reason, count] = self.numbers()?;
        let judged = (0..messages).map(|_| self.judged()).collect::<Result<_, _>>()?;
        Ok(Told { reason, count, judged })
    }

    fn judged(&mut self) -> Result<Judged, String> {
        let [reason, line, rows] = self.numbers()?;
        Ok(Judged { reason, line, rows })
    }

    /// The next answer, for a request to place.
    pub fn next_placed(&mut self, placing: &Placing) -> Result<ToldPlacing, String> {
        Ok(ToldPlacing { numbers: self.numbers()?, table: self.bytes(placing.table.len())? })
    }

    /// The next answer, for a request to read.
    pub fn next_read(&mut self, reading: &Reading) -> Result<ToldRows, String> {
        let rows = reading.tickets.iter().map(|_| self.numbers()).collect::<Result<_, _>>()?;
        Ok(ToldRows { rows, table: self.bytes(reading.table.len())? })
    }

    /// The next answer, for a request to write.
    pub fn next_sent(&mut self, sending: &Sending) -> Result<Sent, String> {
        let [reason, line, length] = self.numbers()?;
        Ok(Sent { reason, line, length, buffer: self.bytes(sending.buffer.len())? })
    }

    /// The next answer, for a request to say.
    pub fn next_said(&mut self) -> Result<Said, String> {
        let [reason] = self.numbers()?;
        let mut units = [0; 8];
        self.fill(&mut units)?;
        Ok(Said { reason, units: i64::from_le_bytes(units) })
    }

    /// The next answer, for a request to widen or narrow.
    pub fn next_moved(&mut self, moving: &Moving) -> Result<ToldMove, String> {
        let [reason] = self.numbers()?;
        let from = self.bytes(moving.from.len())?;
        Ok(ToldMove { from, moved: Moved { reason, into: self.bytes(moving.into.len())? } })
    }

    /// The next answer, for a request to explain so many messages.
    pub fn next_explained(&mut self, messages: usize) -> Result<Vec<Explained>, String> {
        (0..messages).map(|_| self.explained()).collect()
    }

    fn explained(&mut self) -> Result<Explained, String> {
        let [reason, rows, line, start, length, count] = self.numbers()?;
        let codes = self.numbers::<MOST_CODES>()?;
        Ok(Explained { reason, rows, line, start, length, count, codes })
    }

    /// The next answer, for a request to say a value in words.
    pub fn next_voiced(&mut self, voicing: &Voicing) -> Result<Voiced, String> {
        let [reason, length] = self.numbers()?;
        Ok(Voiced { reason, length, buffer: self.bytes(voicing.buffer.len())? })
    }

    /// The next answer, for a request to sit.
    pub fn next_sat(&mut self, sitting: &Sitting) -> Result<Sat, String> {
        let replies = sitting.acts.iter().map(|act| self.reply(act)).collect::<Result<_, _>>()?;
        Ok(Sat { replies, table: self.bytes(sitting.table.len())? })
    }

    fn reply(&mut self, act: &Act) -> Result<Reply, String> {
        Ok(match act {
            Act::Ticket(_) => Reply::Row(self.numbers()?),
            Act::Preview(_) => Reply::Judged(self.judged()?),
            Act::Place(_) => {
                let [load, count, reason, line] = self.numbers()?;
                Reply::Placed(Outcome { desk: Desk { load, count }, reason, line })
            }
        })
    }

    fn numbers<const N: usize>(&mut self) -> Result<[u32; N], String> {
        let mut numbers = [0; N];
        for number in &mut numbers {
            let mut bytes = [0; 4];
            self.fill(&mut bytes)?;
            *number = u32::from_le_bytes(bytes);
        }
        Ok(numbers)
    }

    fn bytes(&mut self, count: usize) -> Result<Vec<u8>, String> {
        let mut bytes = vec![0; count];
        self.fill(&mut bytes)?;
        Ok(bytes)
    }

    fn fill(&mut self, bytes: &mut [u8]) -> Result<(), String> {
        self.answers.read_exact(bytes).map_err(|_| "the face ended before it had answered".to_string())
    }

    /// Ends the face's input and waits for its end; it must have nothing more to say.
    pub fn finish(&mut self) -> Result<(), String> {
        self.requests = None;
        if let Some(writer) = self.writer.take() {
            writer.join().map_err(|_| "the writing thread failed".to_string())?;
        }
        let mut left = Vec::new();
        self.answers.read_to_end(&mut left).map_err(|error| format!("the face's output could not be read: {error}"))?;
        let status = self.child.wait().map_err(|error| format!("the face's end could not be seen: {error}"))?;
        if !left.is_empty() {
            return Err(format!("the face wrote {} bytes that nobody asked for", left.len()));
        }
        if !status.success() {
            return Err(format!("the face ended badly: {status}"));
        }
        Ok(())
    }
}

/// A face that is given up must not wait for ever; one that has ended is not touched by this.
impl Drop for Face {
    fn drop(&mut self) {
        self.requests = None;
        let _ = self.child.kill();
        let _ = self.child.wait();
    }
}

/// Writes batches to the face until there are no more, or the face has ended.
fn start_writer(mut stdin: ChildStdin) -> (SyncSender<Vec<u8>>, JoinHandle<()>) {
    let (requests, batches) = sync_channel::<Vec<u8>>(2);
    let writer = std::thread::spawn(move || {
        for batch in batches {
            if stdin.write_all(&batch).and_then(|()| stdin.flush()).is_err() {
                break;
            }
        }
    });
    (requests, writer)
}

/// Requests as they are gathered, with the feeds that the face has from before, so that none is sent twice.
/// They are those of one face, from its first request on.
#[derive(Default)]
pub struct Requests {
    bytes: Vec<u8>,
    /// The feed of the request before.
    held: Option<Bytes>,
    /// The last feed of a preview that was not its sitting's own.
    previewed: Option<Bytes>,
}

impl Requests {
    /// How many bytes have been gathered since a batch was taken.
    pub fn size(&self) -> usize {
        self.bytes.len()
    }

    /// What has been gathered, to be handed to the face.
    pub fn take(&mut self) -> Vec<u8> {
        std::mem::take(&mut self.bytes)
    }

    /// Adds a request to count headings and judge messages.
    pub fn add_judge(&mut self, feed: &Bytes, messages: &[u64]) {
        self.add_number(JUDGE);
        self.add_feed(feed);
        self.add_size(messages.len());
        messages.iter().for_each(|message| self.add_message(*message));
    }

    /// Adds a request to place a message.
    pub fn add_place(&mut self, placing: &Placing) {
        self.add_number(PLACE);
        self.add_desk(placing.desk);
        self.add_feed(&placing.feed);
        self.add_message(placing.message);
        self.add_block(&placing.table);
    }

    /// Adds a request to read tickets.
    pub fn add_read(&mut self, reading: &Reading) {
        self.add_number(READ);
        self.add_desk(reading.desk);
        self.add_feed(&reading.feed);
        self.add_block(&reading.table);
        self.add_size(reading.tickets.len());
        reading.tickets.iter().for_each(|ticket| self.add_ticket(*ticket));
    }

    /// Adds a request to sit.
    pub fn add_sit(&mut self, sitting: &Sitting) {
        self.add_number(SIT);
        self.add_desk(sitting.desk);
        self.add_feed(&sitting.feed);
        self.add_block(&sitting.table);
        self.add_size(sitting.acts.len());
        sitting.acts.iter().for_each(|act| self.add_act(&sitting.feed, act));
    }

    fn add_act(&mut self, own: &Bytes, act: &Act) {
        match act {
            Act::Ticket(ticket) => {
                self.add_number(TICKET);
                self.add_ticket(*ticket);
            }
            Act::Preview(message) => {
                self.add_number(PREVIEW);
                self.add_previewed(own, &message.feed);
                self.add_message(message.number);
            }
            Act::Place(message) => {
                self.add_number(PLACING);
                self.add_message(*message);
            }
        }
    }

    /// Adds a request to write a message.
    pub fn add_write(&mut self, sending: &Sending) {
        self.add_number(WRITE);
        self.add_feed(&sending.feed);
        self.add_message(sending.message);
        self.add_block(&sending.buffer);
    }

    /// Adds a request to say a number.
    pub fn add_say(&mut self, saying: &Saying) {
        self.add_number(SAY);
        self.add_block(&saying.text);
        self.add_number(saying.decimals);
    }

    /// Adds a request to widen or narrow a table.
    pub fn add_move(&mut self, moving: &Moving) {
        self.add_number(match moving.way {
            Way::Widen => WIDEN,
            Way::Narrow => NARROW,
        });
        self.add_block(&moving.from);
        self.add_block(&moving.into);
    }

    /// Adds a request to explain messages.
    pub fn add_explain(&mut self, feed: &Bytes, messages: &[u64]) {
        self.add_number(EXPLAIN);
        self.add_feed(feed);
        self.add_size(messages.len());
        messages.iter().for_each(|message| self.add_message(*message));
    }

    /// Adds a request to say a value in words.
    pub fn add_voice(&mut self, voicing: &Voicing) {
        self.add_number(VOICE);
        self.add_number(voicing.code);
        self.add_block(&voicing.value);
        self.add_block(&voicing.buffer);
    }

    fn add_number(&mut self, number: u32) {
        self.bytes.extend_from_slice(&number.to_le_bytes());
    }

    fn add_size(&mut self, size: usize) {
        self.add_number(u32::try_from(size).expect("nothing made here is that long"));
    }

    fn add_message(&mut self, message: u64) {
        self.bytes.extend_from_slice(&message.to_le_bytes());
    }

    fn add_desk(&mut self, desk: Desk) {
        self.add_number(desk.load);
        self.add_number(desk.count);
    }

    fn add_ticket(&mut self, ticket: Ticket) {
        self.add_number(ticket.load);
        self.add_number(ticket.row);
    }

    fn add_block(&mut self, bytes: &[u8]) {
        self.add_size(bytes.len());
        self.bytes.extend_from_slice(bytes);
    }

    /// The feed, or what is enough to know it by.
    fn add_feed(&mut self, feed: &Bytes) {
        if self.held.as_ref().is_some_and(|held| held.is(feed)) {
            return self.add_number(AGAIN);
        }
        self.held = Some(feed.clone());
        self.add_new_feed(feed);
    }

    /// The feed of a preview, which has a room beside that of the sitting's own.
    fn add_previewed(&mut self, own: &Bytes, feed: &Bytes) {
        if feed.is(own) {
            return self.add_number(OWN);
        }
        if self.previewed.as_ref().is_some_and(|held| held.is(feed)) {
            return self.add_number(AGAIN);
        }
        self.previewed = Some(feed.clone());
        self.add_new_feed(feed);
    }

    fn add_new_feed(&mut self, feed: &Bytes) {
        match feed.padding() {
            None => {
                self.add_number(WHOLE);
                self.add_block(feed);
            }
            Some(Padded { front, byte }) => {
                self.add_number(PADDED);
                self.add_size(feed.len());
                self.add_number(byte.into());
                self.add_block(front);
            }
        }
    }
}

#[cfg(test)]
mod tests {
    use super::*;
    use crate::preview::Message;

    #[test]
    fn a_request_to_judge_is_written_low_byte_first() {
        let mut requests = Requests::default();
        requests.add_judge(&b"ab"[..].into(), &[1, 0x0102]);
        let batch = requests.take();
        assert_eq!(batch, [1, 0, 0, 0, 1, 0, 0, 0, 2, 0, 0, 0, b'a', b'b', 2, 0, 0, 0, 1, 0, 0, 0, 0, 0, 0, 0, 2, 1, 0, 0, 0, 0, 0, 0]);
    }

    #[test]
    fn a_request_to_place_is_written_low_byte_first() {
        let mut requests = Requests::default();
        let desk = Desk { load: 0x0304, count: 5 };
        requests.add_place(&Placing { desk, feed: b"ab"[..].into(), message: 0x0607, table: vec![9] });
        let feed = [1, 0, 0, 0, 2, 0, 0, 0, b'a', b'b'];
        let message = [7, 6, 0, 0, 0, 0, 0, 0];
        assert_eq!(requests.take(), [&[2, 0, 0, 0, 4, 3, 0, 0, 5, 0, 0, 0][..], &feed, &message, &[1, 0, 0, 0, 9]].concat());
    }

    #[test]
    fn a_request_to_read_is_written_low_byte_first() {
        let mut requests = Requests::default();
        let tickets = vec![Ticket { load: 0x0102, row: 3 }];
        requests.add_read(&Reading { desk: Desk { load: 4, count: 5 }, feed: b"a"[..].into(), table: Vec::new(), tickets });
        let blocks = [1, 0, 0, 0, 1, 0, 0, 0, b'a', 0, 0, 0, 0];
        assert_eq!(requests.take(), [&[3, 0, 0, 0, 4, 0, 0, 0, 5, 0, 0, 0][..], &blocks, &[1, 0, 0, 0, 2, 1, 0, 0, 3, 0, 0, 0]].concat());
    }

    /// A sitting with a ticket, a preview of this feed and of another, twice, and a placing.
    fn sitting(own: &Bytes, other: &Bytes) -> Sitting {
        let preview = |feed: &Bytes| Act::Preview(Message { feed: feed.clone(), number: 0x0607 });
        let acts = vec![Act::Ticket(Ticket { load: 0x0102, row: 3 }), preview(own), preview(other), preview(other), Act::Place(0x0809)];
        Sitting { desk: Desk { load: 4, count: 5 }, feed: own.clone(), table: vec![9], acts }
    }

    #[test]
    fn a_request_to_sit_is_written_act_by_act() {
        let mut requests = Requests::default();
        let (own, other): (Bytes, Bytes) = (b"ab"[..].into(), b"c"[..].into());
        requests.add_sit(&sitting(&own, &other));
        let head = [9, 0, 0, 0, 4, 0, 0, 0, 5, 0, 0, 0];
        let (feed, table) = ([1, 0, 0, 0, 2, 0, 0, 0, b'a', b'b'], [1, 0, 0, 0, 9, 5, 0, 0, 0]);
        let ticket = [1, 0, 0, 0, 2, 1, 0, 0, 3, 0, 0, 0];
        let number = [7, 6, 0, 0, 0, 0, 0, 0];
        let of_own = [&[2, 0, 0, 0, 4, 0, 0, 0][..], &number].concat();
        let of_other = [&[2, 0, 0, 0, 1, 0, 0, 0, 1, 0, 0, 0, b'c'][..], &number].concat();
        let of_same = [&[2, 0, 0, 0, 3, 0, 0, 0][..], &number].concat();
        let placing = [3, 0, 0, 0, 9, 8, 0, 0, 0, 0, 0, 0];
        assert_eq!(requests.take(), [&head[..], &feed, &table, &ticket, &of_own, &of_other, &of_same, &placing].concat());
        // Each of the two is where it was, whatever came to the other's room.
        requests.add_sit(&sitting(&own, &other));
        let again = [3, 0, 0, 0];
        assert_eq!(requests.take(), [&head[..], &again, &table, &ticket, &of_own, &of_same, &of_same, &placing].concat());
        requests.add_sit(&sitting(&other, &own));
        let (feed, of_own_now) =
            ([1, 0, 0, 0, 1, 0, 0, 0, b'c'], [&[2, 0, 0, 0, 1, 0, 0, 0, 2, 0, 0, 0, b'a', b'b'][..], &number].concat());
        assert_eq!(requests.take(), [&head[..], &feed, &table, &ticket, &of_own, &of_own_now, &of_same, &placing].concat());
    }

    #[test]
    fn what_a_sitting_is_answered_is_read_act_by_act() {
        // This face says what it hears.
        let mut face = Face::start(&["cat".to_string()]).expect("started");
        let numbers: Vec<u32> = (1..=19).map(|at| at * 0x0100_0001).collect();
        face.send(numbers.iter().flat_map(|number| number.to_le_bytes()).chain([7]).collect());
        let told = face.next_sat(&sitting(&b"ab"[..].into(), &b"c"[..].into())).expect("answered");
        let judged = |at: usize| Reply::Judged(Judged { reason: numbers[at], line: numbers[at + 1], rows: numbers[at + 2] });
        let desk = Desk { load: numbers[15], count: numbers[16] };
        let placed = Reply::Placed(Outcome { desk, reason: numbers[17], line: numbers[18] });
        let row = [numbers[0], numbers[1], numbers[2], numbers[3], numbers[4], numbers[5]];
        assert_eq!(told, Sat { replies: vec![Reply::Row(row), judged(6), judged(9), judged(12), placed], table: vec![7] });
        assert_eq!(face.finish(), Ok(()));
    }

    #[test]
    fn a_request_to_write_is_written_low_byte_first() {
        let mut requests = Requests::default();
        requests.add_write(&Sending { feed: b"ab"[..].into(), message: 0x0607, buffer: vec![9, 8] });
        let feed = [1, 0, 0, 0, 2, 0, 0, 0, b'a', b'b'];
        let message = [7, 6, 0, 0, 0, 0, 0, 0];
        assert_eq!(requests.take(), [&[4, 0, 0, 0][..], &feed, &message, &[2, 0, 0, 0, 9, 8]].concat());
    }

    #[test]
    fn a_request_to_say_is_written_low_byte_first() {
        let mut requests = Requests::default();
        requests.add_say(&Saying { text: b"-0.4".to_vec(), decimals: 0x0102_0304 });
        assert_eq!(requests.take(), [&[5, 0, 0, 0, 4, 0, 0, 0][..], b"-0.4", &[4, 3, 2, 1]].concat());
        requests.add_say(&Saying { text: Vec::new(), decimals: 6 });
        assert_eq!(requests.take(), [5, 0, 0, 0, 0, 0, 0, 0, 6, 0, 0, 0]);
    }

    #[test]
    fn a_request_to_move_is_written_source_first() {
        let mut requests = Requests::default();
        requests.add_move(&Moving { way: Way::Widen, from: vec![1, 2], into: vec![3] });
        assert_eq!(requests.take(), [6, 0, 0, 0, 2, 0, 0, 0, 1, 2, 1, 0, 0, 0, 3]);
        requests.add_move(&Moving { way: Way::Narrow, from: Vec::new(), into: vec![3] });
        assert_eq!(requests.take(), [7, 0, 0, 0, 0, 0, 0, 0, 1, 0, 0, 0, 3]);
    }

    #[test]
    fn a_request_to_explain_is_written_low_byte_first() {
        let mut requests = Requests::default();
        requests.add_explain(&b"ab"[..].into(), &[0x0102]);
        assert_eq!(requests.take(), [8, 0, 0, 0, 1, 0, 0, 0, 2, 0, 0, 0, b'a', b'b', 1, 0, 0, 0, 2, 1, 0, 0, 0, 0, 0, 0]);
    }

    #[test]
    fn a_request_to_voice_is_written_value_first() {
        let mut requests = Requests::default();
        requests.add_voice(&Voicing { code: 0x0102_0304, value: b"-1".to_vec(), buffer: vec![9, 8, 7] });
        assert_eq!(requests.take(), [&[10, 0, 0, 0, 4, 3, 2, 1, 2, 0, 0, 0][..], b"-1", &[3, 0, 0, 0, 9, 8, 7]].concat());
        requests.add_voice(&Voicing { code: 45, value: Vec::new(), buffer: Vec::new() });
        assert_eq!(requests.take(), [10, 0, 0, 0, 45, 0, 0, 0, 0, 0, 0, 0, 0, 0, 0, 0]);
    }

    #[test]
    fn what_is_voiced_is_read_with_every_byte_of_the_buffer() {
        // This face says what it hears.
        let mut face = Face::start(&["cat".to_string()]).expect("started");
        face.send(vec![12, 1, 0, 0, 2, 1, 0, 0, b'a', b'b', 200]);
        let told = face.next_voiced(&Voicing { code: 3, value: b"ab".to_vec(), buffer: vec![0; 3] });
        assert_eq!(told, Ok(Voiced { reason: 268, length: 258, buffer: vec![b'a', b'b', 200] }));
        assert_eq!(face.finish(), Ok(()));
    }

    #[test]
    fn what_is_explained_is_read_low_byte_first() {
        // This face says what it hears.
        let mut face = Face::start(&["cat".to_string()]).expect("started");
        let numbers: Vec<u32> = (1..=20).map(|at| at * 0x0100_0001).collect();
        face.send(numbers.iter().flat_map(|number| number.to_le_bytes()).collect());
        let told = face.next_explained(2).expect("answered");
        let all: Vec<u32> = told.iter().flat_map(|explained| explained.named().map(|(_, number)| number)).collect();
        assert_eq!(all, numbers);
        assert_eq!(face.finish(), Ok(()));
    }

    #[test]
    fn a_feed_is_sent_once_and_its_padding_not_at_all() {
        let mut requests = Requests::default();
        let padded = Bytes::padded(&b"ab"[..], 0x0203_0405, b'\n');
        requests.add_judge(&padded, &[]);
        let form = [2, 0, 0, 0, 5, 4, 3, 2, 10, 0, 0, 0, 2, 0, 0, 0, b'a', b'b'];
        assert_eq!(requests.take(), [&[1, 0, 0, 0][..], &form, &[0; 4]].concat());
        let again = [1, 0, 0, 0, 3, 0, 0, 0, 0, 0, 0, 0];
        requests.add_judge(&padded.clone(), &[]);
        assert_eq!(requests.size(), 12);
        assert_eq!(requests.take(), again);
        let other: Bytes = b"ab"[..].into();
        requests.add_judge(&other, &[]);
        requests.add_judge(&other, &[]);
        requests.add_judge(&padded, &[]);
        let whole = [1, 0, 0, 0, 1, 0, 0, 0, 2, 0, 0, 0, b'a', b'b', 0, 0, 0, 0];
        assert_eq!(requests.take(), [&whole[..], &again, &[1, 0, 0, 0], &form, &[0; 4]].concat());
    }

    #[test]
    fn what_was_moved_is_read_source_first() {
        // This face says what it hears.
        let mut face = Face::start(&["cat".to_string()]).expect("started");
        face.send(vec![19, 0, 0, 0, 1, 2, 3]);
        let told = face.next_moved(&Moving { way: Way::Narrow, from: vec![0, 0], into: vec![0] });
        assert_eq!(told, Ok(ToldMove { from: vec![1, 2], moved: Moved { reason: 19, into: vec![3] } }));
        assert_eq!(face.finish(), Ok(()));
    }

    #[test]
    fn what_is_said_is_read_low_byte_first() {
        // This face says what it hears.
        let mut face = Face::start(&["cat".to_string()]).expect("started");
        let minus_two = [254, 255, 255, 255, 255, 255, 255, 255];
        face.send([&[18, 1, 0, 0][..], &[2, 1, 0, 0, 0, 0, 0, 64], &[0; 4], &minus_two].concat());
        assert_eq!(face.next_said(), Ok(Said { reason: 274, units: (1 << 62) + 258 }));
        assert_eq!(face.next_said(), Ok(Said { reason: 0, units: -2 }));
        assert_eq!(face.finish(), Ok(()));
    }

    #[test]
    fn a_face_that_cannot_start_is_told() {
        assert!(Face::start(&[]).is_err());
        assert!(Face::start(&["./no-such-program-here".to_string()]).is_err());
    }
}
