//! Times as ratios: the product's archive against the second program, against a bare scan for line ends, on an ephemeris against a reader in plain C
//! (reader.c) and, where it is built with `--cfg before`, against the archive of an earlier landing, interleaved in one run; its placing against its judging, and its writing against its placing; and how judging,
//! placing and reading grow up to the feed limit. `bench count WAY FEED TIMES` runs one of them alone, for a counter of instructions; `bench memory LENGTH` judges, places and reads one feed and
//! says what memory that took.
#[path = "../second/src/judge/mod.rs"]
#[allow(dead_code, unused_imports)]
mod judge;

use std::cell::RefCell;
use std::hint::black_box;
use std::time::Instant;

#[repr(C)]
struct Judged {
    reason: u32,
    line: u32,
    rows: u32,
}

#[repr(C)]
struct Placed {
    load: u32,
    count: u32,
    reason: u32,
    line: u32,
}

#[repr(C)]
struct Row {
    reason: u32,
    code: u32,
    group: u32,
    line: u32,
    start: u32,
    length: u32,
}

#[repr(C)]
struct Written {
    reason: u32,
    line: u32,
    length: u32,
}

type Judge = unsafe extern "C" fn(*const u8, usize, usize) -> Judged;
type Place = unsafe extern "C" fn(u32, u32, *const u8, usize, usize, *mut u8, usize) -> Placed;

extern "C" {
    fn odm_judge(feed: *const u8, length: usize, message: usize) -> Judged;
    fn odm_place(load: u32, count: u32, feed: *const u8, length: usize, message: usize, table: *mut u8, room: usize) -> Placed;
    fn odm_read(load: u32, count: u32, ticket_load: u32, ticket_row: u32, feed: *const u8, length: usize, table: *const u8, room: usize) -> Row;
    fn odm_write(feed: *const u8, length: usize, message: usize, buffer: *mut u8, room: usize) -> Written;
    fn reader_lines(text: *const u8, length: usize) -> usize;
    #[cfg(before)]
    fn before_odm_judge(feed: *const u8, length: usize, message: usize) -> Judged;
    #[cfg(before)]
    fn before_odm_place(load: u32, count: u32, feed: *const u8, length: usize, message: usize, table: *mut u8, room: usize) -> Placed;
}

fn asked(judge: Judge, feed: &[u8], messages: &[usize]) -> u64 {
    let mut sum = 0;
    for &message in messages {
        let answer = unsafe { judge(feed.as_ptr(), feed.len(), message) };
        sum += u64::from(answer.reason + answer.line + answer.rows);
    }
    sum
}

fn product(feed: &[u8], messages: &[usize]) -> u64 {
    asked(odm_judge, feed, messages)
}

#[cfg(before)]
fn before(feed: &[u8], messages: &[usize]) -> u64 {
    asked(before_odm_judge, feed, messages)
}

/// Asked as the product is asked: a feed and a message number a call, with nothing kept between calls.
fn second(feed: &[u8], messages: &[usize]) -> u64 {
    let mut sum = 0;
    for &message in messages {
        black_box(judge::judge(feed, message as u64));
        sum += 1;
    }
    sum
}

/// The least that any judge must do: look at every byte once for an ending.
fn scan(feed: &[u8], messages: &[usize]) -> u64 {
    let mut endings = 0;
    for _ in messages {
        for &byte in black_box(feed) {
            if byte == 13 || byte == 10 {
                endings += 1;
            }
        }
    }
    endings
}

/// What an engineer would write instead for an ephemeris: `memchr`, an epoch by hand, six `strtod` a line.
fn reader(feed: &[u8], messages: &[usize]) -> u64 {
    let mut lines = 0;
    for _ in messages {
        lines += unsafe { reader_lines(feed.as_ptr(), feed.len()) } as u64;
    }
    assert_ne!(lines, 0); // a refusal would be no measure of anything
    lines
}

thread_local! {
    /// What a table or a buffer is lent from: room for the rows of the feed at hand, and so for its text.
    static LENT: RefCell<Vec<u8>> = const { RefCell::new(Vec::new()) };
}

/// A row's bytes in a table.
const ROW: usize = 20;

/// The table that a feed's longest message needs, with its first message in it.
fn lend(feed: &[u8], messages: &[usize]) {
    let rows = messages.iter().map(|&message| unsafe { odm_judge(feed.as_ptr(), feed.len(), message) }.rows as usize).max().unwrap_or(0);
    LENT.with_borrow_mut(|table| {
        table.clear();
        table.shrink_to_fit();
        table.resize((ROW * rows).max(feed.len()), 0);
        unsafe { odm_place(0, 0, feed.as_ptr(), feed.len(), 1, table.as_mut_ptr(), table.len()) };
    });
}

/// Every row of the first message that was placed.
fn read(feed: &[u8], messages: &[usize]) -> u64 {
    let rows = unsafe { odm_judge(feed.as_ptr(), feed.len(), messages[0]) }.rows;
    read_rows(feed, rows)
}

fn read_rows(feed: &[u8], rows: u32) -> u64 {
    LENT.with_borrow(|table| {
        let heard = (0..rows).map(|row| unsafe { odm_read(1, rows, 1, row, feed.as_ptr(), feed.len(), table.as_ptr(), table.len()) });
        heard.map(|row| right(row.reason, row.code ^ row.group ^ row.line ^ row.start ^ row.length)).fold(0, u64::wrapping_add)
    })
}

fn filled(place: Place, feed: &[u8], messages: &[usize]) -> u64 {
    LENT.with_borrow_mut(|table| {
        let placed = messages.iter().map(|&message| unsafe { place(0, 0, feed.as_ptr(), feed.len(), message, table.as_mut_ptr(), table.len()) });
        placed.map(|answer| right(answer.reason, answer.load + answer.count + answer.line)).sum()
    })
}

fn place(feed: &[u8], messages: &[usize]) -> u64 {
    filled(odm_place, feed, messages)
}

#[cfg(before)]
fn place_before(feed: &[u8], messages: &[usize]) -> u64 {
    filled(before_odm_place, feed, messages)
}

fn write(feed: &[u8], messages: &[usize]) -> u64 {
    LENT.with_borrow_mut(|buffer| {
        let written = messages.iter().map(|&message| unsafe { odm_write(feed.as_ptr(), feed.len(), message, buffer.as_mut_ptr(), feed.len()) });
        written.map(|answer| right(answer.reason, answer.length + answer.line)).sum()
    })
}

/// A refusal would be fast, and no measure of anything.
fn right(reason: u32, sum: u32) -> u64 {
    assert_eq!(reason, 0);
    u64::from(sum)
}

type Way = fn(&[u8], &[usize]) -> u64;

/// The product first: the others' times are what its own is held against.
const WAYS: &[(&str, Way)] = &[
    ("product", product),
    #[cfg(before)]
    ("before", before),
    ("second", second),
    ("scan", scan),
];

/// The way that only an ephemeris can be gone.
const READER: &[(&str, Way)] = &[("reader", reader)];

/// Placing and judging, and where it is built the same of the landing before.
const PLACING: &[(&str, Way)] = &[
    ("place", place),
    ("product", product),
    #[cfg(before)]
    ("place-before", place_before),
    #[cfg(before)]
    ("before", before),
];

/// Writing first, and the placing that it is held against.
const SENDING: &[(&str, Way)] = &[("write", write), ("place", place), ("read", read)];

fn head() -> String {
    "CCSDS_OEM_VERS = 1.0\nCREATION_DATE = 2000-01-01T00:00:00\nORIGINATOR = BENCH\nMETA_START\nOBJECT_NAME = A\nOBJECT_ID = B\nCENTER_NAME = EARTH\nREF_FRAME = ICRF\nTIME_SYSTEM = UTC\nSTART_TIME = 2000-001T00:00:00\nSTOP_TIME = 2000-366T00:00:00\nMETA_STOP\n".to_string()
}

/// An OEM of data lines, as near to a length as whole lines go.
fn ephemeris(length: usize) -> Vec<u8> {
    let mut text = head();
    let mut minute = 0;
    loop {
        let line = format!("2000-{:03}T{:02}:{:02}:00.000 {:.6} {:.6} {:.6} {:.9} {:.9} {:.9}\n", 1 + minute / 1440, minute / 60 % 24, minute % 60, 2789.619 + minute as f64, -280.045, -1746.755, 4.73372, -2.49586, -1.04195);
        if text.len() + line.len() > length {
            return text.into_bytes();
        }
        text.push_str(&line);
        minute += 1;
    }
}

fn state_message() -> String {
    let mut text = "CCSDS_OPM_VERS = 1.0\nCREATION_DATE = 1998-11-06T09:23:57\nORIGINATOR = JAXA\nOBJECT_NAME = GODZILLA 5\nOBJECT_ID = 1998-057A\nCENTER_NAME = EARTH\nREF_FRAME = ITRF-97\nTIME_SYSTEM = UTC\nEPOCH = 1998-12-18T14:28:15.1172\n".to_string();
    for (word, unit) in [("X", "KM"), ("Y", "KM"), ("Z", "KM"), ("X_DOT", "KM/S"), ("Y_DOT", "KM/S"), ("Z_DOT", "KM/S")] {
        text.push_str(&format!("{} = 6503.514000 [{}]\n", word, unit));
    }
    text.push_str("MASS = 3000.000000 [KG]\nSOLAR_RAD_AREA = 18.770000 [M**2]\nSOLAR_RAD_COEFF = 1.000000\nDRAG_AREA = 18.770000 [M**2]\nDRAG_COEFF = 2.500000\n");
    text
}

fn state_messages(length: usize) -> (Vec<u8>, Vec<usize>) {
    let one = state_message();
    let count = length / one.len();
    (one.repeat(count).into_bytes(), (1..=count).collect())
}

/// One OPM of keyword lines alone: a state and its maneuvers, as near to a length as whole sets go.
fn maneuvers(length: usize) -> Vec<u8> {
    let set = "MAN_EPOCH_IGNITION = 2000-06-03T09:00:34.1\nMAN_DURATION = 132.60 [S]\nMAN_DELTA_MASS = -18.418 [KG]\nMAN_REF_FRAME = EME2000\nMAN_DV_1 = -0.02325700 [KM/S]\nMAN_DV_2 = 0.01683160 [KM/S]\nMAN_DV_3 = -0.00893444 [KM/S]\n";
    let mut text = state_message();
    while text.len() + set.len() <= length {
        text.push_str(set);
    }
    text.into_bytes()
}

struct Feed {
    name: &'static str,
    bytes: Vec<u8>,
    messages: Vec<usize>,
    calls: usize,
}

fn feeds() -> Vec<Feed> {
    let whole = ephemeris(65_535);
    let mut damaged = whole.clone();
    let digit = damaged.len() - 2;
    damaged[digit] = b'x';
    let (states, numbers) = state_messages(65_535);
    let last = vec![numbers.len()];
    vec![
        Feed { name: "64 KB ephemeris", bytes: whole, messages: vec![1], calls: 20 },
        Feed { name: "64 KB of state messages, each", bytes: states.clone(), messages: numbers, calls: 1 },
        Feed { name: "a state message alone", bytes: state_message().into_bytes(), messages: vec![1], calls: 2000 },
        Feed { name: "64 KB of keyword lines in one message", bytes: maneuvers(65_535), messages: vec![1], calls: 20 },
        Feed { name: "64 KB ephemeris refused at its last line", bytes: damaged, messages: vec![1], calls: 20 },
        Feed { name: "the last of 64 KB of state messages", bytes: states, messages: last, calls: 20 },
    ]
}

fn median(mut times: Vec<f64>) -> f64 {
    times.sort_by(|a, b| a.partial_cmp(b).unwrap());
    times[times.len() / 2]
}

/// Seconds a call, the median of rounds in which each way takes its turn.
fn measure(feed: &[u8], messages: &[usize], ways: &[Way], rounds: usize, calls: usize) -> Vec<f64> {
    let mut times = vec![Vec::new(); ways.len()];
    for _ in 0..rounds {
        for (at, way) in ways.iter().enumerate() {
            let begun = Instant::now();
            for _ in 0..calls {
                black_box(way(black_box(feed), messages));
            }
            times[at].push(begun.elapsed().as_secs_f64() / calls as f64);
        }
    }
    times.into_iter().map(median).collect()
}

/// How many ways grow: judging, placing, reading every row, and the second program and the scan that judging is held against.
const GROWING: usize = 5;

/// Seconds a byte of each feed in each of these ways, medians of rounds in which each feed takes its turn, so that a machine that slows down slows all alike.
fn growth(feeds: &[Vec<u8>], rounds: usize) -> Vec<Vec<f64>> {
    let mut times = vec![vec![Vec::new(); GROWING]; feeds.len()];
    for _ in 0..rounds {
        for (feed, times) in feeds.iter().zip(&mut times) {
            let calls = 1 + 500_000 / feed.len();
            lend(feed, &[1]);
            let rows = unsafe { odm_judge(feed.as_ptr(), feed.len(), 1) }.rows;
            let mut took = measure(feed, &[1], &[product, place, second, scan], 1, calls);
            let begun = Instant::now();
            (0..calls).for_each(|_| {
                black_box(read_rows(black_box(feed), rows));
            });
            took.insert(2, begun.elapsed().as_secs_f64() / calls as f64);
            times.iter_mut().zip(took).for_each(|(times, took)| times.push(took / feed.len() as f64));
        }
    }
    times.into_iter().map(|ways| ways.into_iter().map(median).collect()).collect()
}

/// From 4 KB to the feed limit, doubling; every time a byte is held against that at 64 KB.
fn say_growth() {
    let feeds: Vec<Vec<u8>> = (0..13).map(|doubling| ephemeris(((4 * 1024) << doubling).min(judge::FEED_LIMIT))).collect();
    let times = growth(&feeds, 7);
    println!("growth from 4 KB to 16 MB, doubling, the time a byte against that at 64 KB; then placing and reading against judging, and judging against the others:");
    for (feed, time) in feeds.iter().zip(&times) {
        let grown = |way: usize| time[way] / times[4][way];
        println!(
            "  {} bytes: judging {:.2}, placing {:.2}, reading {:.2}; placing {:.2}, reading {:.2}; against the second program {:.2}, a bare scan {:.1}",
            feed.len(),
            grown(0),
            grown(1),
            grown(2),
            time[1] / time[0],
            time[2] / time[0],
            time[0] / time[3],
            time[0] / time[4]
        );
    }
}

/// The most memory that this process has had, in KB.
fn peak() -> u64 {
    let status = std::fs::read_to_string("/proc/self/status").unwrap_or_default();
    let line = status.lines().find_map(|line| line.strip_prefix("VmHWM:")).unwrap_or("0 kB");
    line.trim().trim_end_matches(" kB").parse().unwrap_or(0)
}

/// One feed judged, placed and read: what is lent, and the process's peak.
fn memory(length: usize) {
    let feed = ephemeris(length);
    lend(&feed, &[1]);
    black_box(read(&feed, &[1]));
    let table = LENT.with_borrow(Vec::len);
    println!("{} KB of feed and {} KB of table lent; the process's peak is {} KB", feed.len() / 1024, table / 1024, peak());
}

/// The ways of a list, without their names.
fn only_ways(named: &[(&str, Way)]) -> Vec<Way> {
    named.iter().map(|way| way.1).collect()
}

/// Placing against judging, now and in the landing before; a message that is refused is placed nowhere.
fn say_placing() {
    for feed in feeds().iter().filter(|feed| !feed.name.contains("refused")) {
        lend(&feed.bytes, &feed.messages);
        let times = measure(&feed.bytes, &feed.messages, &only_ways(PLACING), 41, feed.calls);
        println!("placing {}: {:.1} microseconds", feed.name, times[0] * 1e6);
        println!("  against judging: {:.2}", times[0] / times[1]);
        if let [now, _, then, judged] = times[..] {
            println!("  in the landing before, against judging: {:.2}", then / judged);
            println!("  against placing in the landing before: {:.2}", now / then);
        }
    }
}

fn times() {
    println!("medians of interleaved rounds; a ratio above 1 means that the product is slower");
    for feed in feeds() {
        let others = if feed.name == "64 KB ephemeris" { READER } else { &[] };
        let ways = [WAYS, others].concat();
        lend(&feed.bytes, &feed.messages);
        let times = measure(&feed.bytes, &feed.messages, &only_ways(&ways), 41, feed.calls);
        println!("{}: {:.1} microseconds", feed.name, times[0] * 1e6);
        for (way, time) in ways.iter().zip(&times).skip(1) {
            let against = match way.0 {
                "before" => "the landing before",
                "second" => "the second program",
                "reader" => "a reader on memchr and strtod",
                _ => "a bare scan for line ends",
            };
            println!("  against {}: {:.2}", against, times[0] / time);
        }
    }
    say_placing();
    let feed = &feeds()[0];
    lend(&feed.bytes, &feed.messages);
    let times = measure(&feed.bytes, &feed.messages, &only_ways(SENDING), 41, feed.calls);
    println!("writing a {}: {:.1} microseconds", feed.name, times[0] * 1e6);
    println!("  against placing it: {:.2}", times[0] / times[1]);
    say_growth();
}

/// One way on one feed, so many times over: what a counter of instructions is run on.
fn count(way: &str, feed: usize, calls: usize) {
    let way = WAYS.iter().chain(PLACING).chain(SENDING).chain(READER).find(|known| known.0 == way).expect("no such way").1;
    let feed = feeds().swap_remove(feed);
    lend(&feed.bytes, &feed.messages);
    for _ in 0..calls {
        black_box(way(black_box(&feed.bytes), &feed.messages));
    }
    println!("{}\t{}", feed.bytes.len(), feed.name);
}

fn main() {
    let words: Vec<String> = std::env::args().skip(1).collect();
    match words.as_slice() {
        [] => times(),
        [word, way, feed, calls] if word == "count" => count(way, feed.parse().unwrap(), calls.parse().unwrap()),
        [word, length] if word == "memory" => memory(length.parse().unwrap()),
        _ => panic!("bench, bench count WAY FEED TIMES or bench memory LENGTH"),
    }
}
