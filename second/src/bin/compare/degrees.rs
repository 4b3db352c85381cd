//! What is counted of the two lines of interpolation: generated feeds with an OEM that was accepted with both in a segment or with neither, and
//! those with one that was refused because one of the two stands alone.
//! They are looked for in the bytes, by their look alone, so that the judge's own reading of the order is not asked.

use crate::shown::Shown;
use second::judge::{judge, Answer, Feed, Reason};

/// What a feed can be counted as, in the words of the report.
const NAMES: [&str; 4] = [
    "OEM accepted with both in a segment", "OEM accepted with neither in a segment", "OEM refused at a degree without INTERPOLATION",
    "OEM refused at META_STOP without a degree",
];

const BOTH: usize = 0;
const NEITHER: usize = 1;
const DEGREE_ALONE: usize = 2;
const METHOD_ALONE: usize = 3;

/// How many feeds were counted as each.
pub type Degrees = Shown<{ NAMES.len() }>;

pub fn degrees() -> Degrees {
    Shown::new("generated feeds by INTERPOLATION and its degree", "degrees", NAMES)
}

/// What a message shows by the answer that it got.
pub fn things(bytes: &[u8], feed: &Feed, message: u64, answer: &Answer) -> Vec<usize> {
    match answer {
        Answer::Accepted(_) => accepted(&looks(feed, message)),
        Answer::Refused { reason: Reason::Order, line } => refused(bytes, feed, message, *line).into_iter().collect(),
        _ => Vec::new(),
    }
}

/// What a line looks like.
#[derive(Clone, Copy, Debug, PartialEq, Eq)]
enum Look {
    Start,
    Stop,
    Method,
    Degree,
    Other,
}

fn look(line: &[u8]) -> Look {
    let line = String::from_utf8_lossy(line);
    match line.split_once('=').map_or((line.trim(), false), |(word, _)| (word.trim(), true)) {
        ("META_START", false) => Look::Start,
        ("META_STOP", false) => Look::Stop,
        ("INTERPOLATION", true) => Look::Method,
        ("INTERPOLATION_DEGREE", true) => Look::Degree,
        _ => Look::Other,
    }
}

/// What each line of a message looks like.
fn looks(feed: &Feed, message: u64) -> Vec<Look> {
    feed.lines(message).map(look).collect()
}

/// What the segments of an accepted message have; an OPM has none.
fn accepted(looks: &[Look]) -> Vec<usize> {
    let segments = looks.split(|look| *look == Look::Start).skip(1);
    let thing = |segment: &[Look]| match [Look::Method, Look::Degree].map(|look| segment.contains(&look)) {
        [true, true] => Some(BOTH),
        [false, false] => Some(NEITHER),
        _ => None,
    };
    segments.filter_map(thing).collect()
}

/// Which of the two lines stands alone, if the blamed line is blamed for that: with the other one put before it, nothing up to it is out of order.
fn refused(bytes: &[u8], feed: &Feed, message: u64, line: usize) -> Option<usize> {
    let looks = looks(feed, message);
    let (blamed, before) = looks[..line].split_last()?;
    let block = before.rsplit(|look| *look == Look::Start).next()?;
    let has = |look: Look| block.contains(&look);
    let (thing, missing): (usize, &[u8]) = match blamed {
        Look::Degree if !has(Look::Method) => (DEGREE_ALONE, b"INTERPOLATION=x\n"),
        Look::Stop if has(Look::Method) && !has(Look::Degree) => (METHOD_ALONE, b"INTERPOLATION_DEGREE=1\n"),
        _ => return None,
    };
    let place = feed.place(message, line)?;
    let mended = [&bytes[place.message_start..place.line_start], missing, &bytes[place.line_start..place.line_end]].concat();
    let is_mended = !matches!(judge(&mended, 1), Answer::Refused { reason: Reason::Order, .. });
    is_mended.then_some(thing)
}

#[cfg(test)]
mod tests {
    use super::*;
    use crate::shown;

    const HEAD: &str = "CCSDS_OEM_VERS=1.0\nCREATION_DATE=2000-001T00:00:00\nORIGINATOR=A\n";
    const BLOCK: &str = "META_START\nOBJECT_NAME=B\nOBJECT_ID=C\nCENTER_NAME=D\nREF_FRAME=E\nTIME_SYSTEM=UTC\n\
        START_TIME=2000-001T00:00:00\nSTOP_TIME=2000-009T00:00:00\n";
    const DATA: &str = "2000-01-01T00:00:00 1 2 3 4 5 6\n";
    const METHOD: &str = "INTERPOLATION=x\n";
    const DEGREE: &str = "INTERPOLATION_DEGREE=7\n";

    fn counted(feed: &str) -> [usize; 4] {
        shown::counted(degrees(), feed, things)
    }

    /// A segment with these lines at the end of its block.
    fn segment(lines: &str) -> String {
        format!("{BLOCK}{lines}META_STOP\n{DATA}")
    }

    /// What an OEM is counted as whose segments have these lines at the ends of their blocks.
    fn oem(segments: &[&str]) -> [usize; 4] {
        counted(&format!("{HEAD}{}", segments.iter().map(|lines| segment(lines)).collect::<String>()))
    }

    #[test]
    fn lines_are_known_by_their_look() {
        assert_eq!(look(b"  META_START "), Look::Start);
        assert_eq!(look(b"META_STOP"), Look::Stop);
        assert_eq!(look(b" INTERPOLATION = x = y"), Look::Method);
        assert_eq!(look(b"INTERPOLATION_DEGREE  ="), Look::Degree);
        for other in ["", "META_STOP=", "META_STOP x", "INTERPOLATION", "INTERPOLATION x=", "COMMENT INTERPOLATION = x", "interpolation=x"]
        {
            assert_eq!(look(other.as_bytes()), Look::Other, "{other}");
        }
    }

    #[test]
    fn an_accepted_message_is_counted_by_its_segments() {
        let both = format!("{METHOD}{DEGREE}");
        assert_eq!(oem(&[""]), [0, 1, 0, 0]);
        assert_eq!(oem(&[&both]), [1, 0, 0, 0]);
        assert_eq!(oem(&[&format!("\n INTERPOLATION = x\nCOMMENT\n{DEGREE}")]), [1, 0, 0, 0]);
        assert_eq!(oem(&["COMMENT INTERPOLATION = x\nCOMMENT INTERPOLATION_DEGREE = 7\n"]), [0, 1, 0, 0]);
        assert_eq!(oem(&["", &both]), [1, 1, 0, 0]);
        assert_eq!(oem(&[&both, &both]), [1, 0, 0, 0]);
        let opm = "CCSDS_OPM_VERS=1.0\nCREATION_DATE=2000-001T00:00:00\nORIGINATOR=A\nOBJECT_NAME=B\nOBJECT_ID=C\nCENTER_NAME=D\nREF_FRAME=E\n\
            TIME_SYSTEM=UTC\nEPOCH=2000-001T00:00:00\nX=1\nY=2\nZ=3\nX_DOT=4\nY_DOT=5\nZ_DOT=6\nMASS=7\nSOLAR_RAD_AREA=8\nSOLAR_RAD_COEFF=9\n\
            DRAG_AREA=10\nDRAG_COEFF=11\n";
        assert_eq!(counted(opm), [0; 4]);
    }

    #[test]
    fn a_refused_message_is_counted_by_the_line_that_stands_alone() {
        let both = format!("{METHOD}{DEGREE}");
        for before in [&[][..], &[""], &[&both], &["", &both]] {
            let after = |lines: &str| oem(&[before, &[lines]].concat());
            assert_eq!(after(DEGREE), [0, 0, 1, 0]);
            assert_eq!(after("INTERPOLATION_DEGREE=x\n"), [0, 0, 1, 0]);
            assert_eq!(after(&format!("COMMENT INTERPOLATION=x\n\n{DEGREE}")), [0, 0, 1, 0]);
            assert_eq!(after(&format!("{DEGREE}{METHOD}")), [0, 0, 1, 0]);
            assert_eq!(after(METHOD), [0, 0, 0, 1]);
            assert_eq!(after(&format!("{METHOD}COMMENT INTERPOLATION_DEGREE=7\n \n")), [0, 0, 0, 1]);
            // Out of order, but neither stands alone, or nothing that is missing would help.
            assert_eq!(after(&format!("{METHOD}{METHOD}")), [0; 4]);
            assert_eq!(after(&format!("{both}{DEGREE}")), [0; 4]);
            assert_eq!(after(&format!("{both}META_STOP\n")), [0; 4]);
            assert_eq!(after(&format!("META_STOP\n{DEGREE}")), [0; 4]);
            assert_eq!(after(&format!("META_STOP\n{DATA}{DEGREE}")), [0; 4]);
            assert_eq!(after(&format!("{METHOD}{DATA}")), [0; 4]);
            assert_eq!(after(&format!("{METHOD}META_START\n")), [0; 4]);
            // Refused for another reason.
            assert_eq!(after("INTERPOLATION=\n"), [0; 4]);
            assert_eq!(after(&format!("{METHOD}INTERPOLATION_DEGREE=x\n")), [0; 4]);
            assert_eq!(after(&format!("{METHOD}INTERPOLATION_DEGREE\n")), [0; 4]);
        }
    }

    #[test]
    fn both_lines_out_of_place_are_not_one_alone() {
        let early = |lines: &str| counted(&format!("{HEAD}{}", segment("").replace("STOP_TIME", &format!("{lines}STOP_TIME"))));
        assert_eq!(early(DEGREE), [0; 4]);
        assert_eq!(early(METHOD), [0; 4]);
        assert_eq!(counted(&format!("{HEAD}{}", segment("").replace("STOP_TIME=2000-009T00:00:00\n", ""))), [0; 4]);
        assert_eq!(counted(&format!("{HEAD}{DEGREE}")), [0; 4]);
        assert_eq!(counted(&format!("{HEAD}{BLOCK}{METHOD}")), [0; 4]);
    }

    #[test]
    fn a_feed_is_counted_once() {
        let [alone, other] = [DEGREE, METHOD].map(|line| format!("{HEAD}{}", segment(line)));
        let right = format!("{HEAD}{}", segment(""));
        assert_eq!(counted(&alone.repeat(3)), [0, 0, 1, 0]);
        assert_eq!(counted(&format!("{alone}{right}{other}{right}{other}")), [0, 1, 1, 1]);
    }

    #[test]
    fn generated_feeds_bring_each_often_enough() {
        let seed = 1;
        let mut degrees = degrees();
        shown::each_generated(seed, 2_000, |bytes, feed, messages, answers| degrees.add_feed(bytes, feed, messages, answers, things));
        println!("seed {seed}: {}", degrees.words());
        // A tenth of the feeds of a whole run, and twice the floor, so that a run has some to spare.
        assert_eq!(degrees.rare(20), Vec::<String>::new());
    }
}
