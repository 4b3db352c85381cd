//! Sends a message back out. It is written from its rows alone, since a row says what its line was and where its value stands: nothing else of
//! the message's bytes is looked at, so nothing else can come along.

use crate::bytes::Bytes;
use crate::desk::{value, FINE, NO_ROOM};
use crate::judge::{coded, judge, Answer, Reason, Row, Wanted};

/// All that goes into a writing.
#[derive(Clone, Debug)]
pub struct Sending {
    pub feed: Bytes,
    pub message: u64,
    pub buffer: Vec<u8>,
}

/// All that comes out of a writing; the length is 0 on a refusal.
#[derive(Clone, Debug, PartialEq, Eq)]
pub struct Sent {
    pub reason: u32,
    pub line: u32,
    pub length: u32,
    pub buffer: Vec<u8>,
}

/// The bytes that go out for a message, or the judge's reason and line.
pub type Outgoing = Result<Vec<u8>, (Reason, usize)>;

/// What a writing comes to.
pub fn send(sending: &Sending) -> Sent {
    lay(&outgoing(&sending.feed, sending.message), &sending.buffer)
}

/// What goes out for a message of a feed.
pub fn outgoing(feed: &[u8], message: u64) -> Outgoing {
    outgoing_as(feed, &judge(feed, message))
}

/// What goes out for a message that has been judged already.
pub fn outgoing_as(feed: &[u8], answer: &Answer) -> Outgoing {
    match answer {
        Answer::Refused { reason, line } => Err((*reason, *line)),
        Answer::Accepted(rows) => Ok(text(feed, rows)),
    }
}

/// The buffer with what goes out laid over its front, or as it was; the room is asked for after all else.
pub fn lay(outgoing: &Outgoing, buffer: &[u8]) -> Sent {
    let kept = |reason, line| Sent { reason, line, length: 0, buffer: buffer.to_vec() };
    match outgoing {
        Err((reason, line)) => kept(reason.number(), small(*line)),
        Ok(text) => match buffer.get(text.len()..) {
            None => kept(NO_ROOM, 0),
            Some(past) => Sent { reason: FINE, line: 0, length: small(text.len()), buffer: [text, past].concat() },
        },
    }
}

fn small(number: usize) -> u32 {
    u32::try_from(number).expect("a feed within its limit has no number over 32 bits")
}

/// The lines that rows come from, parted by LF; a blank line has no row.
fn text(feed: &[u8], rows: &[Row]) -> Vec<u8> {
    let lines = rows.chunk_by(|row, next| row.line == next.line);
    lines.map(|rows| line(feed, rows)).collect::<Vec<_>>().join(&b'\n')
}

/// One line from its rows; only a data line has several.
fn line(feed: &[u8], rows: &[Row]) -> Vec<u8> {
    let values: Vec<&[u8]> = rows.iter().map(|row| value(feed, row).expect("a judged row's value is in its feed")).collect();
    match values[..] {
        [value] => worded(rows[0].code, value),
        _ => values.join(&b' '),
    }
}

/// A line with a keyword. Nothing is assigned to META lines and comments, and only comments have something to say then.
fn worded(code: u32, value: &[u8]) -> Vec<u8> {
    let word = coded(code);
    let sign: &[u8] = match (word.wanted, value) {
        (Wanted::Nothing, []) => b"",
        (Wanted::Nothing, _) => b" ",
        _ => b"=",
    };
    [word.name.as_bytes(), sign, value].concat()
}

#[cfg(test)]
mod tests {
    use super::*;

    /// What goes out for a message of a feed, as text.
    fn out(feed: &str, message: u64) -> String {
        String::from_utf8(outgoing(feed.as_bytes(), message).expect("accepted")).expect("printable bytes and LF")
    }

    /// Document 01's feed in full, all but its last LF.
    const OEM: &str = "CCSDS_OEM_VERS=1.0\nCREATION_DATE=2000-01-01T00:00:00\nORIGINATOR=A\nMETA_START\nOBJECT_NAME=B\nOBJECT_ID=C\n\
        CENTER_NAME=D\nREF_FRAME=E\nTIME_SYSTEM=UTC\nSTART_TIME=2000-001T00:00:00\nSTOP_TIME=2000-001T00:00:00\nMETA_STOP\n\
        2000-01-01T00:00:00 1 2 3 4 5 6";

    const OPM: &str = "CCSDS_OPM_VERS=1.0\nCREATION_DATE=2000-01-01T00:00:00\nORIGINATOR=A\nOBJECT_NAME=B\nOBJECT_ID=C\nCENTER_NAME=D\n\
        REF_FRAME=E\nTIME_SYSTEM=UTC\nEPOCH=2000-01-01T00:00:00\nX=1\nY=2\nZ=3\nX_DOT=4\nY_DOT=5\nZ_DOT=6\nMASS=7\nSOLAR_RAD_AREA=8\n\
        SOLAR_RAD_COEFF=9\nDRAG_AREA=10\nDRAG_COEFF=11";

    #[test]
    fn what_is_tight_already_goes_out_as_it_came() {
        assert_eq!(OEM.len(), 243);
        for text in [OEM, OPM] {
            assert_eq!(out(text, 1), text);
            assert_eq!(out(&format!("{text}\n"), 1), text);
        }
    }

    #[test]
    fn every_ending_becomes_one_lf() {
        for ending in ["\n", "\r", "\r\n", "\n\r", "\n\n", "\r\r", "\r\n\r\n", "\n\r\r\n", "\r  \n", "\n \r \n\r"] {
            for text in [OEM, OPM] {
                assert_eq!(out(&text.replace('\n', ending), 1), text);
                assert_eq!(out(&format!("{}{ending}", text.replace('\n', ending)), 1), text);
            }
        }
    }

    #[test]
    fn an_opm_goes_out_without_units_and_blanks() {
        let loose = "  CCSDS_OPM_VERS   =  1.0  \n\n CREATION_DATE=2016-12-31T23:59:60  \nORIGINATOR =A  B\nCOMMENT\nOBJECT_NAME= =B=\n\
            OBJECT_ID  =  5 [KM]\nCENTER_NAME = D\n   \nREF_FRAME = [E]\nTIME_SYSTEM = UTC\n  COMMENT   x  =  y   \nEPOCH = 2016-366T23:59:60.50\n\
            X = +1.0 [KM]\nY =-2.5E+003    [KM]   \nZ= 003\nX_DOT=4 [KM/S]\nY_DOT=5\nZ_DOT=6 [KM/S]\nSEMI_MAJOR_AXIS = 1 [KM]\nECCENTRICITY = 2\n\
            INCLINATION = 3 [DEG]\nRA_OF_ASC_NODE = 4 [DEG]\nARG_OF_PERICENTER = 5 [DEG]\nMEAN_ANOMALY = 6 [DEG]\nGM = 7 [KM**3/S**2]\n\
            MASS = 7 [KG]\nSOLAR_RAD_AREA = 8 [M**2]\nSOLAR_RAD_COEFF = 9\nDRAG_AREA = 10 [M**2]\nDRAG_COEFF = 11\n\
            MAN_EPOCH_IGNITION = 2000-001T00:00:00.000\nMAN_DURATION = 1 [S]\nMAN_DELTA_MASS = -2 [KG]\nMAN_REF_FRAME = R T N\n\
            MAN_DV_1 = 1 [KM/S]\nMAN_DV_2 = 2 [KM/S]\nMAN_DV_3 = 3 [KM/S]\n COMMENT \n\n";
        let tight = "CCSDS_OPM_VERS=1.0\nCREATION_DATE=2016-12-31T23:59:60\nORIGINATOR=A  B\nCOMMENT\nOBJECT_NAME==B=\nOBJECT_ID=5 [KM]\n\
            CENTER_NAME=D\nREF_FRAME=[E]\nTIME_SYSTEM=UTC\nCOMMENT x  =  y\nEPOCH=2016-366T23:59:60.50\nX=+1.0\nY=-2.5E+003\nZ=003\nX_DOT=4\n\
            Y_DOT=5\nZ_DOT=6\nSEMI_MAJOR_AXIS=1\nECCENTRICITY=2\nINCLINATION=3\nRA_OF_ASC_NODE=4\nARG_OF_PERICENTER=5\nMEAN_ANOMALY=6\nGM=7\n\
            MASS=7\nSOLAR_RAD_AREA=8\nSOLAR_RAD_COEFF=9\nDRAG_AREA=10\nDRAG_COEFF=11\nMAN_EPOCH_IGNITION=2000-001T00:00:00.000\nMAN_DURATION=1\n\
            MAN_DELTA_MASS=-2\nMAN_REF_FRAME=R T N\nMAN_DV_1=1\nMAN_DV_2=2\nMAN_DV_3=3\nCOMMENT";
        assert_eq!(out(loose, 1), tight);
        assert_eq!(out(tight, 1), tight);
    }

    #[test]
    fn an_oem_goes_out_without_blanks_and_blank_lines() {
        let loose = "CCSDS_OEM_VERS = 1.0\r\nCREATION_DATE = 2000-01-01T00:00:00\n\r\r\n ORIGINATOR = A \r   META_START   \nCOMMENT META_STOP\n\
            OBJECT_NAME = B\nOBJECT_ID = C\nCENTER_NAME = D\nREF_FRAME = E\nTIME_SYSTEM = UTC\nSTART_TIME = 2000-001T00:00:00\n\
            USEABLE_START_TIME = 2000-001T00:00:00.0\nUSEABLE_STOP_TIME = 2000-001T23:59:60\nSTOP_TIME = 2000-01-02T00:00:00\n\
            INTERPOLATION = Lagrange\nINTERPOLATION_DEGREE = +007\n META_STOP\n\nCOMMENT 1 2 3 4 5 6\n\
            \x20 2000-01-01T00:00:00   1  2    3 4  5      6  \n\n2000-001T23:59:60.5 1.0 -2.0E-1 +3 4 5 6\nCOMMENT  \nMETA_START \
            \nOBJECT_NAME=B\nOBJECT_ID=C\nCENTER_NAME=D\nREF_FRAME=E\nTIME_SYSTEM=TAI\nSTART_TIME=2000-001T00:00:00\nSTOP_TIME=2000-001T00:00:00\n\
            META_STOP \n2000-01-01T00:00:00 1 2 3 4 5 6 \n  ";
        let tight = "CCSDS_OEM_VERS=1.0\nCREATION_DATE=2000-01-01T00:00:00\nORIGINATOR=A\nMETA_START\nCOMMENT META_STOP\nOBJECT_NAME=B\n\
            OBJECT_ID=C\nCENTER_NAME=D\nREF_FRAME=E\nTIME_SYSTEM=UTC\nSTART_TIME=2000-001T00:00:00\nUSEABLE_START_TIME=2000-001T00:00:00.0\n\
            USEABLE_STOP_TIME=2000-001T23:59:60\nSTOP_TIME=2000-01-02T00:00:00\nINTERPOLATION=Lagrange\nINTERPOLATION_DEGREE=+007\nMETA_STOP\n\
            COMMENT 1 2 3 4 5 6\n2000-01-01T00:00:00 1 2 3 4 5 6\n2000-001T23:59:60.5 1.0 -2.0E-1 +3 4 5 6\nCOMMENT\nMETA_START\n\
            OBJECT_NAME=B\nOBJECT_ID=C\nCENTER_NAME=D\nREF_FRAME=E\nTIME_SYSTEM=TAI\nSTART_TIME=2000-001T00:00:00\nSTOP_TIME=2000-001T00:00:00\n\
            META_STOP\n2000-01-01T00:00:00 1 2 3 4 5 6";
        assert_eq!(out(loose, 1), tight);
        assert_eq!(out(tight, 1), tight);
    }

    #[test]
    fn each_message_goes_out_alone() {
        let feed = format!("junk\nCOMMENT y\n{OEM}\n\nCOMMENT x\r  {OPM}\r\n{OEM}");
        assert_eq!(out(&feed, 1), format!("{OEM}\nCOMMENT x"));
        assert_eq!(out(&feed, 2), OPM);
        assert_eq!(out(&feed, 3), OEM);
        assert_eq!(outgoing(feed.as_bytes(), 0), Err((Reason::NoMessage, 0)));
        assert_eq!(outgoing(feed.as_bytes(), 4), Err((Reason::NoMessage, 0)));
    }

    #[test]
    fn a_refusal_is_the_judges() {
        assert_eq!(outgoing(b"", 1), Err((Reason::NoMessage, 0)));
        assert_eq!(outgoing(&[b'\n'; 65_536], 1), Err((Reason::NoMessage, 0)));
        assert_eq!(outgoing(&vec![b'\n'; 16_777_216], 1), Err((Reason::FeedLong, 0)));
        assert_eq!(outgoing(OPM.replace("X=1", "X=1 [km]").as_bytes(), 1), Err((Reason::Unit, 10)));
        assert_eq!(outgoing(&OEM.as_bytes()[..212], 1), Err((Reason::Short, 13)));
    }

    #[test]
    fn only_what_fits_is_laid() {
        let sent = |reason, line, length, buffer: &[u8]| Sent { reason, line, length, buffer: buffer.to_vec() };
        let text: Outgoing = Ok(b"abc".to_vec());
        assert_eq!(lay(&text, b""), sent(NO_ROOM, 0, 0, b""));
        assert_eq!(lay(&text, b"12"), sent(NO_ROOM, 0, 0, b"12"));
        assert_eq!(lay(&text, b"123"), sent(FINE, 0, 3, b"abc"));
        assert_eq!(lay(&text, b"12345"), sent(FINE, 0, 3, b"abc45"));
        let refused: Outgoing = Err((Reason::Unit, 10));
        assert_eq!(lay(&refused, b""), sent(9, 10, 0, b""));
        assert_eq!(lay(&refused, b"12345"), sent(9, 10, 0, b"12345"));
    }
}
