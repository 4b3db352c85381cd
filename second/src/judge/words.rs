//! Document 01's keywords: the code, the name, and what value is wanted.

use super::shape::{is_epoch, is_integer, is_number, is_text, is_version};

/// What the value of a keyword must be; a number with the unit that may follow it, or none.
#[derive(Clone, Copy, Debug, PartialEq, Eq)]
pub enum Wanted {
    Version,
    Text,
    Integer,
    Number(&'static str),
    Epoch,
    Nothing,
}

impl Wanted {
    /// Whether a value is what is wanted; an epoch may be at second 60 of any day.
    pub fn is_met_by(self, value: &[u8]) -> bool {
        match self {
            Wanted::Version => is_version(value),
            Wanted::Text => is_text(value),
            Wanted::Integer => is_integer(value),
            Wanted::Number(_) => is_number(value),
            Wanted::Epoch => is_epoch(value),
            Wanted::Nothing => false,
        }
    }
}

/// One keyword.
#[derive(Debug, PartialEq, Eq)]
pub struct Word {
    pub code: u8,
    pub name: &'static str,
    pub wanted: Wanted,
}

/// The codes that open a group: a set of an OPM, a segment of an OEM.
pub const MAN_EPOCH_IGNITION: u8 = 29;
pub const META_START: u8 = 37;

/// Codes that the rules name one by one.
pub const CREATION_DATE: u8 = 2;
pub const TIME_SYSTEM: u8 = 8;
pub const META_STOP: u8 = 44;
pub const COMMENT: u8 = 45;
pub const START_TIME: u8 = 38;
pub const STOP_TIME: u8 = 41;

/// The codes of a data line's fields, from the left.
pub const DATA_FIELDS: [u8; 7] = [9, 10, 11, 12, 13, 14, 15];

/// A data line in the order of a message: no keyword has this code.
pub const DATA_LINE: u8 = 0;

const fn word(code: u8, name: &'static str, wanted: Wanted) -> Word {
    Word { code, name, wanted }
}

use Wanted::{Epoch, Integer, Nothing, Number, Text, Version};

pub static WORDS: [Word; 45] = [
    word(1, "CCSDS_OPM_VERS", Version),
    word(2, "CREATION_DATE", Epoch),
    word(3, "ORIGINATOR", Text),
    word(4, "OBJECT_NAME", Text),
    word(5, "OBJECT_ID", Text),
    word(6, "CENTER_NAME", Text),
    word(7, "REF_FRAME", Text),
    word(8, "TIME_SYSTEM", Text),
    word(9, "EPOCH", Epoch),
    word(10, "X", Number("[KM]")),
    word(11, "Y", Number("[KM]")),
    word(12, "Z", Number("[KM]")),
    word(13, "X_DOT", Number("[KM/S]")),
    word(14, "Y_DOT", Number("[KM/S]")),
    word(15, "Z_DOT", Number("[KM/S]")),
    word(16, "SEMI_MAJOR_AXIS", Number("[KM]")),
    word(17, "ECCENTRICITY", Number("")),
    word(18, "INCLINATION", Number("[DEG]")),
    word(19, "RA_OF_ASC_NODE", Number("[DEG]")),
    word(20, "ARG_OF_PERICENTER", Number("[DEG]")),
    word(21, "TRUE_ANOMALY", Number("[DEG]")),
    word(22, "MEAN_ANOMALY", Number("[DEG]")),
    word(23, "GM", Number("[KM**3/S**2]")),
    word(24, "MASS", Number("[KG]")),
    word(25, "SOLAR_RAD_AREA", Number("[M**2]")),
    word(26, "SOLAR_RAD_COEFF", Number("")),
    word(27, "DRAG_AREA", Number("[M**2]")),
    word(28, "DRAG_COEFF", Number("")),
    word(29, "MAN_EPOCH_IGNITION", Epoch),
    word(30, "MAN_DURATION", Number("[S]")),
    word(31, "MAN_DELTA_MASS", Number("[KG]")),
    word(32, "MAN_REF_FRAME", Text),
    word(33, "MAN_DV_1", Number("[KM/S]")),
    word(34, "MAN_DV_2", Number("[KM/S]")),
    word(35, "MAN_DV_3", Number("[KM/S]")),
    word(36, "CCSDS_OEM_VERS", Version),
    word(37, "META_START", Nothing),
    word(38, "START_TIME", Epoch),
    word(39, "USEABLE_START_TIME", Epoch),
    word(40, "USEABLE_STOP_TIME", Epoch),
    word(41, "STOP_TIME", Epoch),
    word(42, "INTERPOLATION", Text),
    word(43, "INTERPOLATION_DEGREE", Integer),
    word(44, "META_STOP", Nothing),
    word(45, "COMMENT", Nothing),
];

/// The keyword of this name, upper case as it stands.
pub fn named(name: &[u8]) -> Option<&'static Word> {
    WORDS.iter().find(|word| word.name.as_bytes() == name)
}

/// The keyword with this code.
pub fn coded(code: u32) -> &'static Word {
    &WORDS[code as usize - 1]
}

/// The keyword with this code, where it may be any number.
pub fn with_code(code: u32) -> Option<&'static Word> {
    WORDS.iter().find(|word| u32::from(word.code) == code)
}

#[cfg(test)]
mod tests {
    use super::*;

    #[test]
    fn codes_count_from_one_and_names_differ() {
        for (at, word) in WORDS.iter().enumerate() {
            assert_eq!(usize::from(word.code), at + 1);
            assert_eq!(named(word.name.as_bytes()), Some(word));
            assert_eq!(coded(word.code.into()), word);
            assert_eq!(with_code(word.code.into()), Some(word));
        }
        [0, 46, 256, 257, 65_537, u32::MAX].iter().for_each(|code| assert_eq!(with_code(*code), None));
    }

    #[test]
    fn codes_named_one_by_one_are_those_of_their_names() {
        let named = [
            (CREATION_DATE, "CREATION_DATE"),
            (TIME_SYSTEM, "TIME_SYSTEM"),
            (MAN_EPOCH_IGNITION, "MAN_EPOCH_IGNITION"),
            (META_START, "META_START"),
            (START_TIME, "START_TIME"),
            (STOP_TIME, "STOP_TIME"),
            (META_STOP, "META_STOP"),
            (COMMENT, "COMMENT"),
        ];
        named.iter().for_each(|(code, name)| assert_eq!(coded((*code).into()).name, *name));
    }

    #[test]
    fn names_are_upper_case_and_whole() {
        assert_eq!(named(b"x"), None);
        assert_eq!(named(b""), None);
        assert_eq!(named(b"X_DO"), None);
        assert_eq!(named(b"X_DOT_"), None);
    }
}
