//! Parts of a feed that know where they stand, the cutting of a feed into lines, and the heading test.

use super::Kind;

/// A part of the feed: where it begins, and its bytes.
#[derive(Clone, Copy, Debug, PartialEq, Eq)]
pub struct Cut<'f> {
    pub at: usize,
    pub text: &'f [u8],
}

impl<'f> Cut<'f> {
    /// The bytes from one place to another within this part.
    pub fn part(self, from: usize, to: usize) -> Cut<'f> {
        Cut { at: self.at + from, text: &self.text[from..to] }
    }

    /// Without the blanks at both ends; of blanks alone, nothing is left.
    pub fn trimmed(self) -> Cut<'f> {
        let first = self.text.iter().position(|&b| b != b' ');
        let last = self.text.iter().rposition(|&b| b != b' ');
        match (first, last) {
            (Some(first), Some(last)) => self.part(first, last + 1),
            _ => self.part(0, 0),
        }
    }

    /// What stands before and after the first such byte.
    pub fn parted(self, byte: u8) -> Option<(Cut<'f>, Cut<'f>)> {
        let at = self.text.iter().position(|&b| b == byte)?;
        Some((self.part(0, at), self.part(at + 1, self.text.len())))
    }

    /// The runs of bytes other than blank.
    pub fn fields(self) -> impl Iterator<Item = Cut<'f>> {
        let mut rest = self;
        std::iter::from_fn(move || {
            let (field, after) = rest.first_field()?;
            rest = after;
            Some(field)
        })
    }

    /// The first run of bytes other than blank, and what stands after it.
    pub fn first_field(self) -> Option<(Cut<'f>, Cut<'f>)> {
        let from = self.text.iter().position(|&b| b != b' ')?;
        let to = self.text[from..].iter().position(|&b| b == b' ').map_or(self.text.len(), |run| from + run);
        Some((self.part(from, to), self.part(to, self.text.len())))
    }
}

/// Where the first line of a text ends, and whether its ending takes one byte or two, or none at the text's end.
fn first_ending(text: &[u8]) -> (usize, usize) {
    let Some(at) = text.iter().position(|b| matches!(b, b'\r' | b'\n')) else { return (text.len(), 0) };
    match text[at..] {
        [b'\r', b'\n', ..] | [b'\n', b'\r', ..] => (at, 2),
        _ => (at, 1),
    }
}

/// The lines of a feed, or of a part of it that begins where a line does, without their endings.
/// They are cut one after the other and not kept: a feed of a day may have millions.
pub fn lines(whole: Cut<'_>) -> impl Iterator<Item = Cut<'_>> {
    let mut rest = whole;
    std::iter::from_fn(move || {
        // Text after the last ending is a line if it isn't empty.
        if rest.text.is_empty() {
            return None;
        }
        let (at, size) = first_ending(rest.text);
        let line = rest.part(0, at);
        rest = rest.part(at + size, rest.text.len());
        Some(line)
    })
}

/// Which message type a line begins, if it is a heading line.
pub fn is_heading(text: &[u8]) -> Option<Kind> {
    let begins = |word: &[u8]| match after_blanks(text).strip_prefix(word) {
        Some(rest) => after_blanks(rest).first() == Some(&b'='),
        None => false,
    };
    if begins(b"CCSDS_OPM_VERS") {
        return Some(Kind::Opm);
    }
    if begins(b"CCSDS_OEM_VERS") {
        return Some(Kind::Oem);
    }
    None
}

fn after_blanks(text: &[u8]) -> &[u8] {
    let blanks = text.iter().take_while(|&&b| b == b' ').count();
    &text[blanks..]
}

#[cfg(test)]
mod tests {
    use super::*;

    fn texts(feed: &[u8]) -> Vec<(usize, &[u8])> {
        lines(Cut { at: 0, text: feed }).map(|line| (line.at, line.text)).collect()
    }

    #[test]
    fn no_bytes_no_lines() {
        assert!(texts(b"").is_empty());
    }

    #[test]
    fn each_ending_is_one() {
        for ending in [&b"\n"[..], b"\r", b"\r\n", b"\n\r"] {
            let feed = [b"a", ending, b"b", ending].concat();
            assert_eq!(texts(&feed), [(0, &b"a"[..]), (1 + ending.len(), b"b")]);
        }
    }

    #[test]
    fn pairs_are_read_from_the_left() {
        let count = |text: &[u8]| lines(Cut { at: 0, text }).count();
        assert_eq!(count(b"\n\n"), 2);
        assert_eq!(count(b"\r\r"), 2);
        assert_eq!(count(b"\r\n\r"), 2);
        assert_eq!(count(b"\n\r\n"), 2);
        assert_eq!(count(b"\n\r\r\n"), 2);
        assert_eq!(count(b"\r\r\n"), 2);
        assert_eq!(count(b"\n\n\r"), 2);
        assert_eq!(count(b"\r\r\n\n"), 3);
    }

    #[test]
    fn the_last_text_needs_no_ending() {
        assert_eq!(texts(b"\na"), [(0, &b""[..]), (1, b"a")]);
        assert_eq!(texts(b"a\n "), [(0, &b"a"[..]), (2, b" ")]);
    }

    #[test]
    fn lines_of_a_part_keep_their_place_in_the_feed() {
        let whole = Cut { at: 0, text: b"a\r\nbc\n\rd" };
        let all: Vec<Cut> = lines(whole).collect();
        for from in 0..all.len() {
            let part = whole.part(all[from].at, whole.text.len());
            assert_eq!(lines(part).collect::<Vec<_>>(), all[from..]);
        }
    }

    #[test]
    fn cuts_keep_their_place() {
        let cut = Cut { at: 10, text: b"  a  bc " };
        assert_eq!(cut.trimmed(), Cut { at: 12, text: b"a  bc" });
        assert_eq!(cut.fields().collect::<Vec<_>>(), [Cut { at: 12, text: b"a" }, Cut { at: 15, text: b"bc" }]);
        assert_eq!(cut.first_field(), Some((Cut { at: 12, text: b"a" }, Cut { at: 13, text: b"  bc " })));
        let cut = Cut { at: 10, text: b"a=b=c" };
        assert_eq!(cut.parted(b'='), Some((Cut { at: 10, text: b"a" }, Cut { at: 12, text: b"b=c" })));
        assert_eq!(Cut { at: 3, text: b"   " }.trimmed().text, b"");
        assert_eq!(Cut { at: 3, text: b"   " }.first_field(), None);
        assert_eq!(Cut { at: 3, text: b"abc" }.parted(b'='), None);
    }

    #[test]
    fn headings_by_their_start_alone() {
        assert_eq!(is_heading(b"CCSDS_OPM_VERS="), Some(Kind::Opm));
        assert_eq!(is_heading(b"   CCSDS_OEM_VERS   = \x00"), Some(Kind::Oem));
        assert_eq!(is_heading(&[&[b' '; 400][..], b"CCSDS_OEM_VERS="].concat()), Some(Kind::Oem));
        for text in [
            &b""[..],
            b"CCSDS_OPM_VERS",
            b"CCSDS_OPM_VERSX=",
            b"\tCCSDS_OPM_VERS=",
            b"CCSDS_OPM_VERS\t=",
            b"ccsds_opm_vers=",
            b"CCSDS_OMM_VERS=1.0",
            b"COMMENT CCSDS_OPM_VERS = 1.0",
        ] {
            assert_eq!(is_heading(text), None);
        }
    }
}
