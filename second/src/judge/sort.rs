//! What a line can be: document 01's tests as a list, and the first that claims the line wins.

use super::cut::Cut;
use super::words::{META_START, META_STOP};
use super::Kind;

/// What a line is, with the parts that matter.
#[derive(Clone, Debug, PartialEq, Eq)]
pub enum Sort<'f> {
    /// With the text past what a line may have.
    Long(Cut<'f>),
    /// With the first byte that may not stand in a line.
    Byte(Cut<'f>),
    Blank,
    Comment(Cut<'f>),
    /// META_START or META_STOP, with the empty part just past the word.
    Mark(u8, Cut<'f>),
    /// An empty keyword lies at the sign, an empty field just past it.
    Assignment {
        keyword: Cut<'f>,
        field: Cut<'f>,
    },
    Data([Cut<'f>; 7]),
    /// With the trimmed line.
    Formless(Cut<'f>),
}

/// A line's text is at most this many bytes.
const TEXT_LIMIT: usize = 254;

/// Document 01's tests in its order; each one claims a line or leaves it to the next.
const TESTS: [fn(Cut<'_>, Kind) -> Option<Sort<'_>>; 7] = [long, byte, blank, comment, mark, assignment, data];

/// What the line is in a message of this type.
pub fn sort(line: Cut<'_>, kind: Kind) -> Sort<'_> {
    TESTS.iter().find_map(|test| test(line, kind)).unwrap_or_else(|| Sort::Formless(line.trimmed()))
}

fn long(line: Cut<'_>, _: Kind) -> Option<Sort<'_>> {
    (line.text.len() > TEXT_LIMIT).then(|| Sort::Long(line.part(TEXT_LIMIT, line.text.len())))
}

fn byte(line: Cut<'_>, _: Kind) -> Option<Sort<'_>> {
    let at = line.text.iter().position(|b| !(32..=126).contains(b))?;
    Some(Sort::Byte(line.part(at, at + 1)))
}

fn blank(line: Cut<'_>, _: Kind) -> Option<Sort<'_>> {
    line.text.iter().all(|&b| b == b' ').then_some(Sort::Blank)
}

fn comment(line: Cut<'_>, _: Kind) -> Option<Sort<'_>> {
    let (word, rest) = line.first_field()?;
    if word.text != b"COMMENT" {
        return None;
    }
    // Of blanks alone `trimmed` keeps the front, which is just past the keyword.
    Some(Sort::Comment(rest.trimmed()))
}

fn mark(line: Cut<'_>, kind: Kind) -> Option<Sort<'_>> {
    let word = line.trimmed();
    let code = match (kind, word.text) {
        (Kind::Oem, b"META_START") => META_START,
        (Kind::Oem, b"META_STOP") => META_STOP,
        _ => return None,
    };
    Some(Sort::Mark(code, word.part(word.text.len(), word.text.len())))
}

fn assignment(line: Cut<'_>, _: Kind) -> Option<Sort<'_>> {
    let (before, after) = line.parted(b'=')?;
    // Of blanks alone `trimmed` keeps the front, which is right for a field, but a keyword lies at the sign then.
    let keyword = Some(before.trimmed()).filter(|word| !word.text.is_empty()).unwrap_or(before.part(before.text.len(), before.text.len()));
    Some(Sort::Assignment { keyword, field: after.trimmed() })
}

fn data(line: Cut<'_>, kind: Kind) -> Option<Sort<'_>> {
    if kind != Kind::Oem {
        return None;
    }
    seven(line).map(Sort::Data)
}

/// The fields of a line, if they are seven.
fn seven(line: Cut<'_>) -> Option<[Cut<'_>; 7]> {
    let mut fields = line.fields();
    let mut seven = [line.part(0, 0); 7];
    for place in &mut seven {
        *place = fields.next()?;
    }
    fields.next().is_none().then_some(seven)
}

#[cfg(test)]
mod tests {
    use super::*;

    fn line(text: &[u8]) -> Cut<'_> {
        Cut { at: 100, text }
    }

    fn oem(text: &[u8]) -> Sort<'_> {
        sort(line(text), Kind::Oem)
    }

    fn opm(text: &[u8]) -> Sort<'_> {
        sort(line(text), Kind::Opm)
    }

    #[test]
    fn long_comes_before_byte_and_byte_before_the_rest() {
        assert_eq!(oem(&[b' '; 254]), Sort::Blank);
        assert_eq!(oem(&[b' '; 255]), Sort::Long(Cut { at: 354, text: b" " }));
        assert_eq!(oem(&[0; 256]), Sort::Long(Cut { at: 354, text: &[0, 0] }));
        for bad in [0, 9, 31, 127, 128, 255] {
            assert_eq!(oem(&[b'C', bad, bad]), Sort::Byte(Cut { at: 101, text: &[bad] }));
        }
        assert_eq!(oem(b"~ ~"), Sort::Formless(line(b"~ ~")));
        assert_eq!(oem(b"  ~ ~ "), Sort::Formless(Cut { at: 102, text: b"~ ~" }));
    }

    #[test]
    fn a_comment_is_known_by_its_first_word() {
        assert_eq!(opm(b"COMMENT"), Sort::Comment(Cut { at: 107, text: b"" }));
        assert_eq!(opm(b"  COMMENT   "), Sort::Comment(Cut { at: 109, text: b"" }));
        assert_eq!(opm(b"COMMENT  a = b  "), Sort::Comment(Cut { at: 109, text: b"a = b" }));
        assert!(matches!(opm(b"COMMENT=a"), Sort::Assignment { .. }));
        assert_eq!(opm(b"COMMENTS a"), Sort::Formless(line(b"COMMENTS a")));
        assert_eq!(opm(b"comment a"), Sort::Formless(line(b"comment a")));
    }

    #[test]
    fn marks_stand_alone_in_an_oem() {
        assert_eq!(oem(b" META_START "), Sort::Mark(37, Cut { at: 111, text: b"" }));
        assert_eq!(oem(b"META_STOP"), Sort::Mark(44, Cut { at: 109, text: b"" }));
        assert_eq!(opm(b"META_START"), Sort::Formless(line(b"META_START")));
        assert_eq!(oem(b"META_START x"), Sort::Formless(line(b"META_START x")));
        assert!(matches!(oem(b"META_START ="), Sort::Assignment { .. }));
    }

    #[test]
    fn an_assignment_parts_at_the_first_sign() {
        let Sort::Assignment { keyword, field } = opm(b" A B = c = d ") else { panic!("no assignment") };
        assert_eq!((keyword.text, field.text, field.at), (&b"A B"[..], &b"c = d"[..], 107));
        let Sort::Assignment { keyword, field } = opm(b"   =   ") else { panic!("no assignment") };
        assert_eq!((keyword, field), (Cut { at: 103, text: b"" }, Cut { at: 104, text: b"" }));
        let Sort::Assignment { keyword, field } = opm(b"=") else { panic!("no assignment") };
        assert_eq!((keyword, field), (Cut { at: 100, text: b"" }, Cut { at: 101, text: b"" }));
    }

    #[test]
    fn seven_fields_are_data_in_an_oem_alone() {
        assert!(matches!(oem(b"  a b  c d e f g "), Sort::Data(_)));
        assert!(matches!(oem(b"a b c d e f"), Sort::Formless(_)));
        assert!(matches!(oem(b"a b c d e f g h"), Sort::Formless(_)));
        assert!(matches!(opm(b"a b c d e f g"), Sort::Formless(_)));
        assert!(matches!(oem(b"a b c d e f ="), Sort::Assignment { .. }));
    }
}
