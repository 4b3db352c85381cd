//! The bytes of a feed, kept once for all who ask about it.
//! A long one is mostly padding, and knows it, so that it need not be looked through or handed over byte by byte again and again.

use std::ops::Deref;
use std::rc::Rc;

/// The bytes of a feed: those in front, and then one byte again and again.
#[derive(Clone, Debug)]
pub struct Bytes {
    all: Rc<Vec<u8>>,
    front: usize,
}

/// Bytes that end in so many of one byte.
pub struct Padded<'b> {
    pub front: &'b [u8],
    pub byte: u8,
}

/// Fewer bytes than these are no padding to speak of.
const LEAST: usize = 4_096;

impl Bytes {
    /// These bytes, filled up to a size with one byte; no fewer than they are.
    pub fn padded(front: impl Into<Vec<u8>>, size: usize, byte: u8) -> Bytes {
        let mut all = front.into();
        let front = all.len();
        all.resize(size.max(front), byte);
        Bytes { all: Rc::new(all), front }
    }

    /// What stands in front of the padding, and the byte that it is made of, if there is padding to speak of.
    pub fn padding(&self) -> Option<Padded<'_>> {
        let (front, more) = self.all.split_at(self.front);
        more.first().filter(|_| more.len() >= LEAST).map(|byte| Padded { front, byte: *byte })
    }

    /// The first so many of these bytes.
    pub fn cut(&self, size: usize) -> Bytes {
        match (self.all.get(self.front), self.all.get(self.front..size)) {
            (Some(byte), Some(_)) => Bytes::padded(&self.all[..self.front], size, *byte),
            _ => self.all[..size].into(),
        }
    }

    /// Whether these are the same bytes, kept in the same place.
    pub fn is(&self, other: &Bytes) -> bool {
        Rc::ptr_eq(&self.all, &other.all)
    }
}

impl Deref for Bytes {
    type Target = [u8];

    fn deref(&self) -> &[u8] {
        &self.all
    }
}

impl From<Vec<u8>> for Bytes {
    fn from(all: Vec<u8>) -> Bytes {
        let front = all.len();
        Bytes { all: Rc::new(all), front }
    }
}

impl From<&[u8]> for Bytes {
    fn from(all: &[u8]) -> Bytes {
        all.to_vec().into()
    }
}

#[cfg(test)]
mod tests {
    use super::*;

    #[test]
    fn padding_is_known_by_its_front_and_its_byte() {
        let bytes = Bytes::padded(&b"ab"[..], 5_000, b'\n');
        assert_eq!(bytes[..], [&b"ab"[..], &[b'\n'; 4_998]].concat());
        let padded = bytes.padding().expect("padded");
        assert_eq!((padded.front, padded.byte), (&b"ab"[..], b'\n'));
        assert!(Bytes::padded(&b"ab"[..], 4_097, b' ').padding().is_none());
        assert!(Bytes::padded(&b"ab"[..], 1, b' ').padding().is_none());
        assert!(Bytes::from(vec![b' '; 9_999]).padding().is_none());
    }

    #[test]
    fn a_cut_is_as_long_as_it_is_asked_to_be() {
        let whole = Bytes::padded(&b"abc"[..], 9_000, b' ');
        for size in [0, 1, 3, 4, 4_098, 4_099, 8_999, 9_000] {
            let cut = whole.cut(size);
            assert_eq!(cut[..], whole[..size]);
            assert_eq!(cut.padding().map(|padded| padded.front), (size >= 4_099).then_some(&b"abc"[..]));
        }
        assert_eq!(Bytes::from(&b"abc"[..]).cut(2)[..], b"ab"[..]);
    }

    #[test]
    fn the_same_bytes_are_those_in_the_same_place() {
        let one: Bytes = vec![1, 2].into();
        assert!(one.is(&one.clone()));
        assert!(!one.is(&vec![1, 2].into()));
    }
}
