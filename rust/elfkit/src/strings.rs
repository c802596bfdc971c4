//! Strings of a string table.

use std::fmt;

use crate::error::{Error, Result};

/// The strings of a section of type `SHT_STRTAB`. It may outlive the [`Image`](crate::Image), and
/// lives as long as the bytes that the image was opened over.
#[derive(Clone, Copy)]
pub struct Strings<'data> {
    bytes: &'data [u8],
    /// Where the last string ends, behind its NUL: a string begins at each place before that, and
    /// none behind it, so that nobody looks twice for an end that is not there.
    end: usize,
}

impl<'data> Strings<'data> {
    pub(crate) fn new(bytes: &'data [u8]) -> Strings<'data> {
        let last = bytes.iter().rposition(|byte| *byte == 0);
        Strings { bytes, end: last.map_or(0, |at| at.saturating_add(1)) }
    }

    /// The string at an offset, without its NUL.
    ///
    /// It refuses, in this order: [`Error::NoString`] where the offset is not below the size of
    /// the section, [`Error::Unended`] where no NUL follows. The tests compare it with
    /// `elfkit_string`, which [`Section::string_length`](crate::Section::string_length) calls.
    #[inline]
    pub fn get(&self, offset: impl Into<u64>) -> Result<&'data [u8]> {
        let offset = usize::try_from(offset.into()).map_err(|_| Error::NoString)?;
        match self.bytes.get(offset..self.end).and_then(before_nul) {
            Some(string) => Ok(string),
            None if offset < self.bytes.len() => Err(Error::Unended),
            None => Err(Error::NoString),
        }
    }

    /// Whether the string at an offset can be read and is that one. It looks at no more bytes
    /// than `name` has, and one.
    pub fn is(&self, offset: impl Into<u64>, name: &[u8]) -> bool {
        let Ok(offset) = usize::try_from(offset.into()) else {
            return false;
        };
        let from_offset = self.bytes.get(offset..self.end);
        let behind = from_offset.and_then(|bytes| bytes.strip_prefix(name));
        behind.and_then(<[u8]>::first) == Some(&0) && !name.contains(&0)
    }

    /// The bytes of the section.
    pub fn bytes(&self) -> &'data [u8] {
        self.bytes
    }
}

impl fmt::Debug for Strings<'_> {
    fn fmt(&self, f: &mut fmt::Formatter<'_>) -> fmt::Result {
        f.debug_struct("Strings").field("len", &self.bytes.len()).finish_non_exhaustive()
    }
}

/// The bytes before the first NUL; nothing where there is none. It looks at eight bytes at a time,
/// since names are short.
#[inline]
fn before_nul(bytes: &[u8]) -> Option<&[u8]> {
    const ONES: u64 = 0x0101_0101_0101_0101;
    let (chunks, rest) = bytes.as_chunks::<8>();
    let mut at: usize = 0;
    for chunk in chunks {
        let word = u64::from_le_bytes(*chunk);
        // the lowest bit that is set is the highest one of the first byte that is 0
        let nuls = word.wrapping_sub(ONES) & !word & (ONES << 7);
        if nuls != 0 {
            return bytes.get(..at.saturating_add((nuls.trailing_zeros() >> 3) as usize));
        }
        at = at.saturating_add(8);
    }
    let last = rest.iter().position(|byte| *byte == 0)?;
    bytes.get(..at.saturating_add(last))
}

#[cfg(test)]
mod tests {
    use super::{before_nul, Strings};
    use crate::error::Error;

    #[test]
    fn a_nul_is_found_at_every_place() {
        for len in 0..40 {
            let full: Vec<u8> = [1, 0x7f, 0x80, 0xff].into_iter().cycle().take(len).collect();
            assert_eq!(before_nul(&full), None);
            for place in 0..len {
                for second in place..len {
                    let mut bytes = full.clone();
                    for nul in [place, second] {
                        if let Some(byte) = bytes.get_mut(nul) {
                            *byte = 0;
                        }
                    }
                    assert_eq!(before_nul(&bytes), full.get(..place));
                }
            }
        }
    }

    #[test]
    fn a_string_has_an_end_and_a_place() {
        let strings = Strings::new(b"\0one\0two\0rest");
        assert!(matches!(strings.get(1_u32), Ok(b"one")));
        assert!(matches!(strings.get(2_u64), Ok(b"ne")));
        assert!(matches!(strings.get(8_u8), Ok(b"")));
        assert!(matches!(strings.get(9_u8), Err(Error::Unended)));
        assert!(matches!(strings.get(12_u8), Err(Error::Unended)));
        assert!(matches!(strings.get(13_u8), Err(Error::NoString)));
        assert!(matches!(Strings::new(b"").get(0_u8), Err(Error::NoString)));
        assert!(strings.is(1_u8, b"one") && strings.is(0_u8, b"") && strings.is(8_u8, b""));
        assert!(!strings.is(1_u8, b"on") && !strings.is(1_u8, b"one\0two"));
        assert!(
            !strings.is(9_u8, b"rest") && !strings.is(13_u8, b"") && !strings.is(u64::MAX, b"")
        );
    }
}
