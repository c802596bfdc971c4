//! The notes of a section.

use std::iter::FusedIterator;

use crate::error::{Error, Result};
use crate::image::range;
use crate::section::Section;

/// A note.
#[derive(Clone, Copy, Debug, PartialEq, Eq)]
pub struct Note<'data> {
    /// `n_type`.
    pub ntype: u32,
    /// Its name: `n_namesz` bytes, of which the last one is mostly a NUL.
    pub name: &'data [u8],
    /// Its descriptor: `n_descsz` bytes.
    pub desc: &'data [u8],
}

impl<'data> Note<'data> {
    /// The name without its NUL.
    pub fn owner(&self) -> &'data [u8] {
        match self.name {
            [owner @ .., 0] => owner,
            name => name,
        }
    }
}

/// Goes over the notes of a section.
///
/// Rests on `elfkit_note`: it calls it for each note, at the place that the one before gave. A
/// refusal ends it: [`Error::WrongKind`], [`Error::OutOfFile`], [`Error::Memory`], and
/// [`Error::BadChain`] for a note that does not lie in the section.
#[derive(Clone, Debug)]
pub struct Notes<'image, 'data> {
    section: Section<'image, 'data>,
    at: Option<u64>,
}

impl<'image, 'data> Notes<'image, 'data> {
    pub(crate) fn new(section: Section<'image, 'data>) -> Notes<'image, 'data> {
        Notes { section, at: Some(0) }
    }

    /// The note at a place, and where the next one is.
    fn note_at(&self, at: u64) -> Result<Option<(Note<'data>, u64)>> {
        let record = self.section.image().object().note(self.section.index(), at)?;
        if record.found == 0 {
            return Ok(None);
        }
        let data = self.section.data()?;
        let name = range(data, record.name_at, record.namesz).ok_or(Error::BadChain)?;
        let desc = range(data, record.desc_at, record.descsz).ok_or(Error::BadChain)?;
        Ok(Some((Note { ntype: record.ntype, name, desc }, record.next)))
    }
}

impl<'data> Iterator for Notes<'_, 'data> {
    type Item = Result<Note<'data>>;

    fn next(&mut self) -> Option<Result<Note<'data>>> {
        let at = self.at.take()?;
        match self.note_at(at) {
            Ok(Some((note, next))) => {
                self.at = Some(next);
                Some(Ok(note))
            }
            Ok(None) => None,
            Err(refusal) => Some(Err(refusal)),
        }
    }
}

impl FusedIterator for Notes<'_, '_> {}
