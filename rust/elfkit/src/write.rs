//! The image of what was edited, and how it is written.

use std::fmt;
use std::fs::File;
use std::io::{ErrorKind, Read, Seek, SeekFrom, Write};
use std::path::Path;

use crate::editor::Editor;
use crate::error::Result;
use crate::raw::Writes;

/// How much longer an image may be than what it is made of: a place in a header can tell more.
const MOST_GAPS: u64 = 1 << 30;

/// How many bytes are compared at a time with those of a file.
const BLOCK: usize = 1 << 16;

impl Editor<'_> {
    /// Lays the image out and gives its length: stores the places of the parts, the sizes, and
    /// what follows from them, in the headers.
    ///
    /// Rests on `elfkit_size`, and on `elfkit_replace` and `elfkit_newdata` for what was stored.
    /// It refuses, in this order: [`TooMany`], [`Unfit`], [`OutOfFile`] for a section whose bytes
    /// do not lie in the image, [`Overlap`] with [`Places::Kept`], [`TooLarge`]; and [`Memory`].
    ///
    /// [`TooMany`]: crate::Error::TooMany
    /// [`Unfit`]: crate::Error::Unfit
    /// [`OutOfFile`]: crate::Error::OutOfFile
    /// [`Overlap`]: crate::Error::Overlap
    /// [`Places::Kept`]: crate::Places::Kept
    /// [`TooLarge`]: crate::Error::TooLarge
    /// [`Memory`]: crate::Error::Memory
    pub fn lay_out(&mut self) -> Result<u64> {
        self.hand_over()?;
        self.object.size()
    }

    /// The image; the one that was opened, where nothing was edited.
    ///
    /// Rests on `elfkit_size` and `elfkit_update`. It refuses as [`Editor::lay_out`]; and
    /// [`Error::Memory`](crate::Error::Memory) besides where the image is more than a gigabyte
    /// longer than what it is made of, which a place in a header can tell.
    pub fn image(&mut self) -> Result<Vec<u8>> {
        self.hand_over()?;
        let headers = u64::from(self.object.shnum())
            .saturating_add(u64::from(self.object.phnum()))
            .saturating_mul(64);
        let most = (self.object.data().len() as u64)
            .saturating_add(self.given_bytes)
            .saturating_add(self.stored.bytes())
            .saturating_add(headers)
            .saturating_add(MOST_GAPS);
        self.object.update(most)
    }

    /// Writes the image, and gives its length.
    ///
    /// Rests on `elfkit_update`. It refuses as [`Editor::image`] before it writes, and
    /// [`Error::Io`](crate::Error::Io) where a write fails.
    pub fn write_to(&mut self, out: &mut impl Write) -> Result<u64> {
        let image = self.image()?;
        out.write_all(&image)?;
        Ok(image.len() as u64)
    }

    /// The writes that make the bytes that were opened the image, in their order: the parts that
    /// change, and the fill between parts. The image is not held. There are none where nothing was
    /// edited.
    ///
    /// Rests on `elfkit_plan`, `elfkit_write` and `elfkit_write_bytes`. It refuses as
    /// [`Editor::lay_out`].
    pub fn changes(mut self) -> Result<Changes> {
        self.hand_over()?;
        Ok(Changes { writes: self.object.plan()?, next: 0 })
    }

    /// Makes a file the image, and gives its length. Of the file it writes what differs alone, and
    /// then its length; so a file that was opened as the image gets the edits.
    ///
    /// Rests on `elfkit_update`. It refuses as [`Editor::image`] before the file is opened, and
    /// [`Error::Io`](crate::Error::Io) where the file can not be read or written; each place of
    /// the file has the old byte or the new one then.
    pub fn write_in_place(&mut self, path: impl AsRef<Path>) -> Result<u64> {
        let image = self.image()?;
        let mut file = File::options().read(true).write(true).open(path)?;
        let mut old = Vec::new();
        old.try_reserve_exact(BLOCK)?;
        old.resize(BLOCK, 0);
        let mut at: u64 = 0;
        for block in image.chunks(BLOCK) {
            file.seek(SeekFrom::Start(at))?;
            let count = read_up_to(&mut file, old.get_mut(..block.len()).unwrap_or_default())?;
            if old.get(..count) != Some(block) {
                file.seek(SeekFrom::Start(at))?;
                file.write_all(block)?;
            }
            at = at.saturating_add(block.len() as u64);
        }
        file.set_len(at)?;
        Ok(at)
    }
}

/// A write that an update makes: what is written has the length `size` from then on, cut or
/// lengthened by zeros, and the bytes are put over it at the place `at`.
#[derive(Clone, Debug, PartialEq, Eq)]
pub struct Change {
    /// The length.
    pub size: u64,
    /// The place of the bytes.
    pub at: u64,
    /// The bytes.
    pub bytes: Vec<u8>,
}

/// The writes that an update makes, in their order: [`Editor::changes`] gives them.
pub struct Changes {
    writes: Writes,
    next: u64,
}

impl Iterator for Changes {
    type Item = Result<Change>;

    /// The next write. It refuses [`Error::Memory`](crate::Error::Memory).
    fn next(&mut self) -> Option<Result<Change>> {
        let found = self.writes.get(self.next).transpose()?;
        self.next = self.next.saturating_add(1);
        Some(found.map(|(write, bytes)| Change { size: write.size, at: write.at, bytes }))
    }
}

impl fmt::Debug for Changes {
    fn fmt(&self, f: &mut fmt::Formatter<'_>) -> fmt::Result {
        f.debug_struct("Changes").field("next", &self.next).finish_non_exhaustive()
    }
}

/// Reads until a buffer is full or the file ends, and gives how many bytes there were.
fn read_up_to(file: &mut File, buffer: &mut [u8]) -> Result<usize> {
    let mut count = 0;
    while let Some(rest) = buffer.get_mut(count..).filter(|rest| !rest.is_empty()) {
        match file.read(rest) {
            Ok(0) => break,
            Ok(read) => count = count.saturating_add(read),
            Err(cause) if cause.kind() == ErrorKind::Interrupted => {}
            Err(cause) => return Err(cause.into()),
        }
    }
    Ok(count)
}
