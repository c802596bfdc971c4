//! An image that holds its bytes.

use std::mem::ManuallyDrop;
use std::slice;

use crate::error::Result;
use crate::image::Image;

/// An image over bytes that it holds besides.
pub(crate) struct HeldImage {
    // Dropped before the bytes, by the order of the fields. Its lifetime is not the true one.
    image: Image<'static>,
    _bytes: Kept,
}

impl HeldImage {
    /// Opens an image over bytes, which it keeps.
    pub fn open(bytes: Vec<u8>) -> Result<HeldImage> {
        let kept = Kept::of(bytes);
        // SAFETY: the bytes stay at their place, and nobody writes them, until `kept` is dropped,
        // which is after `image`. Nobody sees `image` but by `get`, with a lifetime in which this
        // is borrowed.
        let image = Image::parse(unsafe { slice::from_raw_parts(kept.at, kept.len) })?;
        Ok(HeldImage { image, _bytes: kept })
    }

    /// The image, whose bytes are lent no longer than this is borrowed.
    pub fn get(&self) -> &Image<'_> {
        &self.image
    }
}

/// The memory of a vector, which nobody reaches but by its place.
struct Kept {
    at: *mut u8,
    len: usize,
    room: usize,
}

// SAFETY: it owns the memory, as a vector does, and gives nobody access to it.
unsafe impl Send for Kept {}

impl Kept {
    fn of(bytes: Vec<u8>) -> Kept {
        let mut bytes = ManuallyDrop::new(bytes);
        Kept { at: bytes.as_mut_ptr(), len: bytes.len(), room: bytes.capacity() }
    }
}

impl Drop for Kept {
    fn drop(&mut self) {
        // SAFETY: these are the parts of a vector that was not dropped, and what was lent of it is
        // gone.
        drop(unsafe { Vec::from_raw_parts(self.at, self.len, self.room) });
    }
}
