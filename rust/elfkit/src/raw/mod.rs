//! The exports of the proved core, and all of the crate's `unsafe`.
//!
//! The declarations (`exports`) are those of `capi/core.h`; `rust/check-core` compares them. Each
//! export's doc comment in `crates/elfkit_c/src` says what a caller owes:
//!
//! - *at each call*: a pointer is not null and is aligned, and what it points to is the caller's,
//!   as long as its length says, and used by nobody else until the call is back. Here each one
//!   comes from a Rust reference or from the `Cell` of a handle.
//! - *of a handle*: it is all zeros, or what a call of the core left there, and one thread uses it
//!   at a time. [`Object`], [`Walk`] and [`Writes`] own theirs: they are made full by the call that
//!   begins, no other call leaves them empty but `Object::plan`, which takes its own, and `drop`
//!   ends them. They are not `Sync`.
//! - *of lent bytes*: they are there, fewer than 2^63 at a place that is not null, and nobody
//!   writes them until they are back. A slice of the lifetime `'data` is that for as long as
//!   the object lives; the same bytes may be lent several times.
//!
//! No export calls back into Rust, and none keeps a pointer but the handle and the lent bytes.
#![allow(unsafe_code)]

mod exports;
mod held;

use std::cell::Cell;
use std::mem::ManuallyDrop;
use std::ptr::null_mut;

use crate::error::{Error, Result};
use crate::records::{
    Dynamic, Header, ProgramHeader, Rel, Rela, SectionHeader, Symbol, Verdaux, Verdef, Vernaux,
    Verneed,
};
use exports::*;
pub(crate) use exports::{ArSymRecord, Extent, MemberRecord, NoteRecord, WriteRecord};
pub(crate) use held::HeldImage;

// A length is a number of eight bytes for the core, which is built for machines of 64 bits.
const _: () = assert!(size_of::<usize>() == 8);

/// The number that a call told: 0 where it was not refused.
fn told(number: u32) -> Result<()> {
    match number {
        0 => Ok(()),
        _ => Err(Error::of(number)),
    }
}

/// Memory for so many bytes of zeros.
pub(crate) fn zeros(length: u64) -> Result<Vec<u8>> {
    let length = usize::try_from(length).map_err(|_| Error::Memory)?;
    let mut bytes = Vec::new();
    bytes.try_reserve_exact(length)?;
    bytes.resize(length, 0);
    Ok(bytes)
}

/// An object of the core, over bytes that it is lent. Its handle is full from `begin` to `drop`.
pub(crate) struct Object<'data> {
    handle: Cell<Handle>,
    data: &'data [u8],
}

// SAFETY: a handle may go from thread to thread, as long as one uses it at a time: `Object` is not
// `Sync`. The core keeps nothing of a thread, and its memory is that of `malloc`.
unsafe impl Send for Object<'_> {}

impl<'data> Object<'data> {
    /// Opens an object over bytes.
    pub fn begin(data: &'data [u8]) -> Result<Object<'data>> {
        let (mut handle, mut back) = (Handle { ptr: null_mut() }, Lent::NONE);
        // SAFETY: the handle is empty. The bytes are there and nobody writes them for `'data`,
        // which `Object` does not outlive; they are at most isize::MAX, and a slice's place is
        // not null. `handle` and `back` are locals of those types.
        told(unsafe { elfkit_begin(Lent::of(data), &mut handle, &mut back) })?;
        Ok(Object { handle: Cell::new(handle), data })
    }

    /// The bytes that it was opened over.
    pub fn data(&self) -> &'data [u8] {
        self.data
    }

    /// Calls an export that gives a record, or refuses.
    fn given<T: Default>(&self, call: impl FnOnce(*mut Handle, *mut T) -> u32) -> Result<T> {
        let mut out = T::default();
        told(call(self.handle.as_ptr(), &mut out))?;
        Ok(out)
    }

    pub fn ehdr(&self) -> Header {
        let mut out = Header::default();
        // SAFETY: the handle holds an object and is this thread's; `out` is a local of that type.
        unsafe { elfkit_ehdr(self.handle.as_ptr(), &mut out) };
        out
    }

    pub fn phnum(&self) -> u32 {
        // SAFETY: the handle holds an object and is this thread's.
        unsafe { elfkit_phnum(self.handle.as_ptr()) }
    }

    pub fn shnum(&self) -> u32 {
        // SAFETY: the handle holds an object and is this thread's.
        unsafe { elfkit_shnum(self.handle.as_ptr()) }
    }

    pub fn shstrndx(&self) -> u32 {
        // SAFETY: the handle holds an object and is this thread's.
        unsafe { elfkit_shstrndx(self.handle.as_ptr()) }
    }

    pub fn phdr(&self, i: u32) -> Result<ProgramHeader> {
        // SAFETY: the handle holds an object and is this thread's; `out` is a local of `given`.
        self.given(|h, out| unsafe { elfkit_phdr(h, i, out) })
    }

    pub fn shdr(&self, section: u32) -> Result<SectionHeader> {
        // SAFETY: as in `phdr`.
        self.given(|h, out| unsafe { elfkit_shdr(h, section, out) })
    }

    pub fn home(&self, section: u32) -> Result<Extent> {
        // SAFETY: as in `phdr`.
        self.given(|h, out| unsafe { elfkit_home(h, section, out) })
    }

    pub fn kind(&self, section: u32, piece: u32) -> Result<u32> {
        // SAFETY: as in `phdr`.
        self.given(|h, out| unsafe { elfkit_kind(h, section, piece, out) })
    }

    pub fn sym(&self, section: u32, piece: u32, i: u64) -> Result<Symbol> {
        // SAFETY: as in `phdr`.
        self.given(|h, out| unsafe { elfkit_sym(h, section, piece, i, out) })
    }

    pub fn rel(&self, section: u32, piece: u32, i: u64) -> Result<Rel> {
        // SAFETY: as in `phdr`.
        self.given(|h, out| unsafe { elfkit_rel(h, section, piece, i, out) })
    }

    pub fn rela(&self, section: u32, piece: u32, i: u64) -> Result<Rela> {
        // SAFETY: as in `phdr`.
        self.given(|h, out| unsafe { elfkit_rela(h, section, piece, i, out) })
    }

    pub fn dynamic(&self, section: u32, piece: u32, i: u64) -> Result<Dynamic> {
        // SAFETY: as in `phdr`.
        self.given(|h, out| unsafe { elfkit_dyn(h, section, piece, i, out) })
    }

    pub fn half(&self, section: u32, piece: u32, i: u64) -> Result<u16> {
        // SAFETY: as in `phdr`.
        self.given(|h, out| unsafe { elfkit_half(h, section, piece, i, out) })
    }

    pub fn word(&self, section: u32, piece: u32, i: u64) -> Result<u32> {
        // SAFETY: as in `phdr`.
        self.given(|h, out| unsafe { elfkit_word(h, section, piece, i, out) })
    }

    pub fn addr(&self, section: u32, piece: u32, i: u64) -> Result<u64> {
        // SAFETY: as in `phdr`.
        self.given(|h, out| unsafe { elfkit_addr(h, section, piece, i, out) })
    }

    pub fn string(&self, section: u32, offset: u64) -> Result<u64> {
        // SAFETY: as in `phdr`.
        self.given(|h, out| unsafe { elfkit_string(h, section, offset, out) })
    }

    pub fn verdef(&self, section: u32, at: u64) -> Result<Verdef> {
        // SAFETY: as in `phdr`.
        self.given(|h, out| unsafe { elfkit_verdef(h, section, 0, at, out) })
    }

    pub fn verdaux(&self, section: u32, at: u64) -> Result<Verdaux> {
        // SAFETY: as in `phdr`.
        self.given(|h, out| unsafe { elfkit_verdaux(h, section, 0, at, out) })
    }

    pub fn verneed(&self, section: u32, at: u64) -> Result<Verneed> {
        // SAFETY: as in `phdr`.
        self.given(|h, out| unsafe { elfkit_verneed(h, section, 0, at, out) })
    }

    pub fn vernaux(&self, section: u32, at: u64) -> Result<Vernaux> {
        // SAFETY: as in `phdr`.
        self.given(|h, out| unsafe { elfkit_vernaux(h, section, 0, at, out) })
    }

    pub fn note(&self, section: u32, at: u64) -> Result<NoteRecord> {
        // SAFETY: as in `phdr`.
        self.given(|h, out| unsafe { elfkit_note(h, section, 0, at, out) })
    }

    pub fn update_ehdr(&mut self, x: &Header) -> Result<()> {
        // SAFETY: the handle holds an object and is this thread's; `x` is a reference.
        told(unsafe { elfkit_update_ehdr(self.handle.as_ptr(), x) })
    }

    pub fn newphdr(&mut self, count: u32) -> Result<()> {
        // SAFETY: the handle holds an object and is this thread's.
        told(unsafe { elfkit_newphdr(self.handle.as_ptr(), count) })
    }

    pub fn update_phdr(&mut self, i: u32, x: &ProgramHeader) -> Result<()> {
        // SAFETY: as in `update_ehdr`.
        told(unsafe { elfkit_update_phdr(self.handle.as_ptr(), i, x) })
    }

    pub fn newscn(&mut self) -> Result<u32> {
        // SAFETY: as in `phdr`.
        self.given(|h, out| unsafe { elfkit_newscn(h, out) })
    }

    pub fn update_shdr(&mut self, section: u32, x: &SectionHeader) -> Result<()> {
        // SAFETY: as in `update_ehdr`.
        told(unsafe { elfkit_update_shdr(self.handle.as_ptr(), section, x) })
    }

    pub fn replace(&mut self, section: u32, piece: u32, bytes: &[u8]) -> Result<()> {
        let (at, len) = (bytes.as_ptr(), bytes.len());
        // SAFETY: the handle holds an object and is this thread's; `bytes` is as long as told,
        // and the core copies it.
        told(unsafe { elfkit_replace(self.handle.as_ptr(), section, piece, at, len) })
    }

    pub fn newdata(&mut self, section: u32, bytes: &[u8], align: u64) -> Result<u32> {
        let (at, len) = (bytes.as_ptr(), bytes.len());
        // SAFETY: as in `phdr`, and of `bytes` as in `replace`.
        self.given(|h, out| unsafe { elfkit_newdata(h, section, at, len, align, out) })
    }

    pub fn flag(&mut self, set: bool, bits: u32) -> Result<u32> {
        // SAFETY: as in `phdr`.
        self.given(|h, out| unsafe { elfkit_flag(h, set, bits, out) })
    }

    pub fn fill(&mut self, byte: u8) {
        // SAFETY: the handle holds an object and is this thread's.
        unsafe { elfkit_fill(self.handle.as_ptr(), byte) };
    }

    pub fn size(&mut self) -> Result<u64> {
        // SAFETY: as in `phdr`.
        self.given(|h, out| unsafe { elfkit_size(h, out) })
    }

    /// The image, in memory that is as long as `elfkit_size` says, which is asked for here. It
    /// refuses `Memory` where that is more than `most`.
    pub fn update(&mut self, most: u64) -> Result<Vec<u8>> {
        let length = self.size()?;
        if length > most {
            return Err(Error::Memory);
        }
        let mut image = zeros(length)?;
        let (at, len) = (image.as_mut_ptr(), image.len());
        // SAFETY: the handle holds an object and is this thread's. The buffer has as many bytes
        // as `elfkit_size` gave, since which no call was made.
        told(unsafe { elfkit_update(self.handle.as_ptr(), at, len) })?;
        Ok(image)
    }

    /// Closes it, and gives the writes that make the bytes the image.
    pub fn plan(self) -> Result<Writes> {
        let object = ManuallyDrop::new(self);
        let (mut handle, mut back) = (WritesHandle { ptr: null_mut() }, Lent::NONE);
        // SAFETY: the handle holds an object and is this thread's, and is not used again: the call
        // leaves it empty, and `drop` is not run. `handle` is empty; it and `back` are locals.
        told(unsafe { elfkit_plan(object.handle.as_ptr(), &mut handle, &mut back) })?;
        Ok(Writes { handle: Cell::new(handle) })
    }
}

impl Drop for Object<'_> {
    fn drop(&mut self) {
        let mut back = Lent::NONE;
        // SAFETY: the handle holds an object and is this thread's, and is not used again; the
        // lent bytes are still there. `back` is a local of that type.
        unsafe { elfkit_end(self.handle.as_ptr(), &mut back) };
    }
}

/// The writes of an update. Their handle is full from `Object::plan` to `drop`.
pub(crate) struct Writes {
    handle: Cell<WritesHandle>,
}

// SAFETY: as of `Object`.
unsafe impl Send for Writes {}

impl Writes {
    /// The write at an index, and its bytes; nothing where there is none.
    pub fn get(&self, i: u64) -> Result<Option<(WriteRecord, Vec<u8>)>> {
        let mut write = WriteRecord::default();
        // SAFETY: the handle holds writes and is this thread's; `write` is a local.
        match told(unsafe { elfkit_write(self.handle.as_ptr(), i, &mut write) }) {
            Err(Error::NoEntry) => return Ok(None),
            done => done?,
        }
        let mut bytes = zeros(write.len)?;
        let (at, len) = (bytes.as_mut_ptr(), bytes.len());
        // SAFETY: the handle holds writes and is this thread's. There is a write with that index,
        // and the buffer has as many bytes.
        unsafe { elfkit_write_bytes(self.handle.as_ptr(), i, at, len) };
        Ok(Some((write, bytes)))
    }
}

impl Drop for Writes {
    fn drop(&mut self) {
        // SAFETY: the handle holds writes and is this thread's, and is not used again.
        unsafe { elfkit_writes_end(self.handle.as_ptr()) };
    }
}

/// An archive of the core: a walk over its members, and its table of symbols. Its handle is full
/// from `begin` to `drop`.
pub(crate) struct Walk<'data> {
    handle: Cell<ArchiveHandle>,
    data: &'data [u8],
}

// SAFETY: as of `Object`.
unsafe impl Send for Walk<'_> {}

impl<'data> Walk<'data> {
    /// Opens an archive over bytes, before its first member.
    pub fn begin(data: &'data [u8]) -> Result<Walk<'data>> {
        let (mut handle, mut back) = (ArchiveHandle { ptr: null_mut() }, Lent::NONE);
        // SAFETY: as in `Object::begin`.
        told(unsafe { elfkit_ar_begin(Lent::of(data), &mut handle, &mut back) })?;
        Ok(Walk { handle: Cell::new(handle), data })
    }

    /// The bytes that it was opened over.
    pub fn data(&self) -> &'data [u8] {
        self.data
    }

    /// The next member and its name; nothing at the end.
    pub fn next(&mut self) -> Result<Option<(MemberRecord, Vec<u8>)>> {
        let mut member = MemberRecord::default();
        // SAFETY: the handle holds an archive and is this thread's; `member` is a local.
        told(unsafe { elfkit_ar_next(self.handle.as_ptr(), &mut member) })?;
        if member.found == 0 {
            return Ok(None);
        }
        let mut name = zeros(member.namesz)?;
        let (at, len) = (name.as_mut_ptr(), name.len());
        // SAFETY: the handle holds an archive and is this thread's. The buffer has as many bytes
        // as the name of the member that the call before gave.
        unsafe { elfkit_ar_name(self.handle.as_ptr(), at, len) };
        Ok(Some((member, name)))
    }

    /// Reads the table of symbols, and gives their number.
    pub fn symbols(&mut self) -> Result<u64> {
        let mut count = 0;
        // SAFETY: the handle holds an archive and is this thread's; `count` is a local.
        told(unsafe { elfkit_ar_symbols(self.handle.as_ptr(), &mut count) })?;
        Ok(count)
    }

    /// The symbol at an index, and its name.
    pub fn symbol(&mut self, i: u64) -> Result<(ArSymRecord, Vec<u8>)> {
        let mut symbol = ArSymRecord::default();
        // SAFETY: the handle holds an archive and is this thread's; `symbol` is a local.
        told(unsafe { elfkit_ar_symbol(self.handle.as_ptr(), i, &mut symbol) })?;
        let mut name = zeros(symbol.namesz)?;
        let (at, len) = (name.as_mut_ptr(), name.len());
        // SAFETY: the handle holds an archive and is this thread's. There is a symbol with that
        // index, and the buffer has as many bytes as its name.
        unsafe { elfkit_ar_symbol_name(self.handle.as_ptr(), i, at, len) };
        Ok((symbol, name))
    }
}

impl Drop for Walk<'_> {
    fn drop(&mut self) {
        let mut back = Lent::NONE;
        // SAFETY: as in the `drop` of `Object`.
        unsafe { elfkit_ar_end(self.handle.as_ptr(), &mut back) };
    }
}

/// Translates items between the byte orders, in place.
pub(crate) fn translate(kind: u32, class: u32, from: u32, to: u32, bytes: &mut [u8]) -> Result<()> {
    let (at, len) = (bytes.as_mut_ptr(), bytes.len());
    // SAFETY: `bytes` is as long as told, and nobody else uses it. Every number stands for
    // something.
    told(unsafe { elfkit_translate(kind, class, from, to, at, len) })
}

pub(crate) fn hash(name: &[u8]) -> u32 {
    // SAFETY: `name` is as long as told.
    unsafe { elfkit_hash(name.as_ptr(), name.len()) }
}

pub(crate) fn gnu_hash(name: &[u8]) -> u32 {
    // SAFETY: `name` is as long as told.
    unsafe { elfkit_gnu_hash(name.as_ptr(), name.len()) }
}
