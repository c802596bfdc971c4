//! The exports of the core and their records, as `capi/core.h` declares them. The records of
//! headers and items are those of `crate::records`.

use std::ptr::null;

use crate::records::{
    Dynamic, Header, ProgramHeader, Rel, Rela, SectionHeader, Symbol, Verdaux, Verdef, Vernaux,
    Verneed,
};

/// Bytes that are lent; all zeros where none are.
#[repr(C)]
#[derive(Clone, Copy)]
pub(crate) struct Lent {
    pub at: *const u8,
    pub len: usize,
}

impl Lent {
    pub const NONE: Lent = Lent { at: null(), len: 0 };

    pub fn of(bytes: &[u8]) -> Lent {
        Lent { at: bytes.as_ptr(), len: bytes.len() }
    }
}

/// An object of the core; a null pointer where there is none.
#[repr(C)]
#[derive(Clone, Copy)]
pub(crate) struct Handle {
    pub ptr: *mut u8,
}

/// An archive of the core; a null pointer where there is none.
#[repr(C)]
#[derive(Clone, Copy)]
pub(crate) struct ArchiveHandle {
    pub ptr: *mut u8,
}

/// The writes of an update; a null pointer where there are none.
#[repr(C)]
#[derive(Clone, Copy)]
pub(crate) struct WritesHandle {
    pub ptr: *mut u8,
}

/// A write: the length of the file from then on, and where bytes are put over it.
#[repr(C)]
#[derive(Clone, Copy, Debug, Default)]
pub(crate) struct WriteRecord {
    pub size: u64,
    pub at: u64,
    pub len: u64,
}

/// A range of bytes.
#[repr(C)]
#[derive(Clone, Copy, Debug, Default, PartialEq, Eq)]
pub(crate) struct Extent {
    pub at: u64,
    pub len: u64,
}

/// A note by its places in a piece, or that there is none.
#[repr(C)]
#[derive(Clone, Copy, Debug, Default)]
pub(crate) struct NoteRecord {
    pub found: u32,
    pub ntype: u32,
    pub name_at: u64,
    pub namesz: u64,
    pub desc_at: u64,
    pub descsz: u64,
    pub next: u64,
}

/// The header of a member of an archive, or that there is none.
#[repr(C)]
#[derive(Clone, Copy, Debug, Default)]
pub(crate) struct MemberRecord {
    pub found: u32,
    pub mode: u32,
    pub uid: u32,
    pub gid: u32,
    pub at: u64,
    pub body: u64,
    pub size: u64,
    pub date: u64,
    pub namesz: u64,
}

/// A symbol of an archive's table.
#[repr(C)]
#[derive(Clone, Copy, Debug, Default)]
pub(crate) struct ArSymRecord {
    pub at: u64,
    pub namesz: u64,
}

extern "C" {
    pub fn elfkit_begin(image: Lent, h: *mut Handle, back: *mut Lent) -> u32;
    pub fn elfkit_end(h: *mut Handle, back: *mut Lent);

    pub fn elfkit_ehdr(h: *mut Handle, out: *mut Header);
    pub fn elfkit_phnum(h: *mut Handle) -> u32;
    pub fn elfkit_shnum(h: *mut Handle) -> u32;
    pub fn elfkit_shstrndx(h: *mut Handle) -> u32;
    pub fn elfkit_phdr(h: *mut Handle, i: u32, out: *mut ProgramHeader) -> u32;
    pub fn elfkit_shdr(h: *mut Handle, section: u32, out: *mut SectionHeader) -> u32;
    pub fn elfkit_home(h: *mut Handle, section: u32, out: *mut Extent) -> u32;
    pub fn elfkit_kind(h: *mut Handle, section: u32, piece: u32, out: *mut u32) -> u32;

    pub fn elfkit_sym(h: *mut Handle, section: u32, piece: u32, i: u64, out: *mut Symbol) -> u32;
    pub fn elfkit_rel(h: *mut Handle, section: u32, piece: u32, i: u64, out: *mut Rel) -> u32;
    pub fn elfkit_rela(h: *mut Handle, section: u32, piece: u32, i: u64, out: *mut Rela) -> u32;
    pub fn elfkit_dyn(h: *mut Handle, section: u32, piece: u32, i: u64, out: *mut Dynamic) -> u32;
    pub fn elfkit_half(h: *mut Handle, section: u32, piece: u32, i: u64, out: *mut u16) -> u32;
    pub fn elfkit_word(h: *mut Handle, section: u32, piece: u32, i: u64, out: *mut u32) -> u32;
    pub fn elfkit_addr(h: *mut Handle, section: u32, piece: u32, i: u64, out: *mut u64) -> u32;

    pub fn elfkit_string(h: *mut Handle, section: u32, offset: u64, out: *mut u64) -> u32;
    pub fn elfkit_verdef(
        h: *mut Handle,
        section: u32,
        piece: u32,
        at: u64,
        out: *mut Verdef,
    ) -> u32;
    pub fn elfkit_verdaux(
        h: *mut Handle,
        section: u32,
        piece: u32,
        at: u64,
        out: *mut Verdaux,
    ) -> u32;
    pub fn elfkit_verneed(
        h: *mut Handle,
        section: u32,
        piece: u32,
        at: u64,
        out: *mut Verneed,
    ) -> u32;
    pub fn elfkit_vernaux(
        h: *mut Handle,
        section: u32,
        piece: u32,
        at: u64,
        out: *mut Vernaux,
    ) -> u32;
    pub fn elfkit_note(
        h: *mut Handle,
        section: u32,
        piece: u32,
        at: u64,
        out: *mut NoteRecord,
    ) -> u32;

    pub fn elfkit_update_ehdr(h: *mut Handle, x: *const Header) -> u32;
    pub fn elfkit_newphdr(h: *mut Handle, count: u32) -> u32;
    pub fn elfkit_update_phdr(h: *mut Handle, i: u32, x: *const ProgramHeader) -> u32;
    pub fn elfkit_newscn(h: *mut Handle, out: *mut u32) -> u32;
    pub fn elfkit_update_shdr(h: *mut Handle, section: u32, x: *const SectionHeader) -> u32;
    pub fn elfkit_replace(
        h: *mut Handle,
        section: u32,
        piece: u32,
        bytes: *const u8,
        length: usize,
    ) -> u32;
    pub fn elfkit_newdata(
        h: *mut Handle,
        section: u32,
        bytes: *const u8,
        length: usize,
        align: u64,
        out: *mut u32,
    ) -> u32;
    pub fn elfkit_flag(h: *mut Handle, set: bool, bits: u32, out: *mut u32) -> u32;
    pub fn elfkit_fill(h: *mut Handle, byte: u8);

    pub fn elfkit_size(h: *mut Handle, out: *mut u64) -> u32;
    pub fn elfkit_update(h: *mut Handle, out: *mut u8, length: usize) -> u32;
    pub fn elfkit_plan(h: *mut Handle, w: *mut WritesHandle, back: *mut Lent) -> u32;
    pub fn elfkit_write(w: *mut WritesHandle, i: u64, out: *mut WriteRecord) -> u32;
    pub fn elfkit_write_bytes(w: *mut WritesHandle, i: u64, out: *mut u8, length: usize);
    pub fn elfkit_writes_end(w: *mut WritesHandle);

    pub fn elfkit_ar_begin(image: Lent, h: *mut ArchiveHandle, back: *mut Lent) -> u32;
    pub fn elfkit_ar_end(h: *mut ArchiveHandle, back: *mut Lent);
    pub fn elfkit_ar_next(h: *mut ArchiveHandle, out: *mut MemberRecord) -> u32;
    pub fn elfkit_ar_name(h: *mut ArchiveHandle, out: *mut u8, length: usize);
    pub fn elfkit_ar_symbols(h: *mut ArchiveHandle, count: *mut u64) -> u32;
    pub fn elfkit_ar_symbol(h: *mut ArchiveHandle, i: u64, out: *mut ArSymRecord) -> u32;
    pub fn elfkit_ar_symbol_name(h: *mut ArchiveHandle, i: u64, out: *mut u8, length: usize);

    pub fn elfkit_translate(
        kind: u32,
        class: u32,
        from: u32,
        to: u32,
        bytes: *mut u8,
        length: usize,
    ) -> u32;

    pub fn elfkit_hash(name: *const u8, length: usize) -> u32;
    pub fn elfkit_gnu_hash(name: *const u8, length: usize) -> u32;
}
