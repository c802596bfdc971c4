//! An ELF image that is edited.

use std::fmt;

use crate::error::{Error, Result};
use crate::items::Form;
use crate::raw::Object;
use crate::records::{Class, Header, Order, ProgramHeader, SectionHeader};
use crate::stored::Stored;

/// Who says where the parts of an image are, when it is written.
#[derive(Clone, Copy, Debug, PartialEq, Eq)]
pub enum Places {
    /// The caller: each part stays at the place that its header tells, and what lies between the
    /// parts stays as it is (`ELF_F_LAYOUT`). A program keeps running so.
    Kept,
    /// The core: the parts follow each other in their order. A segment is not moved with the
    /// sections in it, so this is for relocatable objects.
    Laid,
}

const DIRTY: u32 = 1;
const LAYOUT: u32 = 4;

/// An ELF image that is edited: [`Image::edit`](crate::Image::edit) makes one of an image, and
/// [`Editor::new`] one of nothing.
///
/// Each call is an edit of the core's object, or is refused and changes nothing. The items of a
/// section are edited in a copy of its bytes, which the core gets when the image is laid out.
pub struct Editor<'data> {
    pub(crate) object: Object<'data>,
    pub(crate) form: Form,
    /// What was stored of the items of sections, and is not yet the core's.
    pub(crate) stored: Stored,
    /// The sections whose data was given as bytes, in the order of their numbers.
    given: Vec<u32>,
    /// How many bytes were given.
    pub(crate) given_bytes: u64,
}

impl Editor<'static> {
    /// An image of nothing but an ELF header, in which the class, the order and the version are
    /// told; every other field is 0.
    ///
    /// Rests on `elfkit_begin`, over such a header. It refuses [`Error::Memory`].
    pub fn new(class: Class, order: Order) -> Result<Editor<'static>> {
        Editor::parse(bare_header(class, order), Places::Laid)
    }
}

impl<'data> Editor<'data> {
    /// Opens an image to be edited. The editor begins with what the image has.
    ///
    /// Rests on `elfkit_begin` and `elfkit_flag`. It refuses as
    /// [`Image::parse`](crate::Image::parse).
    pub fn parse(data: &'data [u8], places: Places) -> Result<Editor<'data>> {
        let object = Object::begin(data)?;
        let header = object.ehdr();
        let form = Form { class: header.class(), order: header.order() };
        let (stored, given) = (Stored::default(), Vec::new());
        let mut editor = Editor { object, form, stored, given, given_bytes: 0 };
        editor.set_places(places)?;
        Ok(editor)
    }

    // ---- What it has now

    /// The class and the byte order.
    pub fn form(&self) -> Form {
        self.form
    }

    /// The ELF header. Rests on `elfkit_ehdr`.
    pub fn header(&self) -> Header {
        self.object.ehdr()
    }

    /// The number of program headers. Rests on `elfkit_phnum`.
    pub fn program_header_count(&self) -> u32 {
        self.object.phnum()
    }

    /// A program header. Rests on `elfkit_phdr`. It refuses [`Error::NoEntry`].
    pub fn program_header(&self, i: u32) -> Result<ProgramHeader> {
        self.object.phdr(i)
    }

    /// The number of sections. Rests on `elfkit_shnum`.
    pub fn section_count(&self) -> u32 {
        self.object.shnum()
    }

    /// The header of a section. Rests on `elfkit_shdr`. It refuses [`Error::NoSection`].
    pub fn section_header(&self, section: u32) -> Result<SectionHeader> {
        self.object.shdr(section)
    }

    // ---- Headers and sections

    /// Stores `osabi`, `abiversion`, `etype`, `machine`, `entry`, `phoff`, `shoff`, `flags` and
    /// `shstrndx` of the ELF header; it looks at no other field.
    ///
    /// Rests on `elfkit_update_ehdr`. It refuses, in this order: [`Error::NoSection`] where
    /// `shstrndx` is neither 0 nor below the section count, [`Error::Unfit`].
    pub fn set_header(&mut self, header: &Header) -> Result<()> {
        self.object.update_ehdr(header)
    }

    /// Gives it so many program headers of zeros in place of those that it has.
    ///
    /// Rests on `elfkit_newphdr`. It refuses, in this order: [`Error::TooMany`] above 65,534,
    /// [`Error::Memory`].
    pub fn new_program_headers(&mut self, count: u32) -> Result<()> {
        self.object.newphdr(count)
    }

    /// Stores a program header.
    ///
    /// Rests on `elfkit_update_phdr`. It refuses, in this order: [`Error::NoEntry`],
    /// [`Error::Unfit`].
    pub fn set_program_header(&mut self, i: u32, header: &ProgramHeader) -> Result<()> {
        self.object.update_phdr(i, header)
    }

    /// Adds a section at the end, whose header is zeros and which has no data, and gives its
    /// number; section 0 comes before it where there was no section.
    ///
    /// Rests on `elfkit_newscn`. It refuses, in this order: [`Error::TooMany`] at 2^20 sections,
    /// [`Error::Memory`].
    pub fn add_section(&mut self) -> Result<u32> {
        self.object.newscn()
    }

    /// Stores the header of a section. Its place and its size are the core's where the places are
    /// [`Places::Laid`]; with [`Places::Kept`] the size is.
    ///
    /// Rests on `elfkit_update_shdr`. It refuses, in this order: [`Error::NoSection`],
    /// [`Error::Reserved`] for section 0, [`Error::Unfit`].
    pub fn set_section_header(&mut self, section: u32, header: &SectionHeader) -> Result<()> {
        self.object.update_shdr(section, header)
    }

    // ---- Data

    /// Gives a section these bytes, as they stand in the file, in place of its first piece of
    /// data, or as its first where it has none. From then on its items are bytes, and no item of
    /// it can be stored.
    ///
    /// Rests on `elfkit_replace`, and on `elfkit_newdata` where there is no piece. It refuses, in
    /// this order: [`Error::Memory`], [`Error::NoSection`], [`Error::Reserved`] for section 0.
    pub fn set_data(&mut self, section: u32, bytes: &[u8]) -> Result<()> {
        self.given.try_reserve(1)?;
        put_data(&mut self.object, section, bytes)?;
        self.stored.forget(section);
        self.note_given(section, bytes);
        Ok(())
    }

    /// Adds these bytes, as they stand in the file, behind the data of a section, with an
    /// alignment in it, and gives the number of the piece.
    ///
    /// Rests on `elfkit_newdata`. It refuses, in this order: [`Error::Memory`],
    /// [`Error::NoSection`], [`Error::Reserved`] for section 0, [`Error::TooMany`] at 2^20 pieces,
    /// [`Error::BadAlign`] where the alignment is no power of two or above 2^20.
    pub fn add_data(&mut self, section: u32, bytes: &[u8], align: u64) -> Result<u32> {
        self.given.try_reserve(1)?;
        self.hand_over()?;
        let piece = self.object.newdata(section, bytes, align)?;
        self.note_given(section, bytes);
        Ok(piece)
    }

    /// Notes that data of a section was given; there is memory for it.
    fn note_given(&mut self, section: u32, bytes: &[u8]) {
        self.given_bytes = self.given_bytes.saturating_add(bytes.len() as u64);
        if let Err(place) = self.given.binary_search(&section) {
            self.given.insert(place, section);
        }
    }

    /// Whether data of a section was given as bytes.
    pub(crate) fn is_given(&self, section: u32) -> bool {
        self.given.binary_search(&section).is_ok()
    }

    // ---- Flags

    /// Says whose the places of the parts are.
    ///
    /// Rests on `elfkit_flag`, of `ELF_F_LAYOUT`. It refuses nothing.
    pub fn set_places(&mut self, places: Places) -> Result<()> {
        self.object.flag(places == Places::Kept, LAYOUT).map(|_| ())
    }

    /// Marks the image as changed, so that it is laid out though nothing was edited.
    ///
    /// Rests on `elfkit_flag`, of `ELF_F_DIRTY`. It refuses nothing.
    pub fn mark(&mut self) -> Result<()> {
        self.object.flag(true, DIRTY).map(|_| ())
    }

    /// Stores the byte of gaps between the parts. Rests on `elfkit_fill`.
    pub fn set_fill(&mut self, byte: u8) {
        self.object.fill(byte);
    }
}

/// Gives a section its first piece of data.
pub(crate) fn put_data(object: &mut Object<'_>, section: u32, bytes: &[u8]) -> Result<()> {
    match object.replace(section, 0, bytes) {
        Err(Error::NoData) => object.newdata(section, bytes, 1).map(|_| ()),
        done => done,
    }
}

impl fmt::Debug for Editor<'_> {
    fn fmt(&self, f: &mut fmt::Formatter<'_>) -> fmt::Result {
        f.debug_struct("Editor").field("header", &self.header()).finish_non_exhaustive()
    }
}

// ---- An image of nothing

static LEAST_32: [u8; 52] = header_of(Class::C32, Order::Least, 40, 52);
static GREATEST_32: [u8; 52] = header_of(Class::C32, Order::Greatest, 40, 52);
static LEAST_64: [u8; 64] = header_of(Class::C64, Order::Least, 52, 64);
static GREATEST_64: [u8; 64] = header_of(Class::C64, Order::Greatest, 52, 64);

/// An ELF header of zeros but for the identification, the version, and its own size, `e_ehsize`,
/// which is at a place.
#[allow(clippy::indexing_slicing, clippy::arithmetic_side_effects)] // a const: told by rustc
const fn header_of<const N: usize>(class: Class, order: Order, at: usize, size: u8) -> [u8; N] {
    let (class, order) = (class.number(), order.number());
    let mut header = [0; N];
    header[0] = 0x7f;
    header[1] = b'E';
    header[2] = b'L';
    header[3] = b'F';
    header[4] = class;
    header[5] = order;
    header[6] = 1;
    let is_greatest = order == Order::Greatest.number();
    header[if is_greatest { 23 } else { 20 }] = 1;
    header[if is_greatest { at + 1 } else { at }] = size;
    header
}

fn bare_header(class: Class, order: Order) -> &'static [u8] {
    match (class, order) {
        (Class::C32, Order::Least) => &LEAST_32,
        (Class::C32, Order::Greatest) => &GREATEST_32,
        (Class::C64, Order::Least) => &LEAST_64,
        (Class::C64, Order::Greatest) => &GREATEST_64,
    }
}
