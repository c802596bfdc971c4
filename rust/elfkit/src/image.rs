//! An ELF image that is read.

use std::fmt;
use std::fs;
use std::path::Path;

use crate::editor::{Editor, Places};
use crate::elf;
use crate::error::{Error, Result};
use crate::items::Form;
use crate::raw::{HeldImage, Object};
use crate::records::{Header, ProgramHeader};
use crate::section::{Section, Sections};
use crate::strings::Strings;

/// An ELF image over bytes that somebody else holds.
///
/// To open it reads the header and the two tables; a section is read when it is first asked for.
/// What it lends of the bytes lives as long as they do, and a [`Section`] as long as the image.
pub struct Image<'data> {
    object: Object<'data>,
    form: Form,
    names: Option<Strings<'data>>,
}

impl<'data> Image<'data> {
    /// Opens an image.
    ///
    /// Rests on `elfkit_begin`. It refuses, in this order: [`Error::Short`], [`Error::Magic`],
    /// [`Error::Class`], [`Error::Order`], [`Error::Version`], [`Error::TooLarge`],
    /// [`Error::ShTable`], [`Error::PhTable`], [`Error::TooMany`]; or [`Error::Memory`].
    pub fn parse(data: &'data [u8]) -> Result<Image<'data>> {
        let object = Object::begin(data)?;
        let header = object.ehdr();
        let form = Form { class: header.class(), order: header.order() };
        let mut image = Image { object, form, names: None };
        if header.shstrndx != 0 {
            image.names = image.strings(header.shstrndx).ok();
        }
        Ok(image)
    }

    /// The bytes that it was opened over.
    pub fn data(&self) -> &'data [u8] {
        self.object.data()
    }

    /// The ELF header, with its true counts. Rests on `elfkit_ehdr`.
    pub fn header(&self) -> Header {
        self.object.ehdr()
    }

    /// The class and the byte order.
    pub fn form(&self) -> Form {
        self.form
    }

    /// The number of program headers. Rests on `elfkit_phnum`.
    pub fn program_header_count(&self) -> u32 {
        self.object.phnum()
    }

    /// The number of sections. Rests on `elfkit_shnum`.
    pub fn section_count(&self) -> u32 {
        self.object.shnum()
    }

    /// The number of the section that holds the sections' names, 0 where there is none. Rests on
    /// `elfkit_shstrndx`.
    pub fn names_index(&self) -> u32 {
        self.object.shstrndx()
    }

    /// A program header.
    ///
    /// Rests on `elfkit_phdr`. It refuses [`Error::NoEntry`].
    pub fn program_header(&self, i: u32) -> Result<ProgramHeader> {
        self.object.phdr(i)
    }

    /// The program headers in their order, each by [`Image::program_header`].
    pub fn program_headers(&self) -> impl Iterator<Item = ProgramHeader> + '_ {
        (0..self.program_header_count()).map_while(|i| self.program_header(i).ok())
    }

    /// The bytes of a segment in the file: `p_filesz` of them from `p_offset` on. It refuses
    /// [`Error::OutOfFile`] where they do not lie in the image.
    pub fn segment_data(&self, header: &ProgramHeader) -> Result<&'data [u8]> {
        range(self.data(), header.offset, header.filesz).ok_or(Error::OutOfFile)
    }

    /// A section by its number.
    ///
    /// Rests on `elfkit_shdr`. It refuses [`Error::NoSection`].
    pub fn section(&self, index: u32) -> Result<Section<'_, 'data>> {
        Ok(Section::new(self, index, self.object.shdr(index)?))
    }

    /// The sections in their order, section 0 among them. Each is that of [`Image::section`].
    pub fn sections(&self) -> Sections<'_, 'data> {
        Sections::new(self)
    }

    /// The first of [`Image::sections`] with a name, or nothing. A section whose name can not be
    /// read has none.
    pub fn section_by_name(&self, name: impl AsRef<[u8]>) -> Option<Section<'_, 'data>> {
        let (name, names) = (name.as_ref(), self.names?);
        self.sections().find(|section| names.is(section.header().name, name))
    }

    /// The first of [`Image::sections`] of a type, or nothing.
    pub fn section_by_type(&self, stype: u32) -> Option<Section<'_, 'data>> {
        self.sections().find(|section| section.header().stype == stype)
    }

    /// The table of all symbols, a section of type `SHT_SYMTAB`, or nothing: the first of
    /// [`Image::sections`].
    pub fn symbol_table(&self) -> Option<Section<'_, 'data>> {
        self.section_by_type(elf::SHT_SYMTAB)
    }

    /// The table of the dynamic symbols, a section of type `SHT_DYNSYM`, or nothing: the first of
    /// [`Image::sections`].
    pub fn dynamic_symbol_table(&self) -> Option<Section<'_, 'data>> {
        self.section_by_type(elf::SHT_DYNSYM)
    }

    /// The names of the sections: [`Image::strings`] of the section `elfkit_shstrndx`. Nothing where
    /// there is no such section, or where it is no string table of the image.
    pub fn section_names(&self) -> Option<Strings<'data>> {
        self.names
    }

    /// The strings of a section.
    ///
    /// Rests on `elfkit_shdr`, `elfkit_kind` and `elfkit_home`. It refuses as `elfkit_string` does
    /// before it reads, in this order: [`Error::NoSection`], [`Error::NotStrings`],
    /// [`Error::OutOfFile`].
    pub fn strings(&self, section: u32) -> Result<Strings<'data>> {
        self.section(section)?.strings()
    }

    /// The same bytes, to be edited. The editor begins with what the image has.
    ///
    /// Rests on `elfkit_begin` and `elfkit_flag`. It refuses [`Error::Memory`].
    pub fn edit(&self, places: Places) -> Result<Editor<'data>> {
        Editor::parse(self.data(), places)
    }

    pub(crate) fn object(&self) -> &Object<'data> {
        &self.object
    }
}

impl fmt::Debug for Image<'_> {
    fn fmt(&self, f: &mut fmt::Formatter<'_>) -> fmt::Result {
        f.debug_struct("Image").field("header", &self.header()).finish_non_exhaustive()
    }
}

/// The bytes of a range, where it lies in them.
pub(crate) fn range(data: &[u8], at: u64, len: u64) -> Option<&[u8]> {
    let at = usize::try_from(at).ok()?;
    let len = usize::try_from(len).ok()?;
    data.get(at..at.checked_add(len)?)
}

/// An ELF image over a file's bytes, which it holds.
///
/// The file is read whole when it is opened. It is not mapped: another program could cut a mapped
/// file meanwhile, and the bytes of a slice must not change.
///
/// ```
/// let file = elfkit::ImageFile::open(std::env::current_exe()?)?;
/// let image = file.image();
/// println!("{} sections", image.section_count());
/// # Ok::<(), elfkit::Error>(())
/// ```
pub struct ImageFile {
    held: HeldImage,
}

impl ImageFile {
    /// Reads a file and opens its image.
    ///
    /// Rests on `elfkit_begin`. It refuses [`Error::Io`] where the file can not be read, and as
    /// [`Image::parse`] does.
    pub fn open(path: impl AsRef<Path>) -> Result<ImageFile> {
        ImageFile::from_bytes(fs::read(path)?)
    }

    /// Opens the image of bytes, which it keeps. It refuses as [`Image::parse`] does.
    pub fn from_bytes(bytes: Vec<u8>) -> Result<ImageFile> {
        Ok(ImageFile { held: HeldImage::open(bytes)? })
    }

    /// The image. What it lends lives as long as this is borrowed.
    pub fn image(&self) -> &Image<'_> {
        self.held.get()
    }
}

impl fmt::Debug for ImageFile {
    fn fmt(&self, f: &mut fmt::Formatter<'_>) -> fmt::Result {
        f.debug_tuple("ImageFile").field(self.image()).finish()
    }
}
