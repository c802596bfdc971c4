//! A section of an image, and what it holds.

use std::fmt;
use std::iter::FusedIterator;

use crate::elf;
use crate::error::{Error, Result};
use crate::image::{range, Image};
use crate::items::{Asked, Item};
use crate::notes::Notes;
use crate::records::{Dynamic, Kind, Rel, Rela, SectionHeader, Symbol};
use crate::strings::Strings;
use crate::table::Table;
use crate::versions::{VersionDefinitions, VersionNeeds};

/// A section of an [`Image`], which it borrows.
#[derive(Clone, Copy)]
pub struct Section<'image, 'data> {
    image: &'image Image<'data>,
    index: u32,
    header: SectionHeader,
}

/// Where a symbol is defined.
#[derive(Clone, Copy, Debug, PartialEq, Eq)]
pub enum Place {
    /// In the section with this number; 0 for a symbol that is defined elsewhere.
    Section(u32),
    /// A special number from `SHN_LORESERVE` on, as `SHN_ABS`.
    Special(u16),
}

impl<'image, 'data> Section<'image, 'data> {
    pub(crate) fn new(
        image: &'image Image<'data>,
        index: u32,
        header: SectionHeader,
    ) -> Section<'image, 'data> {
        Section { image, index, header }
    }

    /// Its number.
    pub fn index(&self) -> u32 {
        self.index
    }

    /// Its header, by `elfkit_shdr`.
    pub fn header(&self) -> &SectionHeader {
        &self.header
    }

    /// The image.
    pub fn image(&self) -> &'image Image<'data> {
        self.image
    }

    /// Its name, by [`Image::section_names`]; nothing where there are no names or this one can not
    /// be read.
    pub fn name(&self) -> Option<&'data [u8]> {
        self.image.section_names()?.get(self.header.name).ok()
    }

    /// What its items are: `Empty` of one without bytes in the file, `Bytes` of one that is
    /// compressed, else what its type says.
    ///
    /// Rests on `elfkit_kind`.
    pub fn kind(&self) -> Result<Kind> {
        Kind::of(self.image.object().kind(self.index, 0)?)
    }

    /// Where its bytes begin in the image, and how many there are; they may pass its end.
    ///
    /// Rests on `elfkit_home`.
    pub fn range(&self) -> Result<(u64, u64)> {
        let home = self.image.object().home(self.index)?;
        Ok((home.at, home.len))
    }

    /// Its bytes, as they are in the image; none of a type without bytes in the file.
    ///
    /// Rests on `elfkit_home`. It refuses [`Error::OutOfFile`].
    pub fn data(&self) -> Result<&'data [u8]> {
        let (at, len) = self.range()?;
        match len {
            0 => Ok(&[]),
            _ => range(self.image.data(), at, len).ok_or(Error::OutOfFile),
        }
    }

    // ---- Items

    /// Its items.
    ///
    /// Rests on `elfkit_kind` and `elfkit_home`; the items are taken from the bytes by this crate
    /// (see [`Table`]). It refuses as the core's calls for one item do, in this order:
    /// [`Error::WrongKind`], [`Error::OutOfFile`], [`Error::Ragged`].
    pub fn items<T: Item>(&self) -> Result<Table<'data, T>> {
        if self.kind()? != T::KIND {
            return Err(Error::WrongKind);
        }
        let (bytes, form) = (self.data()?, self.image.form());
        match bytes.len().checked_rem(T::size(form.class)) {
            Some(0) => Ok(Table::new(bytes, form)),
            _ => Err(Error::Ragged),
        }
    }

    /// One item, which the core decodes.
    ///
    /// Rests on `elfkit_sym`, `elfkit_rel`, `elfkit_rela`, `elfkit_dyn`, `elfkit_half`,
    /// `elfkit_word` or `elfkit_addr`, by the type. It refuses, in this order:
    /// [`Error::WrongKind`], [`Error::OutOfFile`], [`Error::Ragged`]; then [`Error::Memory`], since
    /// the core keeps the section's bytes, and [`Error::NoEntry`].
    pub fn item<T: Item>(&self, i: u64) -> Result<T> {
        T::asked(&Asked(self.image.object()), self.index, i)
    }

    /// Its symbols: [`Section::items`].
    pub fn symbols(&self) -> Result<Table<'data, Symbol>> {
        self.items()
    }

    /// Its relocations without an addend: [`Section::items`].
    pub fn rels(&self) -> Result<Table<'data, Rel>> {
        self.items()
    }

    /// Its relocations with an addend: [`Section::items`].
    pub fn relas(&self) -> Result<Table<'data, Rela>> {
        self.items()
    }

    /// The entries of the dynamic section: [`Section::items`]. Those behind one of `DT_NULL` are
    /// among them.
    pub fn dynamic(&self) -> Result<Table<'data, Dynamic>> {
        self.items()
    }

    // ---- Strings and names

    /// Its strings.
    ///
    /// Rests on `elfkit_kind` and `elfkit_home`. It refuses as `elfkit_string` does before it
    /// reads, in this order: [`Error::NotStrings`], [`Error::OutOfFile`].
    pub fn strings(&self) -> Result<Strings<'data>> {
        if self.header.stype != elf::SHT_STRTAB || self.kind()? != Kind::Bytes {
            return Err(Error::NotStrings);
        }
        Ok(Strings::new(self.data()?))
    }

    /// The strings of the section to which it links, as a symbol table does: [`Image::strings`].
    pub fn linked_strings(&self) -> Result<Strings<'data>> {
        self.image.strings(self.header.link)
    }

    /// The length of the string at an offset, which the core looks for.
    ///
    /// Rests on `elfkit_string`. It refuses, in this order: [`Error::NotStrings`],
    /// [`Error::OutOfFile`], [`Error::NoString`]; then [`Error::Memory`], and [`Error::Unended`].
    pub fn string_length(&self, offset: u64) -> Result<u64> {
        self.image.object().string(self.index, offset)
    }

    // ---- Where a symbol is defined

    /// The table of extended indexes of a symbol table: the first section of type
    /// `SHT_SYMTAB_SHNDX` that links to it. Nothing where there is none.
    ///
    /// It refuses as [`Section::items`].
    pub fn extended_indexes(&self) -> Result<Option<Table<'data, u32>>> {
        let found = self.image.sections().find(|section| {
            section.header.stype == elf::SHT_SYMTAB_SHNDX && section.header.link == self.index
        });
        found.map(|section| section.items()).transpose()
    }

    /// Where a symbol of this table is defined, by its `st_shndx` and where that is `SHN_XINDEX`
    /// by the table of extended indexes.
    ///
    /// It refuses as [`Section::items`], on either table, and [`Error::NoEntry`] where the table
    /// of extended indexes or its entry is not there.
    pub fn symbol_place(&self, i: usize) -> Result<Place> {
        let symbol = self.symbols()?.get(i).ok_or(Error::NoEntry)?;
        match symbol.shndx {
            elf::SHN_XINDEX => {
                let table = self.extended_indexes()?.ok_or(Error::NoEntry)?;
                table.get(i).map(Place::Section).ok_or(Error::NoEntry)
            }
            special @ elf::SHN_LORESERVE.. => Ok(Place::Special(special)),
            index => Ok(Place::Section(u32::from(index))),
        }
    }

    // ---- Notes and version records

    /// Its notes, each by a call of `elfkit_note`.
    pub fn notes(&self) -> Notes<'image, 'data> {
        Notes::new(*self)
    }

    /// Its version definitions, each by a call of `elfkit_verdef`.
    pub fn version_definitions(&self) -> VersionDefinitions<'image, 'data> {
        VersionDefinitions::new(*self)
    }

    /// What it needs of other files, each by a call of `elfkit_verneed`.
    pub fn version_needs(&self) -> VersionNeeds<'image, 'data> {
        VersionNeeds::new(*self)
    }
}

impl fmt::Debug for Section<'_, '_> {
    fn fmt(&self, f: &mut fmt::Formatter<'_>) -> fmt::Result {
        f.debug_struct("Section")
            .field("index", &self.index)
            .field("header", &self.header)
            .finish_non_exhaustive()
    }
}

/// Goes over the sections of an image.
#[derive(Clone, Debug)]
pub struct Sections<'image, 'data> {
    image: &'image Image<'data>,
    left: std::ops::Range<u32>,
}

impl<'image, 'data> Sections<'image, 'data> {
    pub(crate) fn new(image: &'image Image<'data>) -> Sections<'image, 'data> {
        Sections { image, left: 0..image.section_count() }
    }
}

impl<'image, 'data> Iterator for Sections<'image, 'data> {
    type Item = Section<'image, 'data>;

    fn next(&mut self) -> Option<Section<'image, 'data>> {
        self.left.next().and_then(|index| self.image.section(index).ok())
    }

    fn size_hint(&self) -> (usize, Option<usize>) {
        self.left.size_hint()
    }
}

impl ExactSizeIterator for Sections<'_, '_> {}

impl FusedIterator for Sections<'_, '_> {}
