//! Items that are stored in a section of an image that is edited.
//!
//! The core takes the data of a section as bytes. So what is stored of a section goes into a copy
//! of its bytes, once for all of its items, and the core gets that when the image is laid out.

use crate::editor::{put_data, Editor};
use crate::error::{Error, Result};
use crate::image::range;
use crate::items::{Asked, Item};
use crate::raw::Object;
use crate::records::{Dynamic, Kind, Symbol};
use crate::table::Table;

/// The sections some items of which were stored, in the order of their numbers.
#[derive(Default)]
pub(crate) struct Stored {
    sections: Vec<StoredSection>,
    /// Where an item is put together.
    item: Vec<u8>,
}

struct StoredSection {
    section: u32,
    kind: Kind,
    bytes: Vec<u8>,
    /// The core has these bytes.
    is_handed: bool,
}

impl Stored {
    /// Where a section is, or where it would be.
    fn place_of(&self, section: u32) -> std::result::Result<usize, usize> {
        self.sections.binary_search_by_key(&section, |stored| stored.section)
    }

    fn get(&self, section: u32) -> Option<&StoredSection> {
        self.place_of(section).ok().and_then(|place| self.sections.get(place))
    }

    /// What is stored of a section, and where an item is put together.
    fn of(&mut self, section: u32) -> Result<(&mut StoredSection, &mut Vec<u8>)> {
        let place = self.place_of(section).map_err(|_| Error::NoData)?;
        let stored = self.sections.get_mut(place).ok_or(Error::NoData)?;
        Ok((stored, &mut self.item))
    }

    /// Forgets what was stored of a section.
    pub fn forget(&mut self, section: u32) {
        if let Ok(place) = self.place_of(section) {
            self.sections.remove(place);
        }
    }

    /// How many bytes the sections have.
    pub fn bytes(&self) -> u64 {
        self.sections.iter().map(|stored| stored.bytes.len() as u64).fold(0, u64::saturating_add)
    }

    /// Hands the core what it has not.
    fn hand_over(&mut self, object: &mut Object<'_>) -> Result<()> {
        for stored in self.sections.iter_mut().filter(|stored| !stored.is_handed) {
            put_data(object, stored.section, &stored.bytes)?;
            stored.is_handed = true;
        }
        Ok(())
    }
}

impl<'data> Editor<'data> {
    /// An item of a section by its index: as it was stored, or else by the core.
    ///
    /// Rests on `elfkit_sym` and its like, as [`Section::item`](crate::Section::item) does, and
    /// refuses as that.
    pub fn item<T: Item>(&self, section: u32, i: u64) -> Result<T> {
        match self.stored.get(section) {
            None => T::asked(&Asked(&self.object), section, i),
            Some(stored) if stored.kind == T::KIND => {
                let i = usize::try_from(i).map_err(|_| Error::NoEntry)?;
                Table::new(&stored.bytes, self.form).get(i).ok_or(Error::NoEntry)
            }
            Some(_) => Err(Error::WrongKind),
        }
    }

    /// Stores an item of a section at an index.
    ///
    /// Rests on `elfkit_kind` and `elfkit_home`, and on `elfkit_replace` when the image is laid
    /// out; this crate puts the item into the bytes. It refuses, in this order:
    /// [`Error::NoSection`], [`Error::Reserved`] for section 0, [`Error::WrongKind`], also where
    /// data of the section was given as bytes, [`Error::OutOfFile`], [`Error::Ragged`],
    /// [`Error::Memory`], [`Error::NoEntry`], [`Error::Unfit`].
    pub fn set_item<T: Item>(&mut self, section: u32, i: u64, item: &T) -> Result<()> {
        let (form, size) = (self.form, T::size(self.form.class));
        self.store(section, T::KIND, size)?;
        let (stored, scratch) = self.stored.of(section)?;
        scratch.clear();
        let fits = item.put(form, scratch);
        let at = usize::try_from(i).ok().and_then(|i| i.checked_mul(size));
        let end = at.and_then(|at| at.checked_add(size));
        let range = at.zip(end).map(|(at, end)| at..end).ok_or(Error::NoEntry)?;
        let to = stored.bytes.get_mut(range).ok_or(Error::NoEntry)?;
        fits?;
        to.copy_from_slice(scratch);
        stored.is_handed = false;
        Ok(())
    }

    /// Stores a symbol: [`Editor::set_item`].
    pub fn set_symbol(&mut self, section: u32, i: u64, symbol: &Symbol) -> Result<()> {
        self.set_item(section, i, symbol)
    }

    /// Stores an entry of the dynamic section: [`Editor::set_item`].
    pub fn set_dynamic(&mut self, section: u32, i: u64, entry: &Dynamic) -> Result<()> {
        self.set_item(section, i, entry)
    }

    /// Adds an item behind those of a section, and gives its index.
    ///
    /// Rests on the same exports as [`Editor::set_item`], and refuses as that, but for
    /// [`Error::NoEntry`].
    pub fn add_item<T: Item>(&mut self, section: u32, item: &T) -> Result<u64> {
        let (form, size) = (self.form, T::size(self.form.class));
        self.store(section, T::KIND, size)?;
        let (stored, scratch) = self.stored.of(section)?;
        scratch.clear();
        item.put(form, scratch)?;
        stored.bytes.try_reserve(size)?;
        let index = stored.bytes.len().checked_div(size).unwrap_or(0);
        stored.bytes.extend_from_slice(scratch);
        stored.is_handed = false;
        Ok(index as u64)
    }

    /// Adds a string, and its NUL, behind those of a section, and gives its offset, as `sh_name`
    /// or `st_name` has it. A section without bytes gets a NUL before it.
    ///
    /// Rests on the same exports as [`Editor::set_item`]. It refuses [`Error::NoString`] where the
    /// string has a NUL; then as [`Editor::set_item`]; and [`Error::TooLarge`] where the offset
    /// would be 2^32 or more.
    pub fn add_string(&mut self, section: u32, string: impl AsRef<[u8]>) -> Result<u32> {
        let string = string.as_ref();
        if string.contains(&0) {
            return Err(Error::NoString);
        }
        self.store(section, Kind::Bytes, 1)?;
        let (stored, _) = self.stored.of(section)?;
        let at = stored.bytes.len().max(1);
        let offset = u32::try_from(at).map_err(|_| Error::TooLarge)?;
        stored.bytes.try_reserve(string.len().saturating_add(2))?;
        stored.bytes.resize(at, 0);
        stored.bytes.extend_from_slice(string);
        stored.bytes.push(0);
        stored.is_handed = false;
        Ok(offset)
    }

    /// Hands the core what was stored.
    pub(crate) fn hand_over(&mut self) -> Result<()> {
        self.stored.hand_over(&mut self.object)
    }

    /// Has the bytes of a section stored, which are those of the image at first. They hold items
    /// of a kind and of a size.
    fn store(&mut self, section: u32, kind: Kind, size: usize) -> Result<()> {
        let place = match self.stored.place_of(section) {
            Err(place) => place,
            Ok(_) if self.stored.get(section).is_some_and(|found| found.kind == kind) => {
                return Ok(());
            }
            Ok(_) => return Err(Error::WrongKind),
        };
        let home = self.home_bytes(section, kind, size)?;
        let mut bytes = Vec::new();
        bytes.try_reserve_exact(home.len())?;
        bytes.extend_from_slice(home);
        self.stored.sections.try_reserve(1)?;
        self.stored.sections.insert(place, StoredSection { section, kind, bytes, is_handed: true });
        Ok(())
    }

    /// The bytes that a section has in the image, of items of a kind and of a size; none of one
    /// that has no data yet.
    fn home_bytes(&self, section: u32, kind: Kind, size: usize) -> Result<&'data [u8]> {
        let held = match self.object.kind(section, 0) {
            Ok(number) => Kind::of(number)?,
            Err(Error::NoData) => kind,
            Err(refusal) => return Err(refusal),
        };
        if section == 0 {
            return Err(Error::Reserved);
        }
        if held != kind || self.is_given(section) {
            return Err(Error::WrongKind);
        }
        let home = self.object.home(section)?;
        let bytes = match home.len {
            0 => &[],
            len => range(self.object.data(), home.at, len).ok_or(Error::OutOfFile)?,
        };
        match bytes.len().checked_rem(size) {
            Some(0) => Ok(bytes),
            _ => Err(Error::Ragged),
        }
    }
}
