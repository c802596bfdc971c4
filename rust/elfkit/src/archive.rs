//! Archives of the System V format: their members, and the table of their symbols.

use std::fmt;
use std::iter::FusedIterator;

use crate::error::{Error, Result};
use crate::image::{range, Image};
use crate::raw::Walk;

/// An archive over bytes that somebody else holds.
pub struct Archive<'data> {
    data: &'data [u8],
}

impl<'data> Archive<'data> {
    /// Opens an archive: reads its first line.
    ///
    /// Rests on `elfkit_ar_begin`. It refuses, in this order: [`Error::Short`], [`Error::Magic`],
    /// [`Error::TooLarge`]; or [`Error::Memory`].
    pub fn parse(data: &'data [u8]) -> Result<Archive<'data>> {
        Ok(Archive { data: Walk::begin(data)?.data() })
    }

    /// The bytes that it was opened over.
    pub fn data(&self) -> &'data [u8] {
        self.data
    }

    /// The members in their order, without the tables of symbols and of names.
    ///
    /// Rests on `elfkit_ar_begin`, `elfkit_ar_next` and `elfkit_ar_name`. It refuses
    /// [`Error::Memory`]; what refuses a member is the last that the iterator gives.
    pub fn members(&self) -> Result<Members<'data>> {
        Ok(Members { walk: Some(Walk::begin(self.data)?) })
    }

    /// The member whose header is at a place, as [`ArchiveSymbol::at`] is one. It goes over the
    /// members up to that.
    ///
    /// It refuses as [`Archive::members`] and the members before, and [`Error::NoEntry`] where no
    /// member's header is there.
    pub fn member_at(&self, at: u64) -> Result<Member<'data>> {
        for member in self.members()? {
            let member = member?;
            if member.at == at {
                return Ok(member);
            }
        }
        Err(Error::NoEntry)
    }

    /// The table of symbols; empty where the archive has none.
    ///
    /// Rests on `elfkit_ar_symbols`, `elfkit_ar_symbol` and `elfkit_ar_symbol_name`. It refuses
    /// [`Error::BadMember`] where the first header or the table is bad, and [`Error::Memory`].
    pub fn symbols(&self) -> Result<ArchiveSymbols<'data>> {
        let mut walk = Walk::begin(self.data)?;
        let count = walk.symbols()?;
        Ok(ArchiveSymbols { walk, left: 0..count })
    }
}

impl fmt::Debug for Archive<'_> {
    fn fmt(&self, f: &mut fmt::Formatter<'_>) -> fmt::Result {
        f.debug_struct("Archive").field("len", &self.data.len()).finish_non_exhaustive()
    }
}

/// A member of an archive.
#[derive(Clone, PartialEq, Eq)]
pub struct Member<'data> {
    name: Vec<u8>,
    data: &'data [u8],
    /// The place of its header in the archive, in bytes.
    pub at: u64,
    /// The mode of the file.
    pub mode: u32,
    /// The owner's number.
    pub uid: u32,
    /// The group's number.
    pub gid: u32,
    /// The time of the last change, in seconds since 1970.
    pub date: u64,
}

impl<'data> Member<'data> {
    /// Its name.
    pub fn name(&self) -> &[u8] {
        &self.name
    }

    /// Its bytes, which live as long as the archive's.
    pub fn data(&self) -> &'data [u8] {
        self.data
    }

    /// Its image: [`Image::parse`] over its bytes.
    pub fn image(&self) -> Result<Image<'data>> {
        Image::parse(self.data)
    }
}

impl fmt::Debug for Member<'_> {
    fn fmt(&self, f: &mut fmt::Formatter<'_>) -> fmt::Result {
        f.debug_struct("Member")
            .field("name", &String::from_utf8_lossy(&self.name))
            .field("at", &self.at)
            .field("len", &self.data.len())
            .finish_non_exhaustive()
    }
}

/// Goes over the members of an archive: [`Archive::members`]. A bad header is
/// [`Error::BadMember`], and ends it, as [`Error::Memory`] does.
pub struct Members<'data> {
    walk: Option<Walk<'data>>,
}

impl fmt::Debug for Members<'_> {
    fn fmt(&self, f: &mut fmt::Formatter<'_>) -> fmt::Result {
        f.debug_struct("Members").finish_non_exhaustive()
    }
}

/// The next member of a walk.
fn next_member<'data>(walk: &mut Walk<'data>) -> Result<Option<Member<'data>>> {
    let Some((record, name)) = walk.next()? else {
        return Ok(None);
    };
    let data = range(walk.data(), record.body, record.size).ok_or(Error::BadMember)?;
    let (at, mode, uid, gid, date) = (record.at, record.mode, record.uid, record.gid, record.date);
    Ok(Some(Member { name, data, at, mode, uid, gid, date }))
}

impl<'data> Iterator for Members<'data> {
    type Item = Result<Member<'data>>;

    fn next(&mut self) -> Option<Result<Member<'data>>> {
        let given = next_member(self.walk.as_mut()?).transpose();
        if !matches!(given, Some(Ok(_))) {
            self.walk = None;
        }
        given
    }
}

impl FusedIterator for Members<'_> {}

/// A symbol of an archive's table.
#[derive(Clone, PartialEq, Eq)]
pub struct ArchiveSymbol {
    name: Vec<u8>,
    /// The place of the header of the member that defines it: [`Archive::member_at`].
    pub at: u64,
}

impl ArchiveSymbol {
    /// Its name.
    pub fn name(&self) -> &[u8] {
        &self.name
    }
}

impl fmt::Debug for ArchiveSymbol {
    fn fmt(&self, f: &mut fmt::Formatter<'_>) -> fmt::Result {
        f.debug_struct("ArchiveSymbol")
            .field("name", &String::from_utf8_lossy(&self.name))
            .field("at", &self.at)
            .finish()
    }
}

/// Goes over the symbols of an archive: [`Archive::symbols`]. It refuses [`Error::Memory`] for the
/// name of one, and goes on behind it.
pub struct ArchiveSymbols<'data> {
    walk: Walk<'data>,
    left: std::ops::Range<u64>,
}

impl ArchiveSymbols<'_> {
    /// The number of symbols that are left.
    pub fn count_left(&self) -> u64 {
        self.left.end.saturating_sub(self.left.start)
    }
}

impl fmt::Debug for ArchiveSymbols<'_> {
    fn fmt(&self, f: &mut fmt::Formatter<'_>) -> fmt::Result {
        f.debug_struct("ArchiveSymbols").field("left", &self.left).finish_non_exhaustive()
    }
}

impl Iterator for ArchiveSymbols<'_> {
    type Item = Result<ArchiveSymbol>;

    fn next(&mut self) -> Option<Result<ArchiveSymbol>> {
        let i = self.left.next()?;
        Some(self.walk.symbol(i).map(|(record, name)| ArchiveSymbol { name, at: record.at }))
    }
}

impl FusedIterator for ArchiveSymbols<'_> {}
