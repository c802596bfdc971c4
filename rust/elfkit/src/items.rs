//! The items of a section: a table, which is read where it is in the image.
//!
//! The core says of a section what its items are and where they are; an item is then a few
//! numbers at a place, which this module takes from the bytes. The core decodes items too, by a
//! call for each: [`Section::item`](crate::Section::item) is that, and the tests compare every
//! item of every table that they come to with it.

use crate::error::{Error, Result};
use crate::raw::Object;
use crate::records::{Class, Dynamic, Kind, Order, Rel, Rela, Symbol};

/// In which form an image has its items.
#[derive(Clone, Copy, Debug, PartialEq, Eq)]
pub struct Form {
    /// The class of the image.
    pub class: Class,
    /// Its byte order.
    pub order: Order,
}

mod sealed {
    pub trait Sealed {}
}

/// An item of a section: [`Symbol`], [`Rel`], [`Rela`], [`Dynamic`], or a number: `u16`, `u32`,
/// and `u64` for an address. No other type is one.
pub trait Item: sealed::Sealed + Copy + std::fmt::Debug + PartialEq {
    /// The kind of a section that holds such items.
    const KIND: Kind;

    /// The size of one in the file, in bytes.
    fn size(class: Class) -> usize;

    /// The first item of bytes, and those behind it; nothing where they are too few.
    #[doc(hidden)]
    fn first(bytes: &[u8], form: Form) -> Option<(Self, &[u8])>;

    /// Appends it in the form of a file; `Unfit` where a value does not fit the class.
    #[doc(hidden)]
    fn put(&self, form: Form, out: &mut Vec<u8>) -> Result<()>;

    /// The core's answer for the item at an index of piece 0 of a section.
    #[doc(hidden)]
    fn asked(object: &Asked<'_>, section: u32, i: u64) -> Result<Self>;
}

/// The core's object, as [`Item::asked`] gets it.
#[doc(hidden)]
#[allow(missing_debug_implementations)]
pub struct Asked<'a>(pub(crate) &'a Object<'a>);

// ---- Numbers in bytes

/// The bytes of a number at a place of an item, which is as long.
#[inline(always)]
fn part<const N: usize, const SIZE: usize>(bytes: &[u8; SIZE], at: usize) -> [u8; N] {
    match bytes.get(at..).and_then(<[u8]>::first_chunk) {
        Some(found) => *found,
        None => [0; N],
    }
}

impl Order {
    #[inline(always)]
    fn half<const SIZE: usize>(self, bytes: &[u8; SIZE], at: usize) -> u16 {
        match self {
            Order::Least => u16::from_le_bytes(part(bytes, at)),
            Order::Greatest => u16::from_be_bytes(part(bytes, at)),
        }
    }

    #[inline(always)]
    fn word<const SIZE: usize>(self, bytes: &[u8; SIZE], at: usize) -> u32 {
        match self {
            Order::Least => u32::from_le_bytes(part(bytes, at)),
            Order::Greatest => u32::from_be_bytes(part(bytes, at)),
        }
    }

    #[inline(always)]
    fn long<const SIZE: usize>(self, bytes: &[u8; SIZE], at: usize) -> u64 {
        match self {
            Order::Least => u64::from_le_bytes(part(bytes, at)),
            Order::Greatest => u64::from_be_bytes(part(bytes, at)),
        }
    }

    /// A number of four bytes, as a long one.
    #[inline(always)]
    fn short<const SIZE: usize>(self, bytes: &[u8; SIZE], at: usize) -> u64 {
        u64::from(self.word(bytes, at))
    }

    /// The same of a number with a sign.
    #[inline(always)]
    fn signed<const SIZE: usize>(self, bytes: &[u8; SIZE], at: usize) -> i64 {
        i64::from(self.word(bytes, at) as i32)
    }
}

/// What is put into a file, in its form.
struct Putter<'a> {
    form: Form,
    out: &'a mut Vec<u8>,
}

impl Putter<'_> {
    fn bytes(&mut self, least: &[u8]) -> Result<()> {
        self.out.try_reserve(least.len())?;
        match self.form.order {
            Order::Least => self.out.extend_from_slice(least),
            Order::Greatest => self.out.extend(least.iter().rev()),
        }
        Ok(())
    }

    fn half(&mut self, number: u16) -> Result<()> {
        self.bytes(&number.to_le_bytes())
    }

    fn word(&mut self, number: u32) -> Result<()> {
        self.bytes(&number.to_le_bytes())
    }

    /// An address or a size: of four bytes in class 32.
    fn wide(&mut self, number: u64) -> Result<()> {
        match self.form.class {
            Class::C64 => self.bytes(&number.to_le_bytes()),
            Class::C32 => self.word(u32::try_from(number).map_err(|_| Error::Unfit)?),
        }
    }

    fn wide_signed(&mut self, number: i64) -> Result<()> {
        match self.form.class {
            Class::C64 => self.bytes(&number.to_le_bytes()),
            Class::C32 => {
                let number = i32::try_from(number).map_err(|_| Error::Unfit)?;
                self.bytes(&number.to_le_bytes())
            }
        }
    }

    /// `r_info`, whose symbol has 24 bits and whose type has 8 in class 32.
    fn info(&mut self, symbol: u32, rtype: u32) -> Result<()> {
        match self.form.class {
            Class::C64 => self.wide((u64::from(symbol) << 32) | u64::from(rtype)),
            Class::C32 if symbol < 1 << 24 && rtype < 1 << 8 => self.word((symbol << 8) | rtype),
            Class::C32 => Err(Error::Unfit),
        }
    }
}

/// `r_info` of class 32 in the form of class 64.
#[inline(always)]
fn wide_info(info: u32) -> u64 {
    (u64::from(info >> 8) << 32) | u64::from(info & 0xff)
}

// ---- The items

impl sealed::Sealed for Symbol {}

impl Item for Symbol {
    const KIND: Kind = Kind::Sym;

    fn size(class: Class) -> usize {
        match class {
            Class::C32 => 16,
            Class::C64 => 24,
        }
    }

    #[inline(always)]
    fn first(bytes: &[u8], form: Form) -> Option<(Symbol, &[u8])> {
        let n = form.order;
        match form.class {
            Class::C64 => bytes.split_first_chunk::<24>().map(|(b, behind)| {
                let [_, _, _, _, info, other, ..] = *b;
                let (name, shndx) = (n.word(b, 0), n.half(b, 6));
                let (value, size) = (n.long(b, 8), n.long(b, 16));
                (Symbol { name, info, other, shndx, value, size }, behind)
            }),
            Class::C32 => bytes.split_first_chunk::<16>().map(|(b, behind)| {
                let [.., info, other, _, _] = *b;
                let (name, shndx) = (n.word(b, 0), n.half(b, 14));
                let (value, size) = (n.short(b, 4), n.short(b, 8));
                (Symbol { name, info, other, shndx, value, size }, behind)
            }),
        }
    }

    fn put(&self, form: Form, out: &mut Vec<u8>) -> Result<()> {
        let mut to = Putter { form, out };
        to.word(self.name)?;
        if form.class == Class::C32 {
            to.wide(self.value)?;
            to.wide(self.size)?;
        }
        to.bytes(&[self.info])?;
        to.bytes(&[self.other])?;
        to.half(self.shndx)?;
        if form.class == Class::C64 {
            to.wide(self.value)?;
            to.wide(self.size)?;
        }
        Ok(())
    }

    fn asked(object: &Asked<'_>, section: u32, i: u64) -> Result<Symbol> {
        object.0.sym(section, 0, i)
    }
}

impl sealed::Sealed for Rel {}

impl Item for Rel {
    const KIND: Kind = Kind::Rel;

    fn size(class: Class) -> usize {
        match class {
            Class::C32 => 8,
            Class::C64 => 16,
        }
    }

    #[inline(always)]
    fn first(bytes: &[u8], form: Form) -> Option<(Rel, &[u8])> {
        let n = form.order;
        match form.class {
            Class::C64 => bytes
                .split_first_chunk::<16>()
                .map(|(b, behind)| (Rel { offset: n.long(b, 0), info: n.long(b, 8) }, behind)),
            Class::C32 => bytes.split_first_chunk::<8>().map(|(b, behind)| {
                (Rel { offset: n.short(b, 0), info: wide_info(n.word(b, 4)) }, behind)
            }),
        }
    }

    fn put(&self, form: Form, out: &mut Vec<u8>) -> Result<()> {
        let mut to = Putter { form, out };
        to.wide(self.offset)?;
        to.info(self.symbol(), self.rtype())
    }

    fn asked(object: &Asked<'_>, section: u32, i: u64) -> Result<Rel> {
        object.0.rel(section, 0, i)
    }
}

impl sealed::Sealed for Rela {}

impl Item for Rela {
    const KIND: Kind = Kind::Rela;

    fn size(class: Class) -> usize {
        match class {
            Class::C32 => 12,
            Class::C64 => 24,
        }
    }

    #[inline(always)]
    fn first(bytes: &[u8], form: Form) -> Option<(Rela, &[u8])> {
        let n = form.order;
        match form.class {
            Class::C64 => bytes.split_first_chunk::<24>().map(|(b, behind)| {
                let addend = n.long(b, 16) as i64;
                (Rela { offset: n.long(b, 0), info: n.long(b, 8), addend }, behind)
            }),
            Class::C32 => bytes.split_first_chunk::<12>().map(|(b, behind)| {
                let (info, addend) = (wide_info(n.word(b, 4)), n.signed(b, 8));
                (Rela { offset: n.short(b, 0), info, addend }, behind)
            }),
        }
    }

    fn put(&self, form: Form, out: &mut Vec<u8>) -> Result<()> {
        let mut to = Putter { form, out };
        to.wide(self.offset)?;
        to.info(self.symbol(), self.rtype())?;
        to.wide_signed(self.addend)
    }

    fn asked(object: &Asked<'_>, section: u32, i: u64) -> Result<Rela> {
        object.0.rela(section, 0, i)
    }
}

impl sealed::Sealed for Dynamic {}

impl Item for Dynamic {
    const KIND: Kind = Kind::Dyn;

    fn size(class: Class) -> usize {
        match class {
            Class::C32 => 8,
            Class::C64 => 16,
        }
    }

    #[inline(always)]
    fn first(bytes: &[u8], form: Form) -> Option<(Dynamic, &[u8])> {
        let n = form.order;
        match form.class {
            Class::C64 => bytes.split_first_chunk::<16>().map(|(b, behind)| {
                (Dynamic { tag: n.long(b, 0) as i64, val: n.long(b, 8) }, behind)
            }),
            Class::C32 => bytes
                .split_first_chunk::<8>()
                .map(|(b, behind)| (Dynamic { tag: n.signed(b, 0), val: n.short(b, 4) }, behind)),
        }
    }

    fn put(&self, form: Form, out: &mut Vec<u8>) -> Result<()> {
        let mut to = Putter { form, out };
        to.wide_signed(self.tag)?;
        to.wide(self.val)
    }

    fn asked(object: &Asked<'_>, section: u32, i: u64) -> Result<Dynamic> {
        object.0.dynamic(section, 0, i)
    }
}

impl sealed::Sealed for u16 {}

impl Item for u16 {
    const KIND: Kind = Kind::Half;

    fn size(_: Class) -> usize {
        2
    }

    #[inline(always)]
    fn first(bytes: &[u8], form: Form) -> Option<(u16, &[u8])> {
        let (b, behind) = bytes.split_first_chunk::<2>()?;
        Some((form.order.half(b, 0), behind))
    }

    fn put(&self, form: Form, out: &mut Vec<u8>) -> Result<()> {
        Putter { form, out }.half(*self)
    }

    fn asked(object: &Asked<'_>, section: u32, i: u64) -> Result<u16> {
        object.0.half(section, 0, i)
    }
}

impl sealed::Sealed for u32 {}

impl Item for u32 {
    const KIND: Kind = Kind::Word;

    fn size(_: Class) -> usize {
        4
    }

    #[inline(always)]
    fn first(bytes: &[u8], form: Form) -> Option<(u32, &[u8])> {
        let (b, behind) = bytes.split_first_chunk::<4>()?;
        Some((form.order.word(b, 0), behind))
    }

    fn put(&self, form: Form, out: &mut Vec<u8>) -> Result<()> {
        Putter { form, out }.word(*self)
    }

    fn asked(object: &Asked<'_>, section: u32, i: u64) -> Result<u32> {
        object.0.word(section, 0, i)
    }
}

impl sealed::Sealed for u64 {}

impl Item for u64 {
    const KIND: Kind = Kind::Addr;

    fn size(class: Class) -> usize {
        match class {
            Class::C32 => 4,
            Class::C64 => 8,
        }
    }

    #[inline(always)]
    fn first(bytes: &[u8], form: Form) -> Option<(u64, &[u8])> {
        match form.class {
            Class::C64 => {
                let (b, behind) = bytes.split_first_chunk::<8>()?;
                Some((form.order.long(b, 0), behind))
            }
            Class::C32 => {
                let (b, behind) = bytes.split_first_chunk::<4>()?;
                Some((form.order.short(b, 0), behind))
            }
        }
    }

    fn put(&self, form: Form, out: &mut Vec<u8>) -> Result<()> {
        Putter { form, out }.wide(*self)
    }

    fn asked(object: &Asked<'_>, section: u32, i: u64) -> Result<u64> {
        object.0.addr(section, 0, i)
    }
}
