//! The records of gelf(3E), as the core gives and takes them. One form serves both classes.
//!
//! Fields have the gABI's names without their prefix: `SectionHeader::link` is `sh_link`. Types
//! are [`SectionHeader::stype`], [`ProgramHeader::ptype`] and the like.

use crate::elf;
use crate::error::{Error, Result};

/// The class of an image: how wide its addresses are.
#[derive(Clone, Copy, Debug, PartialEq, Eq, Hash)]
pub enum Class {
    /// `ELFCLASS32`.
    C32,
    /// `ELFCLASS64`.
    C64,
}

impl Class {
    /// Its number in `e_ident[EI_CLASS]`.
    pub const fn number(self) -> u8 {
        match self {
            Class::C32 => 1,
            Class::C64 => 2,
        }
    }
}

/// The byte order of an image.
#[derive(Clone, Copy, Debug, PartialEq, Eq, Hash)]
pub enum Order {
    /// `ELFDATA2LSB`: the least byte first.
    Least,
    /// `ELFDATA2MSB`: the greatest byte first.
    Greatest,
}

impl Order {
    /// Its number in `e_ident[EI_DATA]`.
    pub const fn number(self) -> u8 {
        match self {
            Order::Least => 1,
            Order::Greatest => 2,
        }
    }
}

/// What the items of a section are.
#[derive(Clone, Copy, Debug, PartialEq, Eq, Hash)]
pub enum Kind {
    /// Nothing: the section has no bytes in the file.
    Empty,
    /// Bytes.
    Bytes,
    /// Numbers of two bytes.
    Half,
    /// Numbers of four bytes.
    Word,
    /// Addresses: numbers of four or eight bytes, by the class.
    Addr,
    /// Symbols.
    Sym,
    /// Relocations without an addend.
    Rel,
    /// Relocations with an addend.
    Rela,
    /// Entries of the dynamic section.
    Dyn,
}

const KINDS: [Kind; 9] = [
    Kind::Empty,
    Kind::Bytes,
    Kind::Half,
    Kind::Word,
    Kind::Addr,
    Kind::Sym,
    Kind::Rel,
    Kind::Rela,
    Kind::Dyn,
];

impl Kind {
    /// The number by which the core tells it.
    pub fn number(self) -> u32 {
        self as u32
    }

    /// The kind of a number of the core.
    pub(crate) fn of(number: u32) -> Result<Kind> {
        let place = usize::try_from(number).unwrap_or(usize::MAX);
        KINDS.get(place).copied().ok_or(Error::WrongKind)
    }
}

/// The ELF header, with the true counts and the true string index, after extended numbering.
#[repr(C)]
#[derive(Clone, Copy, Debug, Default, PartialEq, Eq)]
pub struct Header {
    /// `e_ident[EI_CLASS]`: 1 or 2. [`Header::class`] gives it as a [`Class`].
    pub class: u8,
    /// `e_ident[EI_DATA]`: 1 or 2. [`Header::order`] gives it as an [`Order`].
    pub order: u8,
    /// `e_ident[EI_OSABI]`.
    pub osabi: u8,
    /// `e_ident[EI_ABIVERSION]`.
    pub abiversion: u8,
    /// `e_type`.
    pub etype: u16,
    /// `e_machine`.
    pub machine: u16,
    /// `e_version`.
    pub version: u32,
    /// `e_entry`.
    pub entry: u64,
    /// `e_phoff`.
    pub phoff: u64,
    /// `e_shoff`.
    pub shoff: u64,
    /// `e_flags`.
    pub flags: u32,
    /// `e_ehsize`.
    pub ehsize: u16,
    /// `e_phentsize`.
    pub phentsize: u16,
    /// The number of program headers.
    pub phnum: u32,
    /// `e_shentsize`.
    pub shentsize: u16,
    /// The number of section headers.
    pub shnum: u32,
    /// The number of the section that holds the sections' names.
    pub shstrndx: u32,
}

impl Header {
    /// The class.
    pub fn class(&self) -> Class {
        if self.class == Class::C32.number() {
            Class::C32
        } else {
            Class::C64
        }
    }

    /// The byte order.
    pub fn order(&self) -> Order {
        if self.order == Order::Greatest.number() {
            Order::Greatest
        } else {
            Order::Least
        }
    }
}

/// A program header.
#[repr(C)]
#[derive(Clone, Copy, Debug, Default, PartialEq, Eq)]
pub struct ProgramHeader {
    /// `p_type`.
    pub ptype: u32,
    /// `p_flags`.
    pub flags: u32,
    /// `p_offset`.
    pub offset: u64,
    /// `p_vaddr`.
    pub vaddr: u64,
    /// `p_paddr`.
    pub paddr: u64,
    /// `p_filesz`.
    pub filesz: u64,
    /// `p_memsz`.
    pub memsz: u64,
    /// `p_align`.
    pub align: u64,
}

/// A section header.
#[repr(C)]
#[derive(Clone, Copy, Debug, Default, PartialEq, Eq)]
pub struct SectionHeader {
    /// `sh_name`: where its name begins in the section of the names.
    pub name: u32,
    /// `sh_type`.
    pub stype: u32,
    /// `sh_flags`.
    pub flags: u64,
    /// `sh_addr`.
    pub addr: u64,
    /// `sh_offset`.
    pub offset: u64,
    /// `sh_size`.
    pub size: u64,
    /// `sh_link`.
    pub link: u32,
    /// `sh_info`.
    pub info: u32,
    /// `sh_addralign`.
    pub addralign: u64,
    /// `sh_entsize`.
    pub entsize: u64,
}

impl SectionHeader {
    /// Whether it is in memory when the program runs: `SHF_ALLOC`.
    pub fn is_allocated(&self) -> bool {
        self.flags & elf::SHF_ALLOC != 0
    }

    /// Whether its bytes are compressed: `SHF_COMPRESSED`.
    pub fn is_compressed(&self) -> bool {
        self.flags & elf::SHF_COMPRESSED != 0
    }

    /// Whether its type is one that has bytes in the file.
    pub fn has_file_bytes(&self) -> bool {
        self.stype != elf::SHT_NULL && self.stype != elf::SHT_NOBITS
    }
}

/// A symbol.
#[repr(C)]
#[derive(Clone, Copy, Debug, Default, PartialEq, Eq)]
pub struct Symbol {
    /// `st_name`: where its name begins in the section to which its table links.
    pub name: u32,
    /// `st_info`: [`Symbol::binding`] and [`Symbol::stype`].
    pub info: u8,
    /// `st_other`: [`Symbol::visibility`] is in it.
    pub other: u8,
    /// `st_shndx`: a section, or one of the special numbers from `SHN_LORESERVE` on.
    pub shndx: u16,
    /// `st_value`.
    pub value: u64,
    /// `st_size`.
    pub size: u64,
}

impl Symbol {
    /// `ELF32_ST_BIND`: one of `STB_LOCAL` and its like.
    pub fn binding(&self) -> u8 {
        self.info >> 4
    }

    /// `ELF32_ST_TYPE`: one of `STT_NOTYPE` and its like.
    pub fn stype(&self) -> u8 {
        self.info & 15
    }

    /// `ELF32_ST_INFO`: a binding and a type, as [`Symbol::info`] has them.
    pub fn info_of(binding: u8, stype: u8) -> u8 {
        (binding << 4) | (stype & 15)
    }

    /// `ELF32_ST_VISIBILITY`: one of `STV_DEFAULT` and its like.
    pub fn visibility(&self) -> u8 {
        self.other & 3
    }

    /// Whether it is local to its object: `STB_LOCAL`.
    pub fn is_local(&self) -> bool {
        self.binding() == elf::STB_LOCAL
    }

    /// Whether it is defined elsewhere: `SHN_UNDEF`.
    pub fn is_undefined(&self) -> bool {
        self.shndx == elf::SHN_UNDEF
    }
}

/// A relocation without an addend.
#[repr(C)]
#[derive(Clone, Copy, Debug, Default, PartialEq, Eq)]
pub struct Rel {
    /// `r_offset`.
    pub offset: u64,
    /// `r_info` in the form of class 64, in both classes: [`Rel::symbol`] and [`Rel::rtype`].
    pub info: u64,
}

impl Rel {
    /// `ELF64_R_SYM`: the index of the symbol.
    pub fn symbol(&self) -> u32 {
        (self.info >> 32) as u32
    }

    /// `ELF64_R_TYPE`.
    pub fn rtype(&self) -> u32 {
        self.info as u32
    }
}

/// A relocation with an addend.
#[repr(C)]
#[derive(Clone, Copy, Debug, Default, PartialEq, Eq)]
pub struct Rela {
    /// `r_offset`.
    pub offset: u64,
    /// `r_info` in the form of class 64, in both classes: [`Rela::symbol`] and [`Rela::rtype`].
    pub info: u64,
    /// `r_addend`.
    pub addend: i64,
}

impl Rela {
    /// `ELF64_R_SYM`: the index of the symbol.
    pub fn symbol(&self) -> u32 {
        (self.info >> 32) as u32
    }

    /// `ELF64_R_TYPE`.
    pub fn rtype(&self) -> u32 {
        self.info as u32
    }
}

/// An entry of the dynamic section.
#[repr(C)]
#[derive(Clone, Copy, Debug, Default, PartialEq, Eq)]
pub struct Dynamic {
    /// `d_tag`.
    pub tag: i64,
    /// `d_val` or `d_ptr`.
    pub val: u64,
}

/// A version definition.
#[repr(C)]
#[derive(Clone, Copy, Debug, Default, PartialEq, Eq)]
pub struct Verdef {
    /// `vd_version`.
    pub version: u16,
    /// `vd_flags`.
    pub flags: u16,
    /// `vd_ndx`.
    pub ndx: u16,
    /// `vd_cnt`: how many names it has.
    pub cnt: u16,
    /// `vd_hash`.
    pub hash: u32,
    /// `vd_aux`: how far behind it its first name is.
    pub aux: u32,
    /// `vd_next`: how far behind it the next definition is, 0 for none.
    pub next: u32,
}

/// A name of a version definition.
#[repr(C)]
#[derive(Clone, Copy, Debug, Default, PartialEq, Eq)]
pub struct Verdaux {
    /// `vda_name`: where the name begins in the section to which the definitions link.
    pub name: u32,
    /// `vda_next`: how far behind it the next one is, 0 for none.
    pub next: u32,
}

/// What is needed of one file.
#[repr(C)]
#[derive(Clone, Copy, Debug, Default, PartialEq, Eq)]
pub struct Verneed {
    /// `vn_version`.
    pub version: u16,
    /// `vn_cnt`: how many versions are needed.
    pub cnt: u16,
    /// `vn_file`: where the file's name begins in the section to which the needs link.
    pub file: u32,
    /// `vn_aux`: how far behind it its first version is.
    pub aux: u32,
    /// `vn_next`: how far behind it the next file is, 0 for none.
    pub next: u32,
}

/// A needed version.
#[repr(C)]
#[derive(Clone, Copy, Debug, Default, PartialEq, Eq)]
pub struct Vernaux {
    /// `vna_hash`.
    pub hash: u32,
    /// `vna_flags`.
    pub flags: u16,
    /// `vna_other`: the number of the version.
    pub other: u16,
    /// `vna_name`: where the version's name begins in the section to which the needs link.
    pub name: u32,
    /// `vna_next`: how far behind it the next one is, 0 for none.
    pub next: u32,
}
