//! What the crates `elfkit` and `object` read of the same bytes, compared.
//!
//! A difference ends the comparison of a file, with a line that says where. What `object` refuses
//! is not compared, but counted.

use elfkit::{Archive, Image, Section};
use object::elf::{FileHeader32, FileHeader64};
use object::read::archive::ArchiveFile;
use object::read::elf::{
    Dyn, FileHeader, ProgramHeader, Rel, Rela, SectionHeader, SectionTable, Sym, SymbolTable,
};
use object::{Endianness, FileKind, SectionIndex};

mod versions;

/// What was compared.
#[derive(Clone, Copy, Debug, Default)]
pub struct Counts {
    pub images: usize,
    pub archives: usize,
    pub sections: usize,
    pub symbols: usize,
    pub relocations: usize,
    pub entries: usize,
    pub notes: usize,
    pub versions: usize,
    pub lookups: usize,
    /// Tables and images that `object` refuses.
    pub refused: usize,
}

impl Counts {
    pub fn add(&mut self, other: Counts) {
        self.images += other.images;
        self.archives += other.archives;
        self.sections += other.sections;
        self.symbols += other.symbols;
        self.relocations += other.relocations;
        self.entries += other.entries;
        self.notes += other.notes;
        self.versions += other.versions;
        self.lookups += other.lookups;
        self.refused += other.refused;
    }
}

/// What is compared, or in which words it differs.
pub type Compared = Result<Counts, String>;

/// Fails where two things are not the same.
macro_rules! same {
    ($mine:expr, $theirs:expr, $($place:tt)*) => {{
        let (mine, theirs) = ($mine, $theirs);
        if mine != theirs {
            return Err(format!("{}: {mine:?} and {theirs:?}", format!($($place)*)));
        }
    }};
}
pub(crate) use same;

/// An image, as both crates have it.
pub(crate) struct Both<'a, 'data, E: FileHeader> {
    pub data: &'data [u8],
    pub endian: E::Endian,
    pub sections: SectionTable<'data, E>,
    pub image: &'a Image<'data>,
}

/// Compares what both read of a file: an image, or an archive.
pub fn compare(data: &[u8]) -> Compared {
    match FileKind::parse(data) {
        Ok(FileKind::Elf32) => compare_images::<FileHeader32<Endianness>>(data),
        Ok(FileKind::Elf64) => compare_images::<FileHeader64<Endianness>>(data),
        Ok(FileKind::Archive) => compare_archives(data),
        _ => Ok(Counts::default()),
    }
}

fn compare_archives(data: &[u8]) -> Compared {
    let mut counts = Counts { archives: 1, ..Default::default() };
    let theirs = ArchiveFile::parse(data).map_err(|refusal| refusal.to_string())?;
    let archive = Archive::parse(data).map_err(|refusal| format!("archive: {refusal}"))?;
    let mut members = archive.members().map_err(|refusal| refusal.to_string())?;
    for theirs in theirs.members() {
        let theirs = theirs.map_err(|refusal| refusal.to_string())?;
        let mine = members.next().ok_or("a member less")?.map_err(|refusal| refusal.to_string())?;
        let name = String::from_utf8_lossy(theirs.name()).into_owned();
        same!(mine.name(), theirs.name(), "name of a member");
        let body = theirs.data(data).map_err(|refusal| refusal.to_string())?;
        same!(mine.data().as_ptr_range(), body.as_ptr_range(), "place of {name}");
        same!(Some(mine.date), theirs.date(), "date of {name}");
        same!(Some(u64::from(mine.mode)), theirs.mode(), "mode of {name}");
        counts.add(compare(body).map_err(|words| format!("{name}: {words}"))?);
    }
    same!(members.next().is_none(), true, "end of the members");
    Ok(counts)
}

fn compare_images<E: FileHeader<Endian = Endianness>>(data: &[u8]) -> Compared {
    let mut counts = Counts { images: 1, ..Default::default() };
    let header = E::parse(data).map_err(|refusal| refusal.to_string())?;
    let endian = header.endian().map_err(|refusal| refusal.to_string())?;
    let Ok(sections) = header.sections(endian, data) else {
        return Ok(Counts { refused: 1, ..Default::default() });
    };
    let image = Image::parse(data).map_err(|refusal| format!("image: {refusal}"))?;
    let both = Both::<E> { data, endian, sections, image: &image };
    both.headers(header)?;
    both.segments(header)?;
    same!(image.sections().len(), both.sections.iter().count(), "count of sections");
    for section in image.sections() {
        let place = SectionIndex(section.index() as usize);
        let theirs = both.sections.section(place).map_err(|refusal| refusal.to_string())?;
        let compared = both.section(&section, theirs);
        counts.add(compared.map_err(|words| format!("section {}: {words}", section.index()))?);
        counts.sections += 1;
    }
    Ok(counts)
}

impl<'data, E: FileHeader<Endian = Endianness>> Both<'_, 'data, E> {
    fn headers(&self, theirs: &E) -> Result<(), String> {
        let (mine, e, data) = (self.image.header(), self.endian, self.data);
        same!(mine.etype, theirs.e_type(e), "e_type");
        same!(mine.machine, theirs.e_machine(e), "e_machine");
        same!(mine.version, theirs.e_version(e), "e_version");
        same!(mine.entry, theirs.e_entry(e).into(), "e_entry");
        same!(mine.phoff, theirs.e_phoff(e).into(), "e_phoff");
        same!(mine.shoff, theirs.e_shoff(e).into(), "e_shoff");
        same!(mine.flags, theirs.e_flags(e), "e_flags");
        same!(mine.ehsize, theirs.e_ehsize(e), "e_ehsize");
        same!(mine.phentsize, theirs.e_phentsize(e), "e_phentsize");
        same!(mine.shentsize, theirs.e_shentsize(e), "e_shentsize");
        same!(mine.osabi, theirs.e_ident().os_abi, "osabi");
        same!(mine.abiversion, theirs.e_ident().abi_version, "abiversion");
        same!(mine.class, theirs.e_ident().class, "class");
        same!(mine.order, theirs.e_ident().data, "order");
        same!(Ok(mine.phnum as usize), theirs.phnum(e, data), "e_phnum");
        same!(Ok(mine.shnum as usize), theirs.shnum(e, data), "e_shnum");
        same!(mine.shstrndx, theirs.shstrndx(e, data).unwrap_or(0), "e_shstrndx");
        Ok(())
    }

    fn segments(&self, header: &E) -> Result<(), String> {
        let (e, image) = (self.endian, self.image);
        let theirs = header.program_headers(e, self.data).map_err(|refusal| refusal.to_string())?;
        same!(image.program_header_count() as usize, theirs.len(), "count of program headers");
        for (i, (mine, theirs)) in image.program_headers().zip(theirs).enumerate() {
            same!(mine.ptype, theirs.p_type(e), "p_type of {i}");
            same!(mine.flags, theirs.p_flags(e), "p_flags of {i}");
            same!(mine.offset, theirs.p_offset(e).into(), "p_offset of {i}");
            same!(mine.vaddr, theirs.p_vaddr(e).into(), "p_vaddr of {i}");
            same!(mine.paddr, theirs.p_paddr(e).into(), "p_paddr of {i}");
            same!(mine.filesz, theirs.p_filesz(e).into(), "p_filesz of {i}");
            same!(mine.memsz, theirs.p_memsz(e).into(), "p_memsz of {i}");
            same!(mine.align, theirs.p_align(e).into(), "p_align of {i}");
            same!(image.segment_data(&mine).ok(), theirs.data(e, self.data).ok(), "data of {i}");
        }
        Ok(())
    }

    /// Compares a section's header, name and bytes, and what it holds.
    fn section(&self, section: &Section<'_, 'data>, theirs: &'data E::SectionHeader) -> Compared {
        let (mine, e) = (section.header(), self.endian);
        same!(mine.name, theirs.sh_name(e), "sh_name");
        same!(mine.stype, theirs.sh_type(e), "sh_type");
        same!(mine.flags, theirs.sh_flags(e).into(), "sh_flags");
        same!(mine.addr, theirs.sh_addr(e).into(), "sh_addr");
        same!(mine.offset, theirs.sh_offset(e).into(), "sh_offset");
        same!(mine.size, theirs.sh_size(e).into(), "sh_size");
        same!(mine.link, theirs.sh_link(e), "sh_link");
        same!(mine.info, theirs.sh_info(e), "sh_info");
        same!(mine.addralign, theirs.sh_addralign(e).into(), "sh_addralign");
        same!(mine.entsize, theirs.sh_entsize(e).into(), "sh_entsize");
        if mine.stype != elfkit::elf::SHT_NULL {
            same!(section.name(), self.sections.section_name(e, theirs).ok(), "name");
            same!(section.data().ok(), theirs.data(e, self.data).ok(), "data");
        }
        let mut counts = Counts::default();
        counts.add(self.symbols(section, theirs)?);
        counts.add(self.rels(section, theirs)?);
        counts.add(self.relas(section, theirs)?);
        counts.add(self.dynamic(section, theirs)?);
        counts.add(self.notes(section, theirs)?);
        counts.add(self.versions(section, theirs)?);
        counts.add(self.lookups(section, theirs)?);
        Ok(counts)
    }

    fn symbols(&self, section: &Section<'_, 'data>, theirs: &E::SectionHeader) -> Compared {
        let (e, place) = (self.endian, SectionIndex(section.index() as usize));
        let table: SymbolTable<'data, E> = match theirs.symbols(e, self.data, &self.sections, place)
        {
            Ok(Some(table)) => table,
            Ok(None) => return Ok(Counts::default()),
            Err(_) => return Ok(Counts { refused: 1, ..Default::default() }),
        };
        let mine = section.symbols().map_err(|refusal| refusal.to_string())?;
        let strings = section.linked_strings().map_err(|refusal| refusal.to_string())?;
        let indexes = section.extended_indexes().map_err(|refusal| refusal.to_string())?;
        same!(mine.len(), table.len(), "count of symbols");
        for (i, (mine, theirs)) in mine.iter().zip(table.iter()).enumerate() {
            same!(mine.name, theirs.st_name(e), "st_name of {i}");
            same!(mine.info, theirs.st_info(), "st_info of {i}");
            same!(mine.other, theirs.st_other(), "st_other of {i}");
            same!(mine.shndx, theirs.st_shndx(e), "st_shndx of {i}");
            same!(mine.value, theirs.st_value(e).into(), "st_value of {i}");
            same!(mine.size, theirs.st_size(e).into(), "st_size of {i}");
            let name = table.symbol_name(e, theirs).ok();
            same!(strings.get(mine.name).ok(), name, "name of {i}");
            let index = indexes.and_then(|table| table.get(i));
            same!(index, table.shndx(e, i), "extended index of {i}");
        }
        Ok(Counts { symbols: mine.len(), ..Default::default() })
    }

    fn rels(&self, section: &Section<'_, 'data>, theirs: &E::SectionHeader) -> Compared {
        let e = self.endian;
        let Some((theirs, _)) = theirs.rel(e, self.data).map_err(|refusal| refusal.to_string())?
        else {
            return Ok(Counts::default());
        };
        let mine = section.rels().map_err(|refusal| refusal.to_string())?;
        same!(mine.len(), theirs.len(), "count of relocations");
        for (i, (mine, theirs)) in mine.iter().zip(theirs).enumerate() {
            same!(mine.offset, theirs.r_offset(e).into(), "r_offset of {i}");
            same!(mine.symbol(), theirs.r_sym(e), "symbol of {i}");
            same!(mine.rtype(), theirs.r_type(e), "type of {i}");
        }
        Ok(Counts { relocations: mine.len(), ..Default::default() })
    }

    fn relas(&self, section: &Section<'_, 'data>, theirs: &E::SectionHeader) -> Compared {
        let e = self.endian;
        let Some((theirs, _)) = theirs.rela(e, self.data).map_err(|refusal| refusal.to_string())?
        else {
            return Ok(Counts::default());
        };
        let mine = section.relas().map_err(|refusal| refusal.to_string())?;
        same!(mine.len(), theirs.len(), "count of relocations");
        for (i, (mine, theirs)) in mine.iter().zip(theirs).enumerate() {
            same!(mine.offset, theirs.r_offset(e).into(), "r_offset of {i}");
            same!(mine.symbol(), theirs.r_sym(e, false), "symbol of {i}");
            same!(mine.rtype(), theirs.r_type(e, false), "type of {i}");
            same!(mine.addend, theirs.r_addend(e).into(), "r_addend of {i}");
        }
        Ok(Counts { relocations: mine.len(), ..Default::default() })
    }

    fn dynamic(&self, section: &Section<'_, 'data>, theirs: &E::SectionHeader) -> Compared {
        let e = self.endian;
        let theirs = theirs.dynamic(e, self.data).map_err(|refusal| refusal.to_string())?;
        let Some((theirs, _)) = theirs else {
            return Ok(Counts::default());
        };
        let mine = section.dynamic().map_err(|refusal| refusal.to_string())?;
        same!(mine.len(), theirs.len(), "count of entries");
        let is_64 = self.image.form().class == elfkit::Class::C64;
        for (i, (mine, theirs)) in mine.iter().zip(theirs).enumerate() {
            // `object` has no sign of a tag of four bytes
            let tag = if is_64 { mine.tag as u64 } else { u64::from(mine.tag as u32) };
            same!(tag, theirs.d_tag(e).into(), "d_tag of {i}");
            same!(mine.val, theirs.d_val(e).into(), "d_val of {i}");
        }
        Ok(Counts { entries: mine.len(), ..Default::default() })
    }

    fn notes(&self, section: &Section<'_, 'data>, theirs: &E::SectionHeader) -> Compared {
        let e = self.endian;
        let Ok(theirs) = theirs.notes(e, self.data) else {
            return Ok(Counts { refused: 1, ..Default::default() });
        };
        let Some(mut theirs) = theirs else {
            return Ok(Counts::default());
        };
        let mut counts = Counts::default();
        let mut mine = section.notes();
        while let Some(theirs) = theirs.next().map_err(|refusal| refusal.to_string())? {
            let mine = mine.next().ok_or("a note less")?.map_err(|refusal| refusal.to_string())?;
            same!(mine.ntype, theirs.n_type(e), "n_type");
            same!(mine.owner(), theirs.name(), "name of a note");
            same!(mine.desc, theirs.desc(), "descriptor of a note");
            counts.notes += 1;
        }
        same!(mine.next().is_none(), true, "end of the notes");
        Ok(counts)
    }
}
