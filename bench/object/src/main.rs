//! Shows sizes, symbols and names of ELF files and of archives of them by the crate `object`. The file is mapped, so
//! headers, symbols and names are used where they stand. The lines are those of elfkit for what compilers and linkers
//! write; what is damaged ends the program.
//!
//! usage: object-peer size|header|sections|symbols|nm FILE

use std::error::Error;
use std::io::{self, BufWriter, StdoutLock, Write};
use std::process::ExitCode;

use object::elf::{self, FileHeader32, FileHeader64};
use object::read::archive::ArchiveFile;
use object::read::elf::{FileHeader, SectionHeader, SectionTable, Sym, SymbolTable};
use object::{Endianness, FileKind, SectionIndex};

mod mapped;

type Out = BufWriter<StdoutLock<'static>>;
type Done = Result<(), Box<dyn Error>>;

/// What is shown of each object.
#[derive(Clone, Copy)]
enum Command {
    Size,
    Header,
    Sections,
    Symbols,
    Nm,
}

/// An object: a file, or a member of an archive.
struct Object<'a> {
    path: &'a str,
    member: Option<&'a [u8]>,
    data: &'a [u8],
}

// ---- size

/// Writes the sums of the sizes of what is in memory: text, data, and what the file does not hold.
fn size<E: FileHeader<Endian = Endianness>>(object: &Object<'_>, out: &mut Out) -> Done {
    let header = E::parse(object.data)?;
    let endian = header.endian()?;
    let (mut text, mut data, mut bss) = (0, 0, 0);
    for section in header.section_headers(endian, object.data)? {
        let flags: u64 = section.sh_flags(endian).into();
        let size: u64 = section.sh_size(endian).into();
        if flags & u64::from(elf::SHF_ALLOC) == 0 {
            continue;
        }
        if section.sh_type(endian) == elf::SHT_NOBITS {
            bss += size;
        } else if flags & u64::from(elf::SHF_EXECINSTR) != 0 || flags & u64::from(elf::SHF_WRITE) == 0 {
            text += size;
        } else {
            data += size;
        }
    }
    let sum = text + data + bss;
    write!(out, "{text:7}\t{data:7}\t{bss:7}\t{sum:7}\t{sum:7x}\t")?;
    if let Some(member) = object.member {
        out.write_all(member)?;
        writeln!(out, " (ex {})", object.path)?;
    } else {
        writeln!(out, "{}", object.path)?;
    }
    Ok(())
}

// ---- readelf -h, -S

/// Writes the line that names a member.
fn title(object: &Object<'_>, out: &mut Out) -> io::Result<()> {
    if let Some(member) = object.member {
        write!(out, "{}[", object.path)?;
        out.write_all(member)?;
        out.write_all(b"]:\n")?;
    }
    Ok(())
}

fn object_type_name(kind: u16) -> &'static str {
    ["NONE", "REL", "EXEC", "DYN", "CORE"].get(usize::from(kind)).copied().unwrap_or("OTHER")
}

fn machine_name(machine: u16) -> &'static str {
    match machine {
        elf::EM_386 => "386",
        elf::EM_X86_64 => "X86_64",
        _ => "OTHER",
    }
}

/// Writes the fields of the ELF header, with the true counts.
fn header<E: FileHeader<Endian = Endianness>>(object: &Object<'_>, out: &mut Out) -> Done {
    let header = E::parse(object.data)?;
    let endian = header.endian()?;
    let ident = header.e_ident();
    title(object, out)?;
    writeln!(out, "ELF header\n  class: {}", if header.is_class_64() { 64 } else { 32 })?;
    writeln!(out, "  order: {}", if header.is_little_endian() { "least" } else { "greatest" })?;
    writeln!(out, "  osabi: {}\n  abiversion: {}", ident.os_abi, ident.abi_version)?;
    writeln!(out, "  type: {}\n  machine: {}", object_type_name(header.e_type(endian)), machine_name(header.e_machine(endian)))?;
    let (entry, phoff, shoff): (u64, u64, u64) =
        (header.e_entry(endian).into(), header.e_phoff(endian).into(), header.e_shoff(endian).into());
    writeln!(out, "  version: {}\n  entry: {entry:#x}\n  phoff: {phoff}\n  shoff: {shoff}", header.e_version(endian))?;
    writeln!(out, "  flags: {:#x}\n  ehsize: {}", header.e_flags(endian), header.e_ehsize(endian))?;
    writeln!(out, "  phentsize: {}\n  phnum: {}", header.e_phentsize(endian), header.phnum(endian, object.data)?)?;
    writeln!(out, "  shentsize: {}\n  shnum: {}", header.e_shentsize(endian), header.shnum(endian, object.data)?)?;
    writeln!(out, "  shstrndx: {}", header.shstrndx(endian, object.data)?)?;
    Ok(())
}

fn section_type_name(kind: u32) -> &'static str {
    match kind {
        elf::SHT_NOBITS => "NOBITS",
        elf::SHT_NOTE => "NOTE",
        elf::SHT_NULL => "NULL",
        elf::SHT_PROGBITS => "PROGBITS",
        elf::SHT_RELA => "RELA",
        elf::SHT_STRTAB => "STRTAB",
        elf::SHT_SYMTAB => "SYMTAB",
        _ => "OTHER",
    }
}

/// Writes a row for each section header.
fn sections<E: FileHeader<Endian = Endianness>>(object: &Object<'_>, out: &mut Out) -> Done {
    let header = E::parse(object.data)?;
    let endian = header.endian()?;
    let sections: SectionTable<'_, E> = header.sections(endian, object.data)?;
    title(object, out)?;
    writeln!(out, "Section headers: {}", sections.len())?;
    for (i, section) in sections.iter().enumerate() {
        let [flags, addr, offset, size, align, entsize]: [u64; 6] = [
            section.sh_flags(endian).into(),
            section.sh_addr(endian).into(),
            section.sh_offset(endian).into(),
            section.sh_size(endian).into(),
            section.sh_addralign(endian).into(),
            section.sh_entsize(endian).into(),
        ];
        write!(out, "  {i} [")?;
        out.write_all(sections.section_name(endian, section)?)?;
        writeln!(
            out,
            "] {} flags {flags:#x} addr {addr:#x} offset {offset:#x} size {size:#x} link {} info {} align {align} entsize {entsize}",
            section_type_name(section.sh_type(endian)),
            section.sh_link(endian),
            section.sh_info(endian),
        )?;
    }
    Ok(())
}

// ---- readelf -s

fn type_name(kind: u8) -> &'static str {
    ["NOTYPE", "OBJECT", "FUNC", "SECTION", "FILE", "COMMON", "TLS"].get(usize::from(kind)).copied().unwrap_or("OTHER")
}

fn binding_name(bind: u8) -> &'static str {
    ["LOCAL", "GLOBAL", "WEAK"].get(usize::from(bind)).copied().unwrap_or("OTHER")
}

fn visibility_name(vis: u8) -> &'static str {
    ["DEFAULT", "INTERNAL", "HIDDEN", "PROTECTED"][usize::from(vis & 3)]
}

/// Writes where a symbol is defined.
fn write_place(out: &mut Out, shndx: u16, extended: Option<u32>) -> io::Result<()> {
    match shndx {
        elf::SHN_UNDEF => out.write_all(b"UND"),
        elf::SHN_ABS => out.write_all(b"ABS"),
        elf::SHN_COMMON => out.write_all(b"COM"),
        elf::SHN_XINDEX => match extended {
            Some(n) => write!(out, "{n}"),
            None => out.write_all(b"XINDEX"),
        },
        elf::SHN_LORESERVE.. => write!(out, "0x{shndx:x}"),
        n => write!(out, "{n}"),
    }
}

/// Writes the symbols of one table.
fn write_symbols<E: FileHeader<Endian = Endianness>>(
    endian: Endianness,
    table: &SymbolTable<'_, E>,
    out: &mut Out,
) -> Done {
    for (i, symbol) in table.iter().enumerate() {
        let value: u64 = symbol.st_value(endian).into();
        let size: u64 = symbol.st_size(endian).into();
        write!(
            out,
            "  {i} value {value:#x} size {size} type {} bind {} vis {} shndx ",
            type_name(symbol.st_type()),
            binding_name(symbol.st_bind()),
            visibility_name(symbol.st_visibility()),
        )?;
        write_place(out, symbol.st_shndx(endian), table.shndx(endian, i))?;
        out.write_all(b" [")?;
        out.write_all(table.symbol_name(endian, symbol)?)?;
        out.write_all(b"]\n")?;
    }
    Ok(())
}

/// Writes the symbols of each table of an object.
fn symbols<E: FileHeader<Endian = Endianness>>(object: &Object<'_>, out: &mut Out) -> Done {
    let header = E::parse(object.data)?;
    let endian = header.endian()?;
    let sections: SectionTable<'_, E> = header.sections(endian, object.data)?;
    for (i, section) in sections.iter().enumerate() {
        let Some(table) = section.symbols(endian, object.data, &sections, SectionIndex(i))? else {
            continue;
        };
        write!(out, "Symbols of section {i} [")?;
        out.write_all(sections.section_name(endian, section)?)?;
        writeln!(out, "]: {}", table.len())?;
        write_symbols::<E>(endian, &table, out)?;
    }
    Ok(())
}

// ---- nm

/// The letter of a section that holds a symbol.
fn section_letter<S: SectionHeader<Endian = Endianness>>(endian: Endianness, section: &S) -> u8 {
    let flags: u64 = section.sh_flags(endian).into();
    let has = |flag: u32| flags & u64::from(flag) != 0;
    if has(elf::SHF_EXECINSTR) {
        b'T'
    } else if !has(elf::SHF_ALLOC) {
        b'N'
    } else if section.sh_type(endian) == elf::SHT_NOBITS {
        b'B'
    } else if has(elf::SHF_WRITE) {
        b'D'
    } else {
        b'R'
    }
}

/// The letter of where a symbol is defined.
fn place_letter<E: FileHeader<Endian = Endianness>>(
    endian: Endianness,
    sections: &SectionTable<'_, E>,
    shndx: u16,
    extended: Option<u32>,
) -> u8 {
    let index = match shndx {
        elf::SHN_ABS => return b'A',
        elf::SHN_COMMON => return b'C',
        elf::SHN_XINDEX => extended.map(|n| n as usize),
        elf::SHN_LORESERVE.. => None,
        n => Some(usize::from(n)),
    };
    match index.map(|n| sections.section(SectionIndex(n))) {
        Some(Ok(section)) => section_letter(endian, section),
        _ => b'?',
    }
}

fn letter<E: FileHeader<Endian = Endianness>>(
    endian: Endianness,
    sections: &SectionTable<'_, E>,
    symbol: &E::Sym,
    extended: Option<u32>,
) -> u8 {
    let object = symbol.st_type() == elf::STT_OBJECT;
    let weak = symbol.st_bind() == elf::STB_WEAK;
    if symbol.st_shndx(endian) == elf::SHN_UNDEF {
        return match (weak, object) {
            (true, true) => b'v',
            (true, false) => b'w',
            _ => b'U',
        };
    }
    match (symbol.st_bind(), symbol.st_type()) {
        (elf::STB_GNU_UNIQUE, _) => b'u',
        (_, elf::STT_GNU_IFUNC) => b'i',
        (elf::STB_WEAK, elf::STT_OBJECT) => b'V',
        (elf::STB_WEAK, _) => b'W',
        (elf::STB_LOCAL, _) => place_letter(endian, sections, symbol.st_shndx(endian), extended).to_ascii_lowercase(),
        _ => place_letter(endian, sections, symbol.st_shndx(endian), extended),
    }
}

/// Writes the symbols of an object by their names.
fn nm<E: FileHeader<Endian = Endianness>>(object: &Object<'_>, out: &mut Out) -> Done {
    let header = E::parse(object.data)?;
    let endian = header.endian()?;
    let sections = header.sections(endian, object.data)?;
    let table = sections.symbols(endian, object.data, elf::SHT_SYMTAB)?;
    let mut rows = Vec::with_capacity(table.len());
    for (i, symbol) in table.iter().enumerate().skip(1) {
        if matches!(symbol.st_type(), elf::STT_SECTION | elf::STT_FILE) {
            continue;
        }
        let name = table.symbol_name(endian, symbol)?;
        if !name.is_empty() {
            rows.push((name, i as u32));
        }
    }
    title(object, out)?;
    rows.sort_unstable();
    let digits = if header.is_class_64() { 16 } else { 8 };
    for (name, i) in rows {
        let symbol = table.symbol(i as usize)?;
        if symbol.st_shndx(endian) == elf::SHN_UNDEF {
            write!(out, "{:digits$} ", "")?;
        } else {
            write!(out, "{:0digits$x} ", symbol.st_value(endian).into())?;
        }
        out.write_all(&[letter::<E>(endian, &sections, symbol, table.shndx(endian, i as usize)), b' '])?;
        out.write_all(name)?;
        out.write_all(b"\n")?;
    }
    Ok(())
}

// ---- All of them

fn show_as<E: FileHeader<Endian = Endianness>>(command: Command, object: &Object<'_>, out: &mut Out) -> Done {
    match command {
        Command::Size => size::<E>(object, out),
        Command::Header => header::<E>(object, out),
        Command::Sections => sections::<E>(object, out),
        Command::Symbols => symbols::<E>(object, out),
        Command::Nm => nm::<E>(object, out),
    }
}

fn show(command: Command, object: &Object<'_>, out: &mut Out) -> Done {
    match FileKind::parse(object.data)? {
        FileKind::Elf32 => show_as::<FileHeader32<Endianness>>(command, object, out),
        FileKind::Elf64 => show_as::<FileHeader64<Endianness>>(command, object, out),
        kind => Err(format!("{kind:?} is not read").into()),
    }
}

/// Shows a file, or each member of an archive.
fn run(command: Command, path: &str) -> Done {
    let file = mapped::Mapped::open(path)?;
    let data = file.bytes();
    let mut out = BufWriter::with_capacity(1 << 16, io::stdout().lock());
    if let Command::Size = command {
        writeln!(out, "   text\t   data\t    bss\t    dec\t    hex\tfilename")?;
    }
    if data.starts_with(b"!<arch>\n") {
        for member in ArchiveFile::parse(data)?.members() {
            let member = member?;
            show(command, &Object { path, member: Some(member.name()), data: member.data(data)? }, &mut out)?;
        }
    } else {
        show(command, &Object { path, member: None, data }, &mut out)?;
    }
    Ok(out.flush()?)
}

fn main() -> ExitCode {
    let words: Vec<String> = std::env::args().skip(1).collect();
    let (command, path) = match words.iter().map(String::as_str).collect::<Vec<_>>()[..] {
        ["size", path] => (Command::Size, path),
        ["header", path] => (Command::Header, path),
        ["sections", path] => (Command::Sections, path),
        ["symbols", path] => (Command::Symbols, path),
        ["nm", path] => (Command::Nm, path),
        _ => {
            eprintln!("usage: object-peer size|header|sections|symbols|nm FILE");
            return ExitCode::from(2);
        }
    };
    match run(command, path) {
        Ok(()) => ExitCode::SUCCESS,
        Err(error) => {
            eprintln!("object-peer: {path}: {error}");
            ExitCode::FAILURE
        }
    }
}
