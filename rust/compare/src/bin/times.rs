//! The program that bench/rust times: the same work by the crate `elfkit` and by the crate
//! `object`. Both have the bytes of the file in memory.
//!
//! usage: times elfkit|object parse|symbols|names|headers ROUNDS FILE

use elfkit::Image;
use object::elf::FileHeader64;
use object::read::elf::{FileHeader, SectionHeader, Sym};
use object::{Endianness, SectionIndex};
use std::error::Error;
use std::hint::black_box;
use std::process::ExitCode;

type Sum = Result<u64, Box<dyn Error>>;

/// Opens the image, and gives the number of its sections.
fn parse_elfkit(data: &[u8]) -> Sum {
    Ok(Image::parse(data)?.section_count().into())
}

fn parse_object(data: &[u8]) -> Sum {
    let header = FileHeader64::<Endianness>::parse(data)?;
    Ok(header.sections(header.endian()?, data)?.iter().count() as u64)
}

/// Opens the image and goes over the headers of its sections.
fn headers_elfkit(data: &[u8]) -> Sum {
    let image = Image::parse(data)?;
    let headers = image.sections().map(|section| section.header().size ^ section.header().offset);
    Ok(headers.fold(0, u64::wrapping_add))
}

fn headers_object(data: &[u8]) -> Sum {
    let header = FileHeader64::<Endianness>::parse(data)?;
    let e = header.endian()?;
    let sections = header.sections(e, data)?;
    let headers = sections.iter().map(|section| section.sh_size(e) ^ section.sh_offset(e));
    Ok(headers.fold(0, u64::wrapping_add))
}

/// Opens the image and goes over its symbols.
fn symbols_elfkit(data: &[u8]) -> Sum {
    let image = Image::parse(data)?;
    let mut sum = 0_u64;
    for section in image.sections().filter(|section| section.header().stype == 2) {
        for symbol in section.symbols()? {
            let rest = u64::from(symbol.name) ^ symbol.size ^ u64::from(symbol.shndx);
            sum = sum.wrapping_add(symbol.value ^ rest ^ u64::from(symbol.info));
        }
    }
    Ok(sum)
}

fn symbols_object(data: &[u8]) -> Sum {
    let header = FileHeader64::<Endianness>::parse(data)?;
    let e = header.endian()?;
    let sections = header.sections(e, data)?;
    let mut sum = 0_u64;
    for (i, section) in sections.iter().enumerate().filter(|(_, it)| it.sh_type(e) == 2) {
        let Some(table) = section.symbols(e, data, &sections, SectionIndex(i))? else {
            continue;
        };
        for symbol in table.iter() {
            let rest =
                u64::from(symbol.st_name(e)) ^ symbol.st_size(e) ^ u64::from(symbol.st_shndx(e));
            sum = sum.wrapping_add(symbol.st_value(e) ^ rest ^ u64::from(symbol.st_info()));
        }
    }
    Ok(sum)
}

/// The same with the names of the symbols.
fn names_elfkit(data: &[u8]) -> Sum {
    let image = Image::parse(data)?;
    let mut sum = 0_u64;
    for section in image.sections().filter(|section| section.header().stype == 2) {
        let names = section.linked_strings()?;
        for symbol in section.symbols()? {
            let name = names.get(symbol.name)?;
            let last = name.last().copied().unwrap_or(0);
            sum = sum.wrapping_add(symbol.value ^ name.len() as u64 ^ u64::from(last));
        }
    }
    Ok(sum)
}

fn names_object(data: &[u8]) -> Sum {
    let header = FileHeader64::<Endianness>::parse(data)?;
    let e = header.endian()?;
    let sections = header.sections(e, data)?;
    let mut sum = 0_u64;
    for (i, section) in sections.iter().enumerate().filter(|(_, it)| it.sh_type(e) == 2) {
        let Some(table) = section.symbols(e, data, &sections, SectionIndex(i))? else {
            continue;
        };
        for symbol in table.iter() {
            let name = table.symbol_name(e, symbol)?;
            let last = name.last().copied().unwrap_or(0);
            sum = sum.wrapping_add(symbol.st_value(e) ^ name.len() as u64 ^ u64::from(last));
        }
    }
    Ok(sum)
}

/// The work of a library.
fn work_of(library: &str, work: &str) -> Option<fn(&[u8]) -> Sum> {
    Some(match (library, work) {
        ("elfkit", "parse") => parse_elfkit,
        ("object", "parse") => parse_object,
        ("elfkit", "headers") => headers_elfkit,
        ("object", "headers") => headers_object,
        ("elfkit", "symbols") => symbols_elfkit,
        ("object", "symbols") => symbols_object,
        ("elfkit", "names") => names_elfkit,
        ("object", "names") => names_object,
        _ => return None,
    })
}

/// Does the work so many times, and gives the sum of one.
fn run(work: fn(&[u8]) -> Sum, rounds: u64, path: &str) -> Sum {
    let data = std::fs::read(path)?;
    let mut sum = 0;
    for _ in 0..rounds {
        sum = work(black_box(&data))?;
    }
    Ok(sum)
}

fn main() -> ExitCode {
    let words: Vec<String> = std::env::args().skip(1).collect();
    let asked = match &words[..] {
        [library, work, rounds, path] => work_of(library, work)
            .zip(rounds.parse().ok())
            .map(|(work, rounds)| (work, rounds, path)),
        _ => None,
    };
    let Some((work, rounds, path)) = asked else {
        eprintln!("usage: times elfkit|object parse|symbols|names|headers ROUNDS FILE");
        return ExitCode::from(2);
    };
    match run(work, rounds, path) {
        Ok(sum) => {
            println!("{sum}");
            ExitCode::SUCCESS
        }
        Err(error) => {
            eprintln!("times: {path}: {error}");
            ExitCode::FAILURE
        }
    }
}
