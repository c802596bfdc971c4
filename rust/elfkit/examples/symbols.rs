//! Prints the symbols of an image, or of the images in an archive.
//!
//! usage: symbols FILE

use elfkit::{elf, Archive, Image, Result, Section};
use std::io::{self, BufWriter, Write};
use std::process::ExitCode;

/// Prints the symbols of a table, a line each: value, size, and name.
fn print_table(table: &Section<'_, '_>, out: &mut impl Write) -> Result<()> {
    let names = table.linked_strings()?;
    for symbol in table.symbols()? {
        let name = names.get(symbol.name).unwrap_or(b"?");
        write!(out, "{:016x} {:8} ", symbol.value, symbol.size)?;
        out.write_all(name)?;
        writeln!(out)?;
    }
    Ok(())
}

/// Prints the symbols of each table of an image.
fn print_image(image: &Image<'_>, out: &mut impl Write) -> Result<()> {
    for section in image.sections() {
        if matches!(section.header().stype, elf::SHT_SYMTAB | elf::SHT_DYNSYM) {
            let name = String::from_utf8_lossy(section.name().unwrap_or_default());
            writeln!(out, "{name}: {} symbols", section.symbols()?.len())?;
            print_table(&section, out)?;
        }
    }
    Ok(())
}

fn print_file(path: &str) -> Result<()> {
    let data = std::fs::read(path)?;
    let mut out = BufWriter::new(io::stdout().lock());
    if data.starts_with(b"!<arch>\n") {
        for member in Archive::parse(&data)?.members()? {
            let member = member?;
            writeln!(out, "\n{}:", String::from_utf8_lossy(member.name()))?;
            print_image(&member.image()?, &mut out)?;
        }
    } else {
        print_image(&Image::parse(&data)?, &mut out)?;
    }
    Ok(out.flush()?)
}

fn main() -> ExitCode {
    let words: Vec<String> = std::env::args().skip(1).collect();
    let [path] = &words[..] else {
        eprintln!("usage: symbols FILE");
        return ExitCode::from(2);
    };
    match print_file(path) {
        Ok(()) => ExitCode::SUCCESS,
        Err(error) => {
            eprintln!("symbols: {path}: {error}");
            ExitCode::FAILURE
        }
    }
}
