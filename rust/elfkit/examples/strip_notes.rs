//! Writes a relocatable object without its notes to a new file.
//!
//! A section of notes, and one of relocations for it, gets the type `SHT_NULL`, which says that its
//! header stands for no section. So the other sections keep their numbers, and what refers to them
//! stays as it is. An object that is loaded is refused: its segments hold the notes.
//!
//! usage: strip_notes FILE OUT

use elfkit::{elf, ImageFile, Places, Result, SectionHeader};
use std::error::Error;
use std::fs::File;
use std::process::ExitCode;

/// The numbers of the sections of notes, and of the relocations for them.
fn sections_of_notes(file: &ImageFile) -> Vec<u32> {
    let sections = file.image().sections();
    let is_notes = |index: u32| {
        let section = file.image().section(index);
        section.is_ok_and(|section| section.header().stype == elf::SHT_NOTE)
    };
    let goes = sections.filter(|section| match section.header().stype {
        elf::SHT_NOTE => true,
        elf::SHT_REL | elf::SHT_RELA => is_notes(section.header().info),
        _ => false,
    });
    goes.map(|section| section.index()).collect()
}

/// Makes a file of another without its notes; how many sections went, and the new length.
fn strip_notes(path: &str, out: &str) -> std::result::Result<(usize, u64), Box<dyn Error>> {
    let file = ImageFile::open(path)?;
    if file.image().program_header_count() > 0 {
        return Err("it is loaded by segments".into());
    }
    let gone = sections_of_notes(&file);
    let mut editor = file.image().edit(Places::Laid)?;
    for section in &gone {
        let name = editor.section_header(*section)?.name;
        editor.set_section_header(*section, &SectionHeader { name, ..Default::default() })?;
    }
    let length: Result<u64> = editor.lay_out();
    length?;
    Ok((gone.len(), editor.write_to(&mut File::create(out)?)?))
}

fn main() -> ExitCode {
    let words: Vec<String> = std::env::args().skip(1).collect();
    let (path, out) = match &words[..] {
        [path, out] if path != out => (path, out),
        _ => {
            eprintln!("usage: strip_notes FILE OUT");
            return ExitCode::from(2);
        }
    };
    match strip_notes(path, out) {
        Ok((count, length)) => {
            println!("{count} sections went, {length} bytes are left");
            ExitCode::SUCCESS
        }
        Err(error) => {
            eprintln!("strip_notes: {path}: {error}");
            ExitCode::FAILURE
        }
    }
}
