//! Writes an image with another entry to a new file. Every part stays at its place.
//!
//! usage: set_entry FILE OUT ENTRY

use elfkit::{ImageFile, Places, Result};
use std::fs::File;
use std::process::ExitCode;

/// Opens a file, makes another of it with that entry, and gives its length.
fn set_entry(path: &str, out: &str, entry: u64) -> Result<u64> {
    let file = ImageFile::open(path)?;
    let mut editor = file.image().edit(Places::Kept)?;
    let mut header = editor.header();
    header.entry = entry;
    editor.set_header(&header)?;
    // what can be refused is refused before the file is made
    editor.lay_out()?;
    editor.write_to(&mut File::create(out)?)
}

fn main() -> ExitCode {
    let words: Vec<String> = std::env::args().skip(1).collect();
    let parsed = match &words[..] {
        [path, out, entry] if path != out => entry.parse().ok().map(|entry| (path, out, entry)),
        _ => None,
    };
    let Some((path, out, entry)) = parsed else {
        eprintln!("usage: set_entry FILE OUT ENTRY");
        return ExitCode::from(2);
    };
    match set_entry(path, out, entry) {
        Ok(length) => {
            println!("{length} bytes");
            ExitCode::SUCCESS
        }
        Err(error) => {
            eprintln!("set_entry: {path}: {error}");
            ExitCode::FAILURE
        }
    }
}
