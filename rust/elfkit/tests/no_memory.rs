//! Each allocation fails in turn, in the core and in the crate: what is asked for is then refused
//! with `Error::Memory`, and what was opened can be dropped. A write may do without some of them.
//!
//! `malloc` and its like are this program's: the core takes its memory there, and so does Rust. An
//! allocation of Rust that is not asked for by a call that may fail would end the program.

mod common;

use common::*;
use elfkit::{
    elf, Archive, Editor, Error, Image, ImageFile, Places, Result, SectionHeader, Symbol,
};
use std::ffi::c_void;
use std::sync::atomic::{AtomicI64, Ordering};

/// After how many allocations one fails; below 0 none does.
static LEFT: AtomicI64 = AtomicI64::new(-1);

fn fails() -> bool {
    LEFT.load(Ordering::Relaxed) >= 0 && LEFT.fetch_sub(1, Ordering::Relaxed) == 0
}

extern "C" {
    fn __libc_malloc(size: usize) -> *mut c_void;
    fn __libc_calloc(count: usize, size: usize) -> *mut c_void;
    fn __libc_realloc(old: *mut c_void, size: usize) -> *mut c_void;
}

#[no_mangle]
extern "C" fn malloc(size: usize) -> *mut c_void {
    if fails() {
        return std::ptr::null_mut();
    }
    // SAFETY: the C library's own, which takes what this one takes.
    unsafe { __libc_malloc(size) }
}

#[no_mangle]
extern "C" fn calloc(count: usize, size: usize) -> *mut c_void {
    if fails() {
        return std::ptr::null_mut();
    }
    // SAFETY: the C library's own, which takes what this one takes.
    unsafe { __libc_calloc(count, size) }
}

#[no_mangle]
extern "C" fn realloc(old: *mut c_void, size: usize) -> *mut c_void {
    if fails() {
        return std::ptr::null_mut();
    }
    // SAFETY: the C library's own, which takes what this one takes.
    unsafe { __libc_realloc(old, size) }
}

/// Opens the image, and reads each kind of thing.
fn read_once(bytes: &[u8]) -> Result<()> {
    let image = Image::parse(bytes)?;
    let table = image.section(SYMBOLS)?;
    assert_eq!(table.symbols()?.len(), 3);
    table.item::<Symbol>(1)?;
    assert_eq!(image.section(STRINGS)?.string_length(1)?, 5);
    assert_eq!(table.linked_strings()?.get(1_u32)?, b"first");
    for note in image.section(NOTES)?.notes() {
        note?;
    }
    assert_eq!(table.find_linear("first")?, Some(1));
    image.section(RELOCATIONS)?.item::<elfkit::Rela>(0)?;
    Ok(())
}

/// Goes over the members and the symbols of an archive.
fn walk_once(bytes: &[u8]) -> Result<()> {
    let archive = Archive::parse(bytes)?;
    let mut count = 0;
    for member in archive.members()? {
        let member = member?;
        count += 1;
        match member.image() {
            Err(Error::Memory) => return Err(Error::Memory),
            other => assert_eq!(other.is_ok(), count < 3),
        }
    }
    for symbol in archive.symbols()? {
        let at = symbol?.at;
        assert_eq!(archive.member_at(at)?.at, at);
    }
    assert_eq!(count, 3);
    Ok(())
}

/// Edits an image, adds a section, and writes it.
fn write_once(bytes: &[u8]) -> Result<()> {
    let mut editor = Editor::parse(bytes, Places::Laid)?;
    editor.set_symbol(SYMBOLS, 1, &Symbol { value: 5, ..Default::default() })?;
    let section = editor.add_section()?;
    let name = editor.add_string(NAMES, ".more")?;
    let stype = elf::SHT_PROGBITS;
    editor.set_section_header(section, &SectionHeader { name, stype, ..Default::default() })?;
    editor.set_data(section, b"more")?;
    editor.add_data(section, b"data", 4)?;
    editor.new_program_headers(2)?;
    let mut to = [0_u8; 4096];
    let length = editor.write_to(&mut &mut to[..])?;
    assert!(length > bytes.len() as u64);
    Ok(())
}

/// Opens a file.
fn open_once(path: &std::path::Path) -> Result<()> {
    ImageFile::open(path)?.image().section(1)?;
    Ok(())
}

/// Tries something with each allocation failing in turn; so many of them it may do without.
fn fail_each(what: &str, spare: i64, mut once: impl FnMut() -> Result<()>) {
    let (mut count, mut refused) = (0, 0);
    loop {
        LEFT.store(count, Ordering::Relaxed);
        let done = once();
        let all_were_made = LEFT.swap(-1, Ordering::Relaxed) >= 0;
        if all_were_made {
            assert!(done.is_ok(), "{what}: {done:?}");
            break;
        }
        assert!(
            matches!(done, Ok(()) | Err(Error::Memory)),
            "{what}, allocation {count}: {done:?}"
        );
        refused += i64::from(done.is_err());
        count += 1;
    }
    println!(
        "no_memory: {what}: each of {count} allocations failed in turn, {refused} were errors"
    );
    assert!(refused > 1 && count - refused <= spare, "{what}");
}

fn main() {
    let path = std::env::temp_dir().join(format!("elfkit-{}-memory", std::process::id()));
    for form in FORMS {
        let bytes = make_image(form);
        fail_each(&format!("reading {form:?}"), 0, || read_once(&bytes));
        fail_each(&format!("writing {form:?}"), 1, || write_once(&bytes));
        std::fs::write(&path, &bytes).unwrap();
        fail_each("a file", 0, || open_once(&path));
    }
    let _ = std::fs::remove_file(&path);
    let (bytes, _) = make_archive();
    fail_each("an archive", 0, || walk_once(&bytes));
}
