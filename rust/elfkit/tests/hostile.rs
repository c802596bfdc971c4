//! Images and archives with a few bytes changed, and cut short: every call gives or refuses, none
//! panics, and what the crate takes from the bytes is what the core gives.
//!
//! MUTANTS is how many of each there are, 100,000 where it is not set.

mod common;

use common::*;
use elfkit::{Archive, Editor, Image, Places, Symbol};

fn mutants() -> u32 {
    std::env::var("MUTANTS").map_or(100_000, |told| told.parse().expect("MUTANTS is no number"))
}

/// Asks for everything; how much was given.
fn read_image(data: &[u8]) -> usize {
    let Ok(image) = Image::parse(data) else {
        return 0;
    };
    let mut given = image.program_headers().filter(|it| image.segment_data(it).is_ok()).count();
    given += usize::from(image.section_by_name(".note").is_some());
    for section in image.sections() {
        given += section.data().map_or(0, <[u8]>::len) + section.name().map_or(0, <[u8]>::len);
        given += agree_in_all(&section);
        for offset in 0..20 {
            agree_on_string(&section, offset);
        }
        given += section.notes().filter(Result::is_ok).count();
        for (_, names) in section.version_definitions().flatten() {
            given += names.filter(Result::is_ok).count();
        }
        for (_, versions) in section.version_needs().flatten() {
            given += versions.filter(Result::is_ok).count();
        }
        for name in ["first", "second", ""] {
            given += usize::from(section.find_linear(name).is_ok());
            given += usize::from(section.find_sysv(name).is_ok());
            given += usize::from(section.find_gnu(name).is_ok());
        }
        given += (0..4).filter(|i| section.symbol_place(*i).is_ok()).count();
    }
    given
}

/// Edits the image and lays it out, in both ways; a short one is made too.
fn edit_image(data: &[u8]) -> usize {
    let mut made = 0;
    for places in [Places::Kept, Places::Laid] {
        let Ok(mut editor) = Editor::parse(data, places) else {
            return 0;
        };
        let symbol = Symbol { value: 1, ..Default::default() };
        let stored = editor.set_symbol(SYMBOLS, 1, &symbol).is_ok();
        let string = editor.add_string(STRINGS, "third").is_ok();
        let _ = editor.set_data(NOTES, b"notes");
        let _ = editor.add_section().map(|section| editor.set_data(section, b"more"));
        match editor.lay_out() {
            Ok(length) if length < 1 << 20 => {
                let image = editor.image().expect("it was laid out");
                assert_eq!(image.len() as u64, length);
                let again = Image::parse(&image).expect("what is written is an image");
                if stored {
                    let section = again.section(SYMBOLS).unwrap();
                    assert_eq!(section.item::<Symbol>(1).ok(), Some(symbol), "{string}");
                }
                made += 1;
            }
            _ => {}
        }
    }
    made
}

fn read_archive(data: &[u8]) -> usize {
    let Ok(archive) = Archive::parse(data) else {
        return 0;
    };
    let mut given = 0;
    for member in archive.members().expect("there is memory").flatten() {
        given += 1 + member.name().len() + read_image(member.data());
    }
    for symbol in archive.symbols().into_iter().flatten().flatten() {
        given += symbol.name().len() + usize::from(archive.member_at(symbol.at).is_ok());
    }
    given
}

#[test]
fn images_are_given_or_refused() {
    let (mut random, mut read, mut made) = (Random(1), 0, 0);
    for i in 0..mutants() {
        let mut bytes = make_image(FORMS[i as usize % 4]);
        random.change(&mut bytes);
        read += usize::from(read_image(&bytes) > 0);
        made += edit_image(&bytes);
    }
    println!("{} images, of {read} something was read, and {made} were written", mutants());
    assert!(read > mutants() as usize / 4 && made > mutants() as usize / 4);
}

#[test]
fn archives_are_given_or_refused() {
    let (mut random, mut read) = (Random(2), 0);
    for _ in 0..mutants() {
        let (mut bytes, at) = make_archive();
        for _ in 0..random.below(3) {
            let place = at[random.below(3) as usize] + random.below(60) as usize;
            let is_digit = random.below(2) == 0;
            bytes[place] =
                if is_digit { b'0' + random.below(10) as u8 } else { random.below(256) as u8 };
        }
        random.change(&mut bytes);
        read += usize::from(read_archive(&bytes) > 0);
    }
    println!("{} archives, of {read} something was read", mutants());
    assert!(read > mutants() as usize / 4);
}
