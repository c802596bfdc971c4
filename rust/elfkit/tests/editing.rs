//! Editing images of both classes and both byte orders, and writing them.

mod common;

use common::*;
use elfkit::{
    elf, Changes, Class, Dynamic, Editor, Error, Image, Kind, Order, Places, ProgramHeader, Rel,
    Rela, SectionHeader, Symbol,
};
use std::fs;

/// A file of its own for a test.
struct Scratch(std::path::PathBuf);

impl Scratch {
    fn new(name: &str) -> Scratch {
        Scratch(std::env::temp_dir().join(format!("elfkit-{}-{name}", std::process::id())))
    }
}

impl Drop for Scratch {
    fn drop(&mut self) {
        let _ = fs::remove_file(&self.0);
    }
}

#[test]
fn an_image_that_is_not_edited_stays() {
    for form in FORMS {
        let bytes = make_image(form);
        let image = Image::parse(&bytes).unwrap();
        for places in [Places::Kept, Places::Laid] {
            let mut editor = image.edit(places).unwrap();
            assert_eq!(editor.image().unwrap(), bytes);
            assert_eq!(editor.lay_out().unwrap(), bytes.len() as u64);
        }
        let mut editor = image.edit(Places::Kept).unwrap();
        editor.mark().unwrap();
        assert_eq!(editor.image().unwrap().len(), bytes.len());
    }
}

#[test]
fn a_header_is_stored_and_all_else_stays() {
    for form in FORMS {
        let bytes = make_image(form);
        let mut editor = Editor::parse(&bytes, Places::Kept).unwrap();
        let mut header = editor.header();
        header.entry = 0x1_2345;
        header.class = 77;
        editor.set_header(&header).unwrap();
        assert_eq!(editor.header().entry, 0x1_2345);
        let edited = editor.image().unwrap();
        let image = Image::parse(&edited).unwrap();
        assert_eq!((image.header().entry, image.form()), (0x1_2345, form));
        let differ = bytes.iter().zip(&edited).filter(|(old, new)| old != new).count();
        assert_eq!((edited.len(), differ), (bytes.len(), 3));
        header.shstrndx = SECTIONS;
        assert!(matches!(editor.set_header(&header), Err(Error::NoSection)));
        header.shstrndx = 0;
        header.entry = 1 << 32;
        let is_unfit = matches!(editor.set_header(&header), Err(Error::Unfit));
        assert_eq!(is_unfit, form.class == Class::C32);
    }
}

#[test]
fn a_symbol_is_stored_in_its_place() {
    for form in FORMS {
        let bytes = make_image(form);
        let image = Image::parse(&bytes).unwrap();
        let mut editor = image.edit(Places::Kept).unwrap();
        let mut symbol = editor.item::<Symbol>(SYMBOLS, 1).unwrap();
        symbol.value = 0x9876;
        symbol.info = Symbol::info_of(elf::STB_WEAK, elf::STT_FUNC);
        editor.set_symbol(SYMBOLS, 1, &symbol).unwrap();
        assert_eq!(editor.item::<Symbol>(SYMBOLS, 1).unwrap(), symbol);
        let edited = editor.image().unwrap();
        let image = Image::parse(&edited).unwrap();
        let table = image.section(SYMBOLS).unwrap().symbols().unwrap();
        assert_eq!(table.get(1), Some(symbol));
        let old = Image::parse(&bytes).unwrap().section(SYMBOLS).unwrap().symbols().unwrap();
        assert_eq!((table.get(0), table.get(2)), (old.get(0), old.get(2)));
        assert_eq!(edited.len(), bytes.len());
        // a second edit behind the first image
        symbol.size = 3;
        editor.set_symbol(SYMBOLS, 2, &symbol).unwrap();
        let again = editor.image().unwrap();
        let table = Image::parse(&again).unwrap().section(SYMBOLS).unwrap().symbols().unwrap();
        assert_eq!((table.get(1).unwrap().size, table.get(2).unwrap().size), (8, 3));
    }
}

#[test]
fn every_item_that_is_stored_is_read_again() {
    let symbol =
        Symbol { name: 1, info: 0x12, other: 3, shndx: 4, value: 5, size: u32::MAX.into() };
    let rel = Rel { offset: 7, info: (0xff_ffff << 32) | 0xfe };
    let rela = Rela { offset: 7, info: (0x12_3456 << 32) | 0xff, addend: i32::MIN.into() };
    let entry = Dynamic { tag: -2, val: 0xffff_fffe };
    for form in FORMS {
        let mut editor = Editor::new(form.class, form.order).unwrap();
        let stypes = [
            elf::SHT_SYMTAB,
            elf::SHT_REL,
            elf::SHT_RELA,
            elf::SHT_DYNAMIC,
            elf::SHT_GNU_VERSYM,
            elf::SHT_GROUP,
            elf::SHT_INIT_ARRAY,
        ];
        for (i, stype) in stypes.into_iter().enumerate() {
            let section = editor.add_section().unwrap();
            assert_eq!(section, i as u32 + 1);
            let header = SectionHeader { stype, addralign: 8, ..Default::default() };
            editor.set_section_header(section, &header).unwrap();
        }
        for i in 0..3 {
            assert_eq!(editor.add_item(1, &symbol).unwrap(), i);
            editor.add_item(2, &rel).unwrap();
            editor.add_item(3, &rela).unwrap();
            editor.add_item(4, &entry).unwrap();
            editor.add_item(5, &0x1234_u16).unwrap();
            editor.add_item(6, &0x1234_5678_u32).unwrap();
            editor.add_item(7, &0xfedc_ba98_u64).unwrap();
        }
        let bytes = editor.image().unwrap();
        let image = Image::parse(&bytes).unwrap();
        assert_eq!(image.form(), form);
        let items: usize = image.sections().map(|section| agree_in_all(&section)).sum();
        assert_eq!(items, 21);
        assert_eq!(image.section(1).unwrap().item::<Symbol>(2).unwrap(), symbol);
        assert_eq!(image.section(2).unwrap().item::<Rel>(2).unwrap(), rel);
        assert_eq!(image.section(3).unwrap().item::<Rela>(2).unwrap(), rela);
        assert_eq!(image.section(4).unwrap().item::<Dynamic>(2).unwrap(), entry);
        assert_eq!(image.section(5).unwrap().item::<u16>(2).unwrap(), 0x1234);
        assert_eq!(image.section(6).unwrap().item::<u32>(2).unwrap(), 0x1234_5678);
        assert_eq!(image.section(7).unwrap().item::<u64>(2).unwrap(), 0xfedc_ba98);
    }
}

#[test]
fn what_does_not_fit_class_32_is_refused() {
    let bytes = make_image(FORMS[0]);
    let mut editor = Editor::parse(&bytes, Places::Kept).unwrap();
    let old = editor.item::<Symbol>(SYMBOLS, 1).unwrap();
    let wide = Symbol { value: 1 << 32, ..old };
    assert!(matches!(editor.set_symbol(SYMBOLS, 1, &wide), Err(Error::Unfit)));
    assert!(matches!(editor.add_item(SYMBOLS, &wide), Err(Error::Unfit)));
    assert_eq!(editor.item::<Symbol>(SYMBOLS, 1).unwrap(), old);
    for (symbol, rtype, addend) in [(1 << 24, 0, 0), (0, 1 << 8, 0), (0, 0, 1_i64 << 31)] {
        let rela = Rela { offset: 0, info: (symbol << 32) | rtype, addend };
        assert!(matches!(editor.set_item(RELOCATIONS, 0, &rela), Err(Error::Unfit)));
    }
    assert_eq!(editor.image().unwrap(), bytes);
}

#[test]
fn each_refusal_of_a_stored_item_is_told() {
    let bytes = make_image(FORMS[1]);
    let mut editor = Editor::parse(&bytes, Places::Kept).unwrap();
    let symbol = Symbol::default();
    assert!(matches!(editor.set_symbol(SECTIONS, 0, &symbol), Err(Error::NoSection)));
    assert!(matches!(editor.set_symbol(0, 0, &symbol), Err(Error::Reserved)));
    assert!(matches!(editor.set_symbol(NAMES, 0, &symbol), Err(Error::WrongKind)));
    assert!(matches!(editor.set_symbol(SYMBOLS, 3, &symbol), Err(Error::NoEntry)));
    assert!(matches!(editor.set_symbol(SYMBOLS, u64::MAX, &symbol), Err(Error::NoEntry)));
    assert!(matches!(editor.set_dynamic(SYMBOLS, 0, &Dynamic::default()), Err(Error::WrongKind)));
    assert!(matches!(editor.item::<u16>(SYMBOLS, 0), Err(Error::WrongKind)));
    assert!(matches!(editor.set_data(0, b""), Err(Error::Reserved)));
    assert!(matches!(editor.add_data(1, b"", 3), Err(Error::BadAlign)));
    assert!(matches!(editor.add_string(NAMES, "a\0b"), Err(Error::NoString)));
    assert!(matches!(editor.add_string(SYMBOLS, "a"), Err(Error::WrongKind)));
    editor.set_data(SYMBOLS, &[0; 24]).unwrap();
    assert!(matches!(editor.set_symbol(SYMBOLS, 0, &symbol), Err(Error::WrongKind)));
    let other = SectionHeader::default();
    assert!(matches!(editor.set_section_header(0, &other), Err(Error::Reserved)));
    assert!(matches!(editor.set_section_header(SECTIONS, &other), Err(Error::NoSection)));
    assert!(matches!(editor.set_program_header(0, &ProgramHeader::default()), Err(Error::NoEntry)));
    assert!(matches!(editor.new_program_headers(65_535), Err(Error::TooMany)));
}

#[test]
fn a_section_with_a_name_is_added() {
    for form in FORMS {
        let bytes = make_image(form);
        let mut editor = Editor::parse(&bytes, Places::Laid).unwrap();
        let section = editor.add_section().unwrap();
        let name = editor.add_string(NAMES, ".more").unwrap();
        let stype = elf::SHT_PROGBITS;
        let header = SectionHeader { name, stype, addralign: 16, ..Default::default() };
        editor.set_section_header(section, &header).unwrap();
        editor.set_data(section, b"first").unwrap();
        assert_eq!(editor.add_data(section, b"second", 8).unwrap(), 1);
        editor.set_fill(b'-');
        let edited = editor.image().unwrap();
        let image = Image::parse(&edited).unwrap();
        let more = image.section_by_name(".more").unwrap();
        assert_eq!(more.index(), SECTIONS);
        assert_eq!(more.data().unwrap(), b"first---second");
        assert_eq!(more.header().offset % 16, 0);
        let old = Image::parse(&bytes).unwrap();
        for before in old.sections().filter(|before| before.index() != NAMES) {
            let now = image.section(before.index()).unwrap();
            assert_eq!((now.data().unwrap(), now.name()), (before.data().unwrap(), before.name()));
        }
    }
}

#[test]
fn an_image_is_made_of_nothing() {
    for form in FORMS {
        let mut editor = Editor::new(form.class, form.order).unwrap();
        let names = editor.add_section().unwrap();
        let name = editor.add_string(names, ".shstrtab").unwrap();
        assert_eq!((names, name), (1, 1));
        let stype = elf::SHT_STRTAB;
        let header = SectionHeader { name, stype, addralign: 1, ..Default::default() };
        editor.set_section_header(names, &header).unwrap();
        let mut header = editor.header();
        (header.etype, header.machine, header.shstrndx) = (elf::ET_REL, elf::EM_RISCV, names);
        editor.set_header(&header).unwrap();
        editor.new_program_headers(1).unwrap();
        let segment = ProgramHeader { ptype: elf::PT_NOTE, filesz: 5, ..Default::default() };
        editor.set_program_header(0, &segment).unwrap();
        let bytes = editor.image().unwrap();
        let image = Image::parse(&bytes).unwrap();
        assert_eq!(image.form(), form);
        assert_eq!((image.header().etype, image.header().machine), (elf::ET_REL, elf::EM_RISCV));
        assert_eq!(image.section(1).unwrap().name(), Some(&b".shstrtab"[..]));
        assert_eq!(image.program_header(0).unwrap(), segment);
        assert_eq!(image.section(1).unwrap().kind().unwrap(), Kind::Bytes);
    }
}

#[test]
fn an_image_is_written_to_a_file_and_in_place() {
    for form in FORMS {
        let bytes = make_image(form);
        let file = Scratch::new("in-place");
        fs::write(&file.0, &bytes).unwrap();
        let mut editor = Editor::parse(&bytes, Places::Laid).unwrap();
        editor.set_data(NOTES, &[7; 70_000]).unwrap();
        let length = editor.write_in_place(&file.0).unwrap();
        let longer = fs::read(&file.0).unwrap();
        assert_eq!(longer.len() as u64, length);
        let mut written = Vec::new();
        assert_eq!(editor.write_to(&mut written).unwrap(), length);
        assert_eq!(written, longer);
        // and shorter again
        let mut editor = Editor::parse(&longer, Places::Laid).unwrap();
        editor.set_data(NOTES, b"").unwrap();
        let length = editor.write_in_place(&file.0).unwrap();
        let shorter = fs::read(&file.0).unwrap();
        assert_eq!(shorter.len() as u64, length);
        assert!(Image::parse(&shorter).unwrap().section(NOTES).unwrap().data().unwrap().is_empty());
        assert!(matches!(editor.write_in_place("no such file"), Err(Error::Io(_))));
    }
}

/// What the writes of an update make of bytes, and how many bytes they have.
fn changed(bytes: &[u8], changes: Changes) -> (Vec<u8>, usize) {
    let (mut made, mut count) = (bytes.to_vec(), 0);
    for change in changes {
        let change = change.unwrap();
        made.resize(change.size.try_into().unwrap(), 0);
        let at = usize::try_from(change.at).unwrap();
        made[at..at + change.bytes.len()].copy_from_slice(&change.bytes);
        count += change.bytes.len();
    }
    (made, count)
}

#[test]
fn the_changes_make_the_image() {
    for form in FORMS {
        let bytes = make_image(form);
        assert_eq!(Editor::parse(&bytes, Places::Kept).unwrap().changes().unwrap().count(), 0);
        let mut editor = Editor::parse(&bytes, Places::Kept).unwrap();
        let mut symbol = editor.item::<Symbol>(SYMBOLS, 1).unwrap();
        symbol.value = 0x1234;
        editor.set_symbol(SYMBOLS, 1, &symbol).unwrap();
        let image = editor.image().unwrap();
        let table = editor.section_header(SYMBOLS).unwrap().size;
        let (made, count) = changed(&bytes, editor.changes().unwrap());
        assert!(made == image && count as u64 == table);
        // longer, and shorter again
        let mut editor = Editor::parse(&bytes, Places::Laid).unwrap();
        editor.set_data(NOTES, &[7; 70_000]).unwrap();
        let longer = editor.image().unwrap();
        assert_eq!(changed(&bytes, editor.changes().unwrap()).0, longer);
        let mut editor = Editor::parse(&longer, Places::Laid).unwrap();
        editor.set_data(NOTES, b"").unwrap();
        let shorter = editor.image().unwrap();
        assert_eq!(changed(&longer, editor.changes().unwrap()).0, shorter);
    }
}

/// A sink that takes so many bytes.
struct Full(usize);

impl std::io::Write for Full {
    fn write(&mut self, bytes: &[u8]) -> std::io::Result<usize> {
        let taken = bytes.len().min(self.0);
        self.0 -= taken;
        Ok(taken)
    }

    fn flush(&mut self) -> std::io::Result<()> {
        Ok(())
    }
}

#[test]
fn a_write_that_fails_is_an_error() {
    let bytes = make_image(FORMS[0]);
    let mut editor = Editor::parse(&bytes, Places::Kept).unwrap();
    for room in [0, 1, bytes.len() - 1] {
        assert!(matches!(editor.write_to(&mut Full(room)), Err(Error::Io(_))));
    }
    assert_eq!(editor.write_to(&mut Full(bytes.len())).unwrap(), bytes.len() as u64);
}

#[test]
fn parts_that_meet_and_places_that_are_far_are_refused() {
    let bytes = make_image(FORMS[1]);
    let mut editor = Editor::parse(&bytes, Places::Kept).unwrap();
    let mut header = editor.section_header(NOTES).unwrap();
    let place = header.offset;
    header.offset = editor.section_header(SYMBOLS).unwrap().offset;
    editor.set_section_header(NOTES, &header).unwrap();
    assert!(matches!(editor.lay_out(), Err(Error::Overlap)));
    assert!(matches!(editor.image(), Err(Error::Overlap)));
    header.offset = 1 << 35;
    editor.set_section_header(NOTES, &header).unwrap();
    assert_eq!(editor.lay_out().unwrap(), (1 << 35) + 20);
    assert!(matches!(editor.image(), Err(Error::Memory)));
    header.offset = 1 << 41;
    editor.set_section_header(NOTES, &header).unwrap();
    assert!(matches!(editor.image(), Err(Error::TooLarge)));
    header.offset = place;
    editor.set_section_header(NOTES, &header).unwrap();
    assert_eq!(editor.image().unwrap(), bytes);
}

/// A program of this machine runs with its notes' bytes changed in place.
#[test]
fn this_program_is_edited_and_still_read() {
    let bytes = fs::read(std::env::current_exe().unwrap()).unwrap();
    let image = Image::parse(&bytes).unwrap();
    let mut editor = image.edit(Places::Kept).unwrap();
    let mut header = editor.header();
    header.entry += 1;
    editor.set_header(&header).unwrap();
    let edited = editor.image().unwrap();
    let differ = bytes.iter().zip(&edited).filter(|(old, new)| old != new).count();
    assert_eq!(edited.len(), bytes.len());
    assert!((1..=8).contains(&differ));
    assert_eq!(Image::parse(&edited).unwrap().form().order, Order::Least);
}
