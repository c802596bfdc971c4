//! Reading images of both classes and both byte orders.

mod common;

use common::*;
use elfkit::{elf, Class, Error, Image, ImageFile, Kind, Order, Place};

#[test]
fn headers_are_read_in_every_form() {
    for form in FORMS {
        let bytes = make_image(form);
        let image = Image::parse(&bytes).unwrap();
        let header = image.header();
        assert_eq!((header.class(), header.order()), (form.class, form.order));
        assert_eq!(image.form(), form);
        assert_eq!((header.etype, header.shnum, header.shstrndx), (elf::ET_REL, SECTIONS, NAMES));
        assert_eq!((image.section_count(), image.names_index()), (SECTIONS, NAMES));
        assert_eq!(image.program_header_count(), 0);
        assert!(matches!(image.program_header(0), Err(Error::NoEntry)));
        assert!(matches!(image.section(SECTIONS), Err(Error::NoSection)));
        assert_eq!(image.data(), bytes);
    }
}

#[test]
fn sections_have_names_places_and_kinds() {
    for form in FORMS {
        let bytes = make_image(form);
        let image = Image::parse(&bytes).unwrap();
        let names: Vec<_> = image.sections().map(|s| s.name().unwrap().to_vec()).collect();
        let wanted: [&[u8]; 6] = [b"", b".shstrtab", b".symtab", b".strtab", b".note", b".rela"];
        assert_eq!(names, wanted);
        assert_eq!(image.sections().len(), 6);
        let kinds: Vec<_> = image.sections().map(|s| s.kind().unwrap()).collect();
        let wanted = [Kind::Empty, Kind::Bytes, Kind::Sym, Kind::Bytes, Kind::Bytes, Kind::Rela];
        assert_eq!(kinds, wanted);
        let notes = image.section_by_name(".note").unwrap();
        assert_eq!(notes.index(), NOTES);
        let (at, len) = notes.range().unwrap();
        assert_eq!(notes.data().unwrap(), &bytes[at as usize..][..len as usize]);
        assert!(image.section_by_name("none").is_none());
        assert!(image.section(0).unwrap().data().unwrap().is_empty());
        assert_eq!(image.symbol_table().unwrap().index(), SYMBOLS);
        assert!(image.dynamic_symbol_table().is_none());
    }
}

#[test]
fn symbols_and_their_names_are_read_in_every_form() {
    for form in FORMS {
        let bytes = make_image(form);
        let image = Image::parse(&bytes).unwrap();
        let section = image.section(SYMBOLS).unwrap();
        let (table, names) = (section.symbols().unwrap(), section.linked_strings().unwrap());
        let first = table.get(1).unwrap();
        assert_eq!((first.value, first.size, first.shndx), (0x1234, 8, elf::SHN_ABS));
        assert_eq!((first.binding(), first.stype()), (elf::STB_GLOBAL, elf::STT_OBJECT));
        assert_eq!(names.get(first.name).unwrap(), b"first");
        let read: Vec<_> = table.iter().map(|s| names.get(s.name).unwrap()).collect();
        assert_eq!(read, [&b""[..], b"first", b"second"]);
        assert_eq!(table.iter().nth(2), table.get(2));
        assert_eq!(table.iter().nth(3), None);
        assert_eq!(section.symbol_place(1).unwrap(), Place::Special(elf::SHN_ABS));
        assert_eq!(section.symbol_place(2).unwrap(), Place::Section(0));
        assert!(matches!(section.symbol_place(3), Err(Error::NoEntry)));
        assert!(section.extended_indexes().unwrap().is_none());
        assert_eq!(section.find_linear("first").unwrap(), Some(1));
        assert_eq!(section.find_linear("second").unwrap(), None, "it is not defined");
        assert_eq!(section.find_linear("").unwrap(), None);
    }
}

#[test]
fn relocations_and_notes_are_read_in_every_form() {
    for form in FORMS {
        let bytes = make_image(form);
        let image = Image::parse(&bytes).unwrap();
        let relas = image.section(RELOCATIONS).unwrap().relas().unwrap();
        let only = relas.get(0).unwrap();
        assert_eq!((only.offset, only.symbol(), only.rtype(), only.addend), (0x20, 2, 9, -5));
        let notes: Vec<_> = image.section(NOTES).unwrap().notes().collect();
        assert_eq!(notes.len(), 1);
        let note = notes[0].as_ref().unwrap();
        assert_eq!((note.ntype, note.owner(), note.name), (77, &b"abc"[..], &b"abc\0"[..]));
        assert_eq!(note.desc.len(), 4);
        assert!(matches!(image.section(NAMES).unwrap().relas(), Err(Error::WrongKind)));
    }
}

#[test]
fn each_item_and_each_string_is_that_of_the_core() {
    for form in FORMS {
        let bytes = make_image(form);
        let image = Image::parse(&bytes).unwrap();
        let items: usize = image.sections().map(|section| agree_in_all(&section)).sum();
        assert_eq!(items, 4);
        for section in image.sections() {
            for offset in (0..70).chain([u64::from(u32::MAX), u64::MAX]) {
                agree_on_string(&section, offset);
            }
        }
    }
}

#[test]
fn each_refusal_to_open_is_told() {
    let good = make_image(FORMS[1]);
    let refused = |at: usize, byte: u8| {
        let mut bytes = good.clone();
        bytes[at] = byte;
        Image::parse(&bytes).expect_err("it is opened")
    };
    assert!(matches!(Image::parse(&[]), Err(Error::Short)));
    assert!(matches!(Image::parse(&good[..63]), Err(Error::Short)));
    assert!(matches!(Image::parse(b"no ELF image at all"), Err(Error::Magic | Error::Short)));
    assert!(matches!(refused(0, 1), Error::Magic));
    assert!(matches!(refused(4, 3), Error::Class));
    assert!(matches!(refused(5, 0), Error::Order));
    assert!(matches!(refused(6, 0), Error::Version));
    assert!(matches!(refused(58, 63), Error::ShTable));
    assert_eq!(refused(0, 1).to_string(), "not an ELF image");
}

#[test]
fn what_is_not_in_the_image_is_refused() {
    let bytes = make_image(FORMS[1]);
    // the size of the symbol table, in its header
    let at = bytes.len() - 4 * 64 + 32;
    for (size, wanted) in [(10_000_u64, Error::OutOfFile), (25, Error::Ragged)] {
        let mut changed = bytes.clone();
        changed[at..at + 8].copy_from_slice(&size.to_le_bytes());
        let image = Image::parse(&changed).unwrap();
        let section = image.section(SYMBOLS).unwrap();
        let refusal = section.symbols().unwrap_err();
        assert_eq!(refusal.number(), wanted.number());
        assert_eq!(section.item::<elfkit::Symbol>(0).unwrap_err().number(), wanted.number());
    }
}

#[test]
fn a_file_holds_its_bytes() {
    let path = std::env::current_exe().unwrap();
    let file = ImageFile::open(&path).unwrap();
    let moved = Box::new(file);
    let image = moved.image();
    assert_eq!(image.data(), std::fs::read(&path).unwrap());
    assert!(image.section_by_name(".text").unwrap().data().unwrap().len() > 1000);
    let segments: Vec<_> = image.program_headers().collect();
    assert!(segments.iter().any(|segment| segment.ptype == elf::PT_LOAD));
    for segment in segments {
        assert_eq!(image.segment_data(&segment).unwrap().len() as u64, segment.filesz);
    }
    assert!(matches!(ImageFile::open("no such file"), Err(Error::Io(_))));
    assert!(matches!(ImageFile::from_bytes(b"none".to_vec()), Err(Error::Short)));
    let held = std::thread::spawn(move || moved.image().section_count()).join().unwrap();
    assert!(held > 10);
}

#[test]
fn hashes_and_translation_are_those_of_the_standard() {
    assert_eq!(elfkit::hash(""), 0);
    assert_eq!(elfkit::hash("printf"), 0x0779_05a6);
    assert_eq!(elfkit::gnu_hash(""), 5381);
    assert_eq!(elfkit::gnu_hash("printf"), 0x156b_2bb8);
    let mut bytes = *b"\x01\x02\x03\x04\x05\x06\x07\x08";
    let (least, greatest) = (Order::Least, Order::Greatest);
    elfkit::translate(Kind::Word, Class::C64, least, greatest, &mut bytes).unwrap();
    assert_eq!(&bytes, b"\x04\x03\x02\x01\x08\x07\x06\x05");
    let refused = elfkit::translate(Kind::Sym, Class::C64, least, greatest, &mut bytes);
    assert!(matches!(refused, Err(Error::Ragged)));
    assert_eq!(&bytes, b"\x04\x03\x02\x01\x08\x07\x06\x05");
}

/// The program itself: it has dynamic symbols, a hash section and version needs.
#[test]
fn the_lookups_of_this_program_find_the_same() {
    let file = ImageFile::open(std::env::current_exe().unwrap()).unwrap();
    let image = file.image();
    let table = image.dynamic_symbol_table().unwrap();
    let names = table.linked_strings().unwrap();
    let (gnu, sysv) = (elf::SHT_GNU_HASH, elf::SHT_HASH);
    let mut found = 0;
    let mut wanted: Vec<_> = table.symbols().unwrap().iter().map(|s| s.name).collect();
    wanted.push(0);
    for name in wanted {
        let name = names.get(name).unwrap();
        let linear = table.find_linear(name).unwrap();
        found += usize::from(linear.is_some());
        if let Some(section) = image.section_by_type(gnu) {
            assert_eq!(section.find_gnu(name).unwrap(), linear);
            assert!(matches!(section.find_sysv(name), Err(Error::WrongKind)));
        }
        if let Some(section) = image.section_by_type(sysv) {
            assert_eq!(section.find_sysv(name).unwrap(), linear);
        }
    }
    println!("{found} names are found");
    let needs = image.section_by_type(elf::SHT_GNU_VERNEED).unwrap();
    let strings = needs.linked_strings().unwrap();
    let mut versions = 0;
    for need in needs.version_needs() {
        let (need, needed) = need.unwrap();
        assert!(strings.get(need.file).unwrap().starts_with(b"l"));
        for version in needed {
            let version = version.unwrap();
            assert_eq!(version.hash, elfkit::hash(strings.get(version.name).unwrap()));
            versions += 1;
        }
    }
    assert!(versions > 0);
    assert_eq!(image.section(0).unwrap().version_needs().count(), 0);
}
