//! Lookups by hash sections that are made here, in all forms; and by changed ones, which lead
//! nowhere, in a circle, or to another symbol: what is found has the name, and every walk ends.

mod common;

use common::*;
use elfkit::{elf, Class, Editor, Form, Image, Section, SectionHeader, Symbol};

const TABLE: u32 = 2;
const SYSV: u32 = 3;
const GNU: u32 = 4;
const COUNT: u32 = 20;
const BUCKETS: u32 = 4;

fn name(i: u32) -> String {
    format!("name_{i}")
}

/// The words of a section of type `SHT_HASH`, for symbols of these hashes from index 1 on.
fn sysv_words(hashes: &[u32]) -> Vec<u32> {
    let mut buckets = vec![0; BUCKETS as usize];
    let mut chains = vec![0; hashes.len() + 1];
    for (i, hash) in hashes.iter().enumerate() {
        let bucket = &mut buckets[(hash % BUCKETS) as usize];
        chains[i + 1] = *bucket;
        *bucket = i as u32 + 1;
    }
    [vec![BUCKETS, chains.len() as u32], buckets, chains].concat()
}

/// GNU's section, for symbols of these hashes from index 1 on, which are in the order of their
/// buckets. Its one bloom word lets everything pass.
fn gnu_section(editor: &mut Editor<'_>, hashes: &[u32], form: Form) {
    let mut words = vec![BUCKETS, 1, 1, 5];
    words.extend(vec![u32::MAX; if form.class == Class::C64 { 2 } else { 1 }]);
    for bucket in 0..BUCKETS {
        let first = hashes.iter().position(|hash| hash % BUCKETS == bucket);
        words.push(first.map_or(0, |i| i as u32 + 1));
    }
    for (i, hash) in hashes.iter().enumerate() {
        let is_last = hashes.get(i + 1).is_none_or(|next| next % BUCKETS != hash % BUCKETS);
        words.push((hash & !1) | u32::from(is_last));
    }
    let bytes: Vec<u8> = match form.order {
        elfkit::Order::Least => words.iter().flat_map(|word| word.to_le_bytes()).collect(),
        elfkit::Order::Greatest => words.iter().flat_map(|word| word.to_be_bytes()).collect(),
    };
    editor.set_data(GNU, &bytes).unwrap();
}

/// An image of strings, symbols and both hash sections.
fn make(form: Form) -> Vec<u8> {
    let mut editor = Editor::new(form.class, form.order).unwrap();
    for (stype, link) in [
        (elf::SHT_STRTAB, 0),
        (elf::SHT_DYNSYM, 1),
        (elf::SHT_HASH, TABLE),
        (elf::SHT_GNU_HASH, TABLE),
    ] {
        let section = editor.add_section().unwrap();
        let header = SectionHeader { stype, link, entsize: 4, addralign: 8, ..Default::default() };
        editor.set_section_header(section, &header).unwrap();
    }
    let mut names: Vec<_> = (0..COUNT).map(name).collect();
    names.sort_by_key(|name| elfkit::gnu_hash(name) % BUCKETS);
    editor.add_item(TABLE, &Symbol::default()).unwrap();
    for (i, text) in names.iter().enumerate() {
        let name = editor.add_string(1, text).unwrap();
        let info = Symbol::info_of(elf::STB_GLOBAL, elf::STT_FUNC);
        let symbol = Symbol { name, info, shndx: 1, value: i as u64, ..Default::default() };
        editor.add_item(TABLE, &symbol).unwrap();
    }
    for word in sysv_words(&names.iter().map(elfkit::hash).collect::<Vec<_>>()) {
        editor.add_item(SYSV, &word).unwrap();
    }
    gnu_section(&mut editor, &names.iter().map(elfkit::gnu_hash).collect::<Vec<_>>(), form);
    editor.image().unwrap()
}

#[test]
fn each_symbol_is_found_in_three_ways() {
    for form in FORMS {
        let bytes = make(form);
        let image = Image::parse(&bytes).unwrap();
        let table = image.section(TABLE).unwrap();
        for i in 0..COUNT + 5 {
            let linear = table.find_linear(name(i)).unwrap();
            assert_eq!(linear.is_some(), i < COUNT);
            assert_eq!(image.section(SYSV).unwrap().find_sysv(name(i)).unwrap(), linear);
            assert_eq!(image.section(GNU).unwrap().find_gnu(name(i)).unwrap(), linear);
        }
    }
}

/// Asserts that what was found has the name.
fn check(table: &Section<'_, '_>, found: elfkit::Result<Option<usize>>, name: &str) -> bool {
    let Ok(Some(i)) = found else {
        return false;
    };
    let symbol = table.symbols().unwrap().get(i).unwrap();
    assert_eq!(table.linked_strings().unwrap().get(symbol.name).unwrap(), name.as_bytes());
    true
}

#[test]
fn a_walk_over_changed_words_ends() {
    let images = FORMS.map(make);
    let (mut random, mut found, mut asked) = (Random(3), 0, 0);
    for i in 0..20_000 {
        let mut bytes = images[i % 4].clone();
        let whole = Image::parse(&images[i % 4]).unwrap();
        let section = whole.section(if random.below(2) == 0 { SYSV } else { GNU }).unwrap();
        let (at, len) = section.range().unwrap();
        for _ in 0..1 + random.below(4) {
            let place = at as usize + random.below(len as u32) as usize;
            bytes[place] = random.below(32) as u8;
        }
        let image = Image::parse(&bytes).unwrap();
        let table = image.section(TABLE).unwrap();
        for name in (0..COUNT).map(name) {
            let sysv = image.section(SYSV).unwrap().find_sysv(&name);
            let gnu = image.section(GNU).unwrap().find_gnu(&name);
            found += usize::from(check(&table, sysv, &name));
            found += usize::from(check(&table, gnu, &name));
            asked += 2;
        }
    }
    println!("{found} of {asked} lookups by changed sections find their symbol");
    assert!(found < asked && found > asked / 2);
}
