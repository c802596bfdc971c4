//! What the tests share: the small images and archives that the tests of the library for C make
//! (capi/tests/image.h, archive.h), and how they are changed at random.
#![allow(dead_code)]

use elfkit::{Class, Form, Item, Order, Section};

pub const SECTIONS: u32 = 6;
pub const NAMES: u32 = 1;
pub const SYMBOLS: u32 = 2;
pub const STRINGS: u32 = 3;
pub const NOTES: u32 = 4;
pub const RELOCATIONS: u32 = 5;

pub const FORMS: [Form; 4] = [
    Form { class: Class::C32, order: Order::Least },
    Form { class: Class::C64, order: Order::Least },
    Form { class: Class::C32, order: Order::Greatest },
    Form { class: Class::C64, order: Order::Greatest },
];

/// An image that is made.
struct Made {
    form: Form,
    bytes: Vec<u8>,
}

impl Made {
    fn put(&mut self, at: usize, width: usize, value: u64) {
        let mut bytes = value.to_le_bytes()[..width].to_vec();
        if self.form.order == Order::Greatest {
            bytes.reverse();
        }
        if self.bytes.len() < at + width {
            self.bytes.resize(at + width, 0);
        }
        self.bytes[at..at + width].copy_from_slice(&bytes);
    }

    fn put_bytes(&mut self, at: usize, bytes: &[u8]) {
        if self.bytes.len() < at + bytes.len() {
            self.bytes.resize(at + bytes.len(), 0);
        }
        self.bytes[at..at + bytes.len()].copy_from_slice(bytes);
    }

    /// The size of an address.
    fn wide(&self) -> usize {
        if self.form.class == Class::C64 {
            8
        } else {
            4
        }
    }

    fn put_section(&mut self, table: usize, index: u32, fields: [usize; 10]) {
        let wide = self.wide();
        let widths = [4, 4, wide, wide, wide, wide, 4, 4, wide, wide];
        let mut at = table + index as usize * widths.iter().sum::<usize>();
        for (width, field) in widths.into_iter().zip(fields) {
            self.put(at, width, field as u64);
            at += width;
        }
    }

    fn put_symbol(&mut self, at: usize, name: u64, info: u8, shndx: u64, value: u64, size: u64) {
        self.put(at, 4, name);
        if self.wide() == 8 {
            self.put(at + 4, 1, info.into());
            self.put(at + 6, 2, shndx);
            self.put(at + 8, 8, value);
            self.put(at + 16, 8, size);
        } else {
            self.put(at + 4, 4, value);
            self.put(at + 8, 4, size);
            self.put(at + 12, 1, info.into());
            self.put(at + 14, 2, shndx);
        }
    }

    fn put_header(&mut self, table: usize) {
        let is64 = self.wide() == 8;
        let class = if is64 { 2 } else { 1 };
        let order = if self.form.order == Order::Greatest { 2 } else { 1 };
        self.put_bytes(0, &[0x7f, b'E', b'L', b'F', class, order, 1]);
        self.put(16, 2, 1);
        self.put(18, 2, if is64 { 62 } else { 3 });
        self.put(20, 4, 1);
        let tail = if is64 { 52 } else { 40 };
        self.put(if is64 { 40 } else { 32 }, self.wide(), table as u64);
        self.put(tail, 2, if is64 { 64 } else { 52 });
        self.put(tail + 6, 2, if is64 { 64 } else { 40 });
        self.put(tail + 8, 2, SECTIONS.into());
        self.put(tail + 10, 2, NAMES.into());
    }
}

/// An image of a string table of names, a symbol table of three symbols, its strings, a note, and
/// a relocation with an addend.
pub fn make_image(form: Form) -> Vec<u8> {
    let names: &[u8] = b"\0.shstrtab\0.symtab\0.strtab\0.note\0.rela\0";
    let strings: &[u8] = b"\0first\0second\0";
    let is64 = form.class == Class::C64;
    let (symbol, rela) = if is64 { (24, 24) } else { (16, 12) };
    let names_at = if is64 { 64 } else { 52 };
    let strings_at = names_at + 64;
    let symbols_at = strings_at + 16;
    let notes_at = symbols_at + 3 * symbol;
    let rela_at = notes_at + 24;
    let table = rela_at + rela;
    let mut m = Made { form, bytes: Vec::new() };
    m.put_header(table);
    m.put_bytes(names_at, names);
    m.put_bytes(strings_at, strings);
    m.put_symbol(symbols_at + symbol, 1, 0x11, 0xfff1, 0x1234, 8);
    m.put_symbol(symbols_at + 2 * symbol, 7, 0x22, 0, 0, 0);
    m.put(notes_at, 4, 4);
    m.put(notes_at + 4, 4, 4);
    m.put(notes_at + 8, 4, 77);
    m.put_bytes(notes_at + 12, b"abc\0");
    m.put(notes_at + 16, 4, 0x1122_3344);
    let wide = m.wide();
    m.put(rela_at, wide, 0x20);
    m.put(rela_at + wide, wide, if is64 { (2 << 32) | 9 } else { (2 << 8) | 9 });
    m.put(rela_at + 2 * wide, wide, (-5_i64) as u64);
    let (names_len, strings_len) = (names.len(), strings.len());
    m.put_section(table, 0, [0; 10]);
    m.put_section(table, NAMES, [1, 3, 0, 0, names_at, names_len, 0, 0, 1, 0]);
    m.put_section(table, SYMBOLS, [11, 2, 0, 0, symbols_at, 3 * symbol, 3, 1, 4, symbol]);
    m.put_section(table, STRINGS, [19, 3, 0, 0, strings_at, strings_len, 0, 0, 1, 0]);
    m.put_section(table, NOTES, [27, 7, 0, 0, notes_at, 20, 0, 0, 4, 0]);
    m.put_section(table, RELOCATIONS, [33, 4, 0, 0, rela_at, rela, 2, 1, 4, rela]);
    m.bytes
}

pub const MEMBER_NAMES: [&str; 3] = ["a_name_of_more_than_15_bytes.o", "short.o", "notes.txt"];

/// An archive of a table of two symbols, a table of long names, and three members, of which two
/// are images; with the places of the members' headers.
pub fn make_archive() -> (Vec<u8>, [usize; 3]) {
    let mut bytes = b"!<arch>\n".to_vec();
    let mut table = b"\0\0\0\x02........first\0second\0".to_vec();
    table.truncate(25);
    let table_at = put_member(&mut bytes, "/", &table);
    let mut names = b"a_name_of_more_than_15_bytes.o/\n".to_vec();
    names.truncate(32);
    put_member(&mut bytes, "//", &names);
    let first = make_image(FORMS[1]);
    let second = make_image(FORMS[2]);
    let at = [
        put_member(&mut bytes, "/0", &first),
        put_member(&mut bytes, "short.o/", &second),
        put_member(&mut bytes, "notes.txt/", b"odd"),
    ];
    for (i, place) in at.iter().take(2).enumerate() {
        let to = table_at + 60 + 4 + 4 * i;
        bytes[to..to + 4].copy_from_slice(&(*place as u32).to_be_bytes());
    }
    (bytes, at)
}

/// A header and its body; the next header is at an even place.
fn put_member(bytes: &mut Vec<u8>, name: &str, body: &[u8]) -> usize {
    let at = bytes.len();
    let size = body.len();
    let header = format!("{name:<16}{:<12}{:<6}{:<6}{:<8o}{size:<10}`\n", 1234, 56, 78, 0o644);
    assert_eq!(header.len(), 60);
    bytes.extend_from_slice(header.as_bytes());
    bytes.extend_from_slice(body);
    if bytes.len() & 1 == 1 {
        bytes.push(b'\n');
    }
    at
}

/// The random numbers of capi/tests/hostile.c.
pub struct Random(pub u32);

impl Random {
    pub fn below(&mut self, n: u32) -> u32 {
        self.0 = self.0.wrapping_mul(1_664_525).wrapping_add(1_013_904_223);
        (self.0 >> 8) % n
    }

    /// Changes a few bytes, and cuts some images short.
    pub fn change(&mut self, bytes: &mut Vec<u8>) {
        let size = bytes.len() as u32;
        for _ in 0..self.below(4) {
            let at = self.below(size) as usize;
            bytes[at] = if self.below(3) == 0 { 0xff } else { self.below(256) as u8 };
        }
        if self.below(3) == 0 {
            bytes.truncate(self.below(size + 1) as usize);
        }
    }
}

/// Asserts that the items of a section are those that the core gives, and that both refuse alike.
/// How many items there are.
pub fn agree<T: Item>(section: &Section<'_, '_>) -> usize {
    let table = match section.items::<T>() {
        Ok(table) => table,
        Err(refusal) => {
            let asked = section.item::<T>(0).expect_err("the core gives an item");
            assert_eq!(asked.number(), refusal.number(), "{section:?}");
            return 0;
        }
    };
    assert_eq!(table.len(), table.iter().count());
    for (i, item) in table.iter().enumerate() {
        assert_eq!(Some(item), table.get(i));
        assert_eq!(section.item::<T>(i as u64).expect("the core refuses"), item, "{section:?} {i}");
    }
    let behind = section.item::<T>(table.len() as u64).expect_err("an item behind the last");
    assert_eq!(behind.number(), Some(13));
    assert!(table.get(table.len()).is_none());
    table.len()
}

/// The same of the items of every kind.
pub fn agree_in_all(section: &Section<'_, '_>) -> usize {
    agree::<elfkit::Symbol>(section)
        + agree::<elfkit::Rel>(section)
        + agree::<elfkit::Rela>(section)
        + agree::<elfkit::Dynamic>(section)
        + agree::<u16>(section)
        + agree::<u32>(section)
        + agree::<u64>(section)
}

/// Asserts that the string at an offset is that of the core, or refused alike.
pub fn agree_on_string(section: &Section<'_, '_>, offset: u64) {
    let asked = section.string_length(offset);
    match section.strings().and_then(|strings| strings.get(offset)) {
        Ok(string) => {
            assert_eq!(asked.expect("the core refuses"), string.len() as u64);
            assert!(section.strings().unwrap().is(offset, string));
        }
        Err(refusal) => {
            let number = asked.expect_err("the core gives a string").number();
            assert_eq!(number, refusal.number(), "{section:?} {offset}");
        }
    }
}
