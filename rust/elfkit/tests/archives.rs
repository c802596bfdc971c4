//! Reading archives.

mod common;

use common::*;
use elfkit::{Archive, Error, Image};

#[test]
fn members_have_names_places_and_images() {
    let (bytes, at) = make_archive();
    let archive = Archive::parse(&bytes).unwrap();
    let members: Vec<_> = archive.members().unwrap().map(Result::unwrap).collect();
    let names: Vec<_> = members.iter().map(|m| String::from_utf8_lossy(m.name())).collect();
    assert_eq!(names, MEMBER_NAMES);
    for (member, at) in members.iter().zip(at) {
        assert_eq!(member.at, at as u64);
        assert_eq!((member.mode, member.uid, member.gid, member.date), (0o644, 56, 78, 1234));
    }
    assert_eq!(members[0].data(), make_image(FORMS[1]));
    assert_eq!(members[1].image().unwrap().form(), FORMS[2]);
    assert_eq!(members[2].data(), b"odd");
    assert!(matches!(members[2].image(), Err(Error::Short)));
}

#[test]
fn a_member_outlives_the_walk_and_the_archive() {
    let (bytes, _) = make_archive();
    let image: Image<'_> = {
        let archive = Archive::parse(&bytes).unwrap();
        let first = archive.members().unwrap().next().unwrap().unwrap();
        first.image().unwrap()
    };
    assert_eq!(image.section_count(), SECTIONS);
}

#[test]
fn symbols_lead_to_their_members() {
    let (bytes, at) = make_archive();
    let archive = Archive::parse(&bytes).unwrap();
    let table = archive.symbols().unwrap();
    assert_eq!(table.count_left(), 2);
    let symbols: Vec<_> = table.map(Result::unwrap).collect();
    assert_eq!((symbols[0].name(), symbols[1].name()), (&b"first"[..], &b"second"[..]));
    for (i, symbol) in symbols.iter().enumerate() {
        assert_eq!(symbol.at, at[i] as u64);
        let member = archive.member_at(symbol.at).unwrap();
        assert_eq!(String::from_utf8_lossy(member.name()), MEMBER_NAMES[i]);
    }
    assert!(matches!(archive.member_at(9), Err(Error::NoEntry)));
}

#[test]
fn what_is_no_archive_is_refused() {
    assert!(matches!(Archive::parse(b"!<arch>"), Err(Error::Short)));
    assert!(matches!(Archive::parse(&make_image(FORMS[0])), Err(Error::Magic)));
    assert_eq!(Archive::parse(b"!<arch>\n").unwrap().members().unwrap().count(), 0);
    assert_eq!(Archive::parse(b"!<arch>\n").unwrap().symbols().unwrap().count(), 0);
}

#[test]
fn a_bad_member_ends_the_walk() {
    let (mut bytes, at) = make_archive();
    bytes[at[1] + 58] = b'x';
    let archive = Archive::parse(&bytes).unwrap();
    let members: Vec<_> = archive.members().unwrap().collect();
    assert_eq!(members.len(), 2);
    assert!(members[0].is_ok());
    assert!(matches!(members[1], Err(Error::BadMember)));
}
