//! Reads, edits and writes ELF images, and reads archives: safe types over a proved core.
//!
//! ```
//! use elfkit::{Error, Image, Result};
//! use std::io::Write;
//!
//! fn print_names(data: &[u8], out: &mut impl Write) -> Result<()> {
//!     let image = Image::parse(data)?;
//!     let table = image.symbol_table().ok_or(Error::NoSection)?;
//!     let names = table.linked_strings()?;
//!     for symbol in table.symbols()?.iter().skip(1) {
//!         match names.get(symbol.name) {
//!             Ok(name) => out.write_all(&[name, b"\n"].concat())?,
//!             Err(Error::NoString | Error::Unended) => {}
//!             Err(error) => return Err(error),
//!         }
//!     }
//!     Ok(())
//! }
//! # let mut names = Vec::new();
//! # print_names(&std::fs::read(std::env::current_exe()?)?, &mut names)?;
//! # assert!(names.split(|byte| *byte == b'\n').any(|name| name == b"main"));
//! # Ok::<(), Error>(())
//! ```
//!
//! An [`Image`] is read, an [`Editor`] edits one and writes it, an [`Archive`] has members. Both
//! classes and both byte orders have one set of records.
//!
//! # What is proved, and what is trusted
//!
//! The core is a static library, `libelfkit.a`, of elfkit's calls, which are proved: each export
//! `elfkit_*` gives exactly the answer that docs/MODEL.md states, is refused exactly where it is
//! stated, touches no memory that it was not handed, and returns, on every input. The doc comment
//! of a call here names the exports whose clauses it rests on; the clauses are in
//! `crates/elfkit_c/src`.
//!
//! Trusted is what is between those clauses and a program:
//!
//! - **The declarations** of the exports, in one module, which has all of the crate's `unsafe`.
//!   `rust/check-core` compares them, and the records, with `capi/core.h`, and the errors with the
//!   core's numbers; `capi/check-core` compares that with the core.
//! - **The wrapper**, which is plain Rust. It is tested, not proved. Four parts of it are more
//!   than a call: the items of a [`Table`] and the strings of [`Strings`] are taken from the bytes
//!   at the place that the core tells, items are put into bytes by [`Editor::set_item`], lookups by
//!   [`Section::find_linear`] and its like walk here, since the core has no export for them, and
//!   [`Editor::write_in_place`] compares and writes. The tests compare each item and each string
//!   that they come to with the core's own answer ([`Section::item`], [`Section::string_length`]).
//! - **The toolchains**: rustc, and the core's, which README.md names.
//!
//! The tests run plain and with the address sanitizer, and under valgrind, which sees the core's
//! reads and writes too. Miri cannot run them, since it runs no foreign code.
//!
//! # Errors and memory
//!
//! Each refusal of the core is a variant of [`Error`]. No input makes a call panic; the crate
//! denies itself indexing, `unwrap` and arithmetic that can overflow. An allocation that fails, in
//! the core or here, is [`Error::Memory`].
//!
//! # Lifetimes
//!
//! What an image lends of its bytes lives as long as these do, and a [`Section`] as long as the
//! image. A section does not outlive its image:
//!
//! ```compile_fail,E0597
//! fn first(data: &[u8]) -> elfkit::Result<()> {
//!     let section;
//!     {
//!         let image = elfkit::Image::parse(data)?;
//!         section = image.section(1)?;
//!     }
//!     println!("{:?}", section.header());
//!     Ok(())
//! }
//! ```
//!
//! The bytes of a section do not outlive what they are bytes of:
//!
//! ```compile_fail,E0597
//! fn first() -> elfkit::Result<()> {
//!     let lent;
//!     {
//!         let data = std::fs::read("program")?;
//!         lent = elfkit::Image::parse(&data)?.section(1)?.data()?;
//!     }
//!     println!("{} bytes", lent.len());
//!     Ok(())
//! }
//! ```
//!
//! The same of a file that holds its bytes:
//!
//! ```compile_fail,E0505
//! fn first() -> elfkit::Result<()> {
//!     let file = elfkit::ImageFile::open("program")?;
//!     let lent = file.image().section(1)?.data()?;
//!     drop(file);
//!     println!("{} bytes", lent.len());
//!     Ok(())
//! }
//! ```
//!
//! Nobody writes the bytes while an image is open over them:
//!
//! ```compile_fail,E0506
//! fn change(data: &mut [u8; 64]) -> elfkit::Result<()> {
//!     let image = elfkit::Image::parse(data)?;
//!     data[16] = 1;
//!     println!("{:?}", image.header());
//!     Ok(())
//! }
//! ```
//!
//! A member of an archive does not outlive the archive's bytes:
//!
//! ```compile_fail,E0515
//! fn first() -> elfkit::Result<elfkit::Member<'static>> {
//!     let data = std::fs::read("archive.a")?;
//!     elfkit::Archive::parse(&data)?.member_at(8)
//! }
//! ```
//!
//! One thread uses an image at a time; it may go from one to another:
//!
//! ```compile_fail,E0277
//! fn share(image: elfkit::Image<'_>) {
//!     std::thread::scope(|scope| {
//!         scope.spawn(|| image.header());
//!         scope.spawn(|| image.header());
//!     });
//! }
//! ```
//!
//! ```
//! fn send(image: elfkit::Image<'_>) {
//!     std::thread::scope(|scope| {
//!         scope.spawn(move || image.header());
//!     });
//! }
//! # let data = std::fs::read(std::env::current_exe()?)?;
//! # send(elfkit::Image::parse(&data)?);
//! # Ok::<(), elfkit::Error>(())
//! ```
#![deny(missing_docs, unsafe_code)]
#![deny(clippy::arithmetic_side_effects, clippy::indexing_slicing)]
#![deny(clippy::expect_used, clippy::panic, clippy::unwrap_used)]
#![warn(missing_debug_implementations)]

mod archive;
mod editor;
pub mod elf;
mod error;
mod image;
mod items;
mod lookup;
mod notes;
mod raw;
mod records;
mod section;
mod stored;
mod strings;
mod table;
mod versions;
mod write;

pub use archive::{Archive, ArchiveSymbol, ArchiveSymbols, Member, Members};
pub use editor::{Editor, Places};
pub use error::{Error, Result};
pub use image::{Image, ImageFile};
pub use items::{Form, Item};
pub use notes::{Note, Notes};
pub use records::{
    Class, Dynamic, Header, Kind, Order, ProgramHeader, Rel, Rela, SectionHeader, Symbol, Verdaux,
    Verdef, Vernaux, Verneed,
};
pub use section::{Place, Section, Sections};
pub use strings::Strings;
pub use table::{Items, Table};
pub use versions::{DefinitionNames, NeededVersions, VersionDefinitions, VersionNeeds};
pub use write::{Change, Changes};

/// The hash of a name in a section of type `SHT_HASH`.
///
/// Rests on `elfkit_hash`. It refuses nothing and takes no memory.
pub fn hash(name: impl AsRef<[u8]>) -> u32 {
    raw::hash(name.as_ref())
}

/// The hash of a name in GNU's hash section.
///
/// Rests on `elfkit_gnu_hash`. It refuses nothing and takes no memory.
pub fn gnu_hash(name: impl AsRef<[u8]>) -> u32 {
    raw::gnu_hash(name.as_ref())
}

/// Reads bytes as items of a kind in one byte order, and puts them in their place in another.
///
/// Rests on `elfkit_translate`. It refuses [`Error::Ragged`] where the size of an item does not
/// divide the number of bytes; the bytes stay then. It takes no memory. `Kind::Empty` stands for
/// bytes.
pub fn translate(kind: Kind, class: Class, from: Order, to: Order, bytes: &mut [u8]) -> Result<()> {
    let (class, from, to) = (class.number(), from.number(), to.number());
    raw::translate(kind.number(), class.into(), from.into(), to.into(), bytes)
}
