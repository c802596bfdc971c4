//! The version records of a section: definitions and needs, each with a list of names.
//!
//! An entry tells how far behind it the next one is, 0 for none, so that a walk goes on to greater
//! places alone and ends. Of names there are as many as the entry tells; a next of 0 before the
//! last of them is a [`Error::BadChain`].

use std::iter::FusedIterator;

use crate::error::{Error, Result};
use crate::records::{Verdaux, Verdef, Vernaux, Verneed};
use crate::section::Section;

/// The place behind one, or nothing for a next of 0 and where no number tells it.
fn place_behind(at: u64, next: u32) -> Option<u64> {
    match next {
        0 => None,
        _ => at.checked_add(u64::from(next)),
    }
}

macro_rules! entries {
    (
        $(#[$doc:meta])*
        $Entries:ident, $Entry:ident, $entry_call:ident, $(#[$entry_doc:meta])* $record:ident,
        $(#[$names_doc:meta])*
        $Names:ident, $Name:ident, $name_call:ident
    ) => {
        $(#[$doc])*
        #[derive(Clone, Debug)]
        pub struct $Entries<'image, 'data> {
            section: Section<'image, 'data>,
            at: Option<u64>,
        }

        impl<'image, 'data> $Entries<'image, 'data> {
            pub(crate) fn new(section: Section<'image, 'data>) -> $Entries<'image, 'data> {
                let is_empty = section.data().is_ok_and(<[u8]>::is_empty);
                $Entries { section, at: (!is_empty).then_some(0) }
            }
        }

        impl<'image, 'data> Iterator for $Entries<'image, 'data> {
            type Item = Result<($record, $Names<'image, 'data>)>;

            fn next(&mut self) -> Option<Self::Item> {
                let at = self.at.take()?;
                let section = self.section;
                Some(section.image().object().$entry_call(section.index(), at).map(|entry| {
                    self.at = place_behind(at, entry.next);
                    let first = at.checked_add(u64::from(entry.aux));
                    (entry, $Names { section, at: first, left: entry.cnt })
                }))
            }
        }

        impl FusedIterator for $Entries<'_, '_> {}

        $(#[$names_doc])*
        #[derive(Clone, Debug)]
        pub struct $Names<'image, 'data> {
            section: Section<'image, 'data>,
            at: Option<u64>,
            left: u16,
        }

        impl Iterator for $Names<'_, '_> {
            type Item = Result<$Name>;

            fn next(&mut self) -> Option<Result<$Name>> {
                self.left = self.left.checked_sub(1)?;
                let Some(at) = self.at.take() else {
                    self.left = 0;
                    return Some(Err(Error::BadChain));
                };
                let given = self.section.image().object().$name_call(self.section.index(), at);
                match &given {
                    Ok(name) => self.at = place_behind(at, name.next),
                    Err(_) => self.left = 0,
                }
                Some(given)
            }
        }

        impl FusedIterator for $Names<'_, '_> {}
    };
}

entries! {
    /// Goes over the version definitions of a section, each with its names.
    ///
    /// Rests on `elfkit_verdef`, which it calls for each. A refusal ends it:
    /// [`Error::WrongKind`], [`Error::OutOfFile`], [`Error::Memory`], and [`Error::BadChain`] for
    /// a definition that does not lie in the section.
    VersionDefinitions, Verdef, verdef, Verdef,
    /// Goes over the names of a version definition. Rests on `elfkit_verdaux`, and refuses as
    /// [`VersionDefinitions`].
    DefinitionNames, Verdaux, verdaux
}

entries! {
    /// Goes over the files of which versions are needed, each with these versions.
    ///
    /// Rests on `elfkit_verneed`, which it calls for each. A refusal ends it:
    /// [`Error::WrongKind`], [`Error::OutOfFile`], [`Error::Memory`], and [`Error::BadChain`] for
    /// one that does not lie in the section.
    VersionNeeds, Verneed, verneed, Verneed,
    /// Goes over the versions that are needed of a file. Rests on `elfkit_vernaux`, and refuses as
    /// [`VersionNeeds`].
    NeededVersions, Vernaux, vernaux
}
