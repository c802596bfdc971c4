//! Why a call failed.

use std::error::Error as StdError;
use std::fmt;
use std::io;

/// What the calls of this crate return.
pub type Result<T> = std::result::Result<T, Error>;

macro_rules! errors {
    ($($(#[$doc:meta])* $name:ident = $number:literal, $text:literal;)*) => {
        /// Why a call failed.
        ///
        /// The core tells a refusal by a number; each number is one variant. A call that fails
        /// has changed nothing. The doc comment of a call names the refusals in the order in
        /// which they are looked for: the first that applies is returned.
        #[derive(Debug)]
        #[non_exhaustive]
        pub enum Error {
            $($(#[$doc])* $name,)*
            /// A file could not be opened, read or written.
            Io(io::Error),
            /// The core told a number that this version of the crate does not know. No export
            /// has a clause by which that can be.
            Unknown(u32),
        }

        impl Error {
            /// The error of a number of the core other than 0.
            pub(crate) fn of(number: u32) -> Error {
                match number {
                    $($number => Error::$name,)*
                    _ => Error::Unknown(number),
                }
            }

            /// The number by which the core tells this refusal; nothing for [`Error::Io`].
            pub fn number(&self) -> Option<u32> {
                match self {
                    $(Error::$name => Some($number),)*
                    Error::Io(_) => None,
                    Error::Unknown(number) => Some(*number),
                }
            }
        }

        impl fmt::Display for Error {
            fn fmt(&self, f: &mut fmt::Formatter<'_>) -> fmt::Result {
                match self {
                    $(Error::$name => f.write_str($text),)*
                    Error::Io(cause) => write!(f, "{cause}"),
                    Error::Unknown(number) => write!(f, "refusal {number}"),
                }
            }
        }

        #[cfg(test)]
        const KNOWN: u32 = [$($number),*].len() as u32;
    };
}

errors! {
    /// There is no memory for the call.
    Memory = 1, "out of memory";
    /// The source failed to read. The core reads bytes in memory, so no call returns it.
    Read = 2, "read failed";
    /// The sink failed to write. The core writes to memory, so no call returns it.
    Write = 3, "write failed";
    /// The image is shorter than its header, or the archive than its first line.
    Short = 4, "too short";
    /// The image does not begin with the ELF magic number, or the archive with its own.
    Magic = 5, "not an ELF image";
    /// `e_ident[EI_CLASS]` is neither of the two classes.
    Class = 6, "bad class";
    /// `e_ident[EI_DATA]` is neither of the two byte orders.
    Order = 7, "bad byte order";
    /// A version in the header is not 1.
    Version = 8, "bad version";
    /// The program header table is not well formed or does not lie in the image.
    PhTable = 9, "bad program header table";
    /// The section header table is not well formed or does not lie in the image.
    ShTable = 10, "bad section header table";
    /// There is no section with that number.
    NoSection = 11, "no such section";
    /// The section has no piece of data with that number.
    NoData = 12, "no such piece of data";
    /// There is no item or program header with that index.
    NoEntry = 13, "no such entry";
    /// The section holds items of another kind.
    WrongKind = 14, "the section holds items of another kind";
    /// The section's bytes do not lie in the image.
    OutOfFile = 15, "the section's bytes are not in the image";
    /// The section's size is no multiple of its item's.
    Ragged = 16, "the section's size is no multiple of its item's";
    /// A value does not fit its field in the class of the image.
    Unfit = 17, "a value does not fit the class of the image";
    /// Two parts of the image share a byte.
    Overlap = 18, "two parts of the image share a byte";
    /// A size or a place is above its limit.
    TooLarge = 19, "too large";
    /// A count is above its limit.
    TooMany = 20, "too many";
    /// A caller never clears the dirty flag. No call of this crate asks for it.
    FlagKept = 21, "flag kept";
    /// The section is no string table.
    NotStrings = 22, "not a string table";
    /// There is no string at that offset.
    NoString = 23, "no string at that offset";
    /// The string at that offset has no end.
    Unended = 24, "the string has no end";
    /// The archive has a bad member, or a bad table of symbols.
    BadMember = 25, "bad member";
    /// A record or a word that another one leads to is not there.
    BadChain = 26, "a record leads to one that is not there";
    /// Section 0 is reserved.
    Reserved = 27, "section 0 is reserved";
    /// An alignment is no power of two, or too large.
    BadAlign = 28, "bad alignment";
    /// The symbols are not in the order that a hash section needs. No export returns it.
    Unsorted = 29, "symbols not in order";
}

impl StdError for Error {
    fn source(&self) -> Option<&(dyn StdError + 'static)> {
        match self {
            Error::Io(cause) => Some(cause),
            _ => None,
        }
    }
}

impl From<io::Error> for Error {
    /// Out of memory, as when a file is read, is [`Error::Memory`].
    fn from(cause: io::Error) -> Error {
        match cause.kind() {
            io::ErrorKind::OutOfMemory => Error::Memory,
            _ => Error::Io(cause),
        }
    }
}

impl From<std::collections::TryReserveError> for Error {
    fn from(_: std::collections::TryReserveError) -> Error {
        Error::Memory
    }
}

#[cfg(test)]
mod tests {
    use super::{Error, KNOWN};

    #[test]
    fn each_number_is_one_error() {
        for number in 1..=KNOWN {
            let error = Error::of(number);
            assert!(!matches!(error, Error::Unknown(_)), "{number}");
            assert_eq!(error.number(), Some(number));
            assert!(!error.to_string().is_empty());
        }
        assert!(matches!(Error::of(KNOWN + 1), Error::Unknown(_)));
    }
}
