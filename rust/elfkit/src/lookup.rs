//! A symbol by its name.
//!
//! A symbol is *listed* by its name where it is not symbol 0, is not local, is defined, and has a
//! name that can be read and is not empty. Each lookup gives the least index of a symbol that is
//! listed by the name. In a hash section that a link editor made all three find the same.
//!
//! The core has no export for a lookup, but for the two hashes: these walks are this crate's. They
//! are written after the definitions of docs/MODEL.md, and tested, beside each other and beside
//! the crate `object`.

use crate::error::{Error, Result};
use crate::items::{Form, Item};
use crate::records::{Kind, Symbol};
use crate::section::Section;
use crate::strings::Strings;
use crate::table::Table;
use crate::{gnu_hash, hash};

/// A table of symbols, its strings where it has any, and the name that is looked for.
struct Search<'data, 'name> {
    symbols: Table<'data, Symbol>,
    strings: Option<Strings<'data>>,
    name: &'name [u8],
}

impl<'data, 'name> Search<'data, 'name> {
    fn new(table: Section<'_, 'data>, name: &'name [u8]) -> Result<Search<'data, 'name>> {
        let symbols = table.symbols()?;
        Ok(Search { symbols, strings: table.linked_strings().ok(), name })
    }

    /// Whether a symbol is listed by the name.
    fn is_listed(&self, i: usize, symbol: &Symbol) -> bool {
        let Some(strings) = self.strings else {
            return false;
        };
        i != 0
            && !self.name.is_empty()
            && !symbol.is_local()
            && !symbol.is_undefined()
            && strings.is(symbol.name, self.name)
    }

    /// The least symbol on a chain that is listed by the name. The chain begins at a symbol and
    /// goes on by `next`, to 0; one that is longer than the table is bad.
    fn on_chain(
        &self,
        first: u32,
        mut next: impl FnMut(u32) -> Result<u32>,
    ) -> Result<Option<usize>> {
        let (mut best, mut at) = (None, first);
        let mut left = self.symbols.len();
        while at != 0 {
            left = left.checked_sub(1).ok_or(Error::BadChain)?;
            let i = at as usize;
            let is_less = best.is_none_or(|best| i < best);
            let symbol = self.symbols.get(i);
            if is_less && symbol.is_some_and(|symbol| self.is_listed(i, &symbol)) {
                best = Some(i);
            }
            at = next(at)?;
        }
        Ok(best)
    }
}

/// The head of GNU's hash section.
struct GnuHead {
    buckets: u32,
    first_symbol: u32,
    bloom_words: u32,
    shift: u32,
}

/// GNU's hash section: numbers at places.
#[derive(Clone, Copy)]
struct GnuSection<'data> {
    bytes: &'data [u8],
    form: Form,
}

impl GnuSection<'_> {
    /// The number at a place.
    fn number<T: Item>(&self, at: u64) -> Result<T> {
        let at = usize::try_from(at).map_err(|_| Error::BadChain)?;
        let bytes = self.bytes.get(at..).ok_or(Error::BadChain)?;
        T::first(bytes, self.form).map(|(number, _)| number).ok_or(Error::BadChain)
    }

    /// A count, which is not 0.
    fn count(&self, at: u64) -> Result<u32> {
        match self.number(at)? {
            0 => Err(Error::BadChain),
            count => Ok(count),
        }
    }

    fn head(&self) -> Result<GnuHead> {
        Ok(GnuHead {
            buckets: self.count(0)?,
            first_symbol: self.number(4)?,
            bloom_words: self.count(8)?,
            shift: self.number(12)?,
        })
    }

    /// The size of a bloom word, in bytes: that of an address.
    fn bloom_bytes(&self) -> u64 {
        u64::size(self.form.class) as u64
    }

    /// Whether the bloom word of a hash has both of its bits.
    fn has_bits(&self, head: &GnuHead, hash: u32) -> Result<bool> {
        let bits = (u64::size(self.form.class) as u32).saturating_mul(8);
        let rest = |number: u32, by: u32| number.checked_rem(by).unwrap_or(0);
        let index = rest(hash.checked_div(bits).unwrap_or(0), head.bloom_words);
        let at = u64::from(index).saturating_mul(self.bloom_bytes()).saturating_add(16);
        let word: u64 = self.number(at)?;
        let has = |bit: u32| word.checked_shr(bit).unwrap_or(0) & 1 == 1;
        let second = hash.checked_shr(head.shift).unwrap_or(0);
        Ok(has(rest(hash, bits)) && has(rest(second, bits)))
    }

    /// Where the buckets begin, and the chain words behind them.
    fn buckets_at(&self, head: &GnuHead) -> u64 {
        self.bloom_bytes().saturating_mul(u64::from(head.bloom_words)).saturating_add(16)
    }

    fn chains_at(&self, head: &GnuHead) -> u64 {
        self.buckets_at(head).saturating_add(u64::from(head.buckets).saturating_mul(4))
    }

    /// The first symbol in the bucket of a hash, 0 for none.
    fn bucket(&self, head: &GnuHead, hash: u32) -> Result<u32> {
        let index = hash.checked_rem(head.buckets).ok_or(Error::BadChain)?;
        let behind = u64::from(index).saturating_mul(4);
        let first: u32 = self.number(self.buckets_at(head).saturating_add(behind))?;
        match first {
            1.. if first < head.first_symbol => Err(Error::BadChain),
            _ => Ok(first),
        }
    }
}

impl Section<'_, '_> {
    /// The least index of a symbol of this table that is listed by a name, or nothing.
    ///
    /// It looks at every symbol, and at no more bytes of a name than `name` has, and one. It
    /// refuses as [`Section::symbols`].
    pub fn find_linear(&self, name: impl AsRef<[u8]>) -> Result<Option<usize>> {
        let search = Search::new(*self, name.as_ref())?;
        let mut symbols = search.symbols.iter().enumerate();
        Ok(symbols.find(|(i, symbol)| search.is_listed(*i, symbol)).map(|(i, _)| i))
    }

    /// The same by this hash section, of type `SHT_HASH`, in the symbol table to which it links:
    /// the least index on the chain of the name's bucket.
    ///
    /// Its hash is that of `elfkit_hash`. It refuses as [`Section::items`] does on the words and
    /// on the symbols, and [`Error::BadChain`] where a word of the walk is not there: there are no
    /// buckets, an index is not below the number of chain entries, or the chain is longer than the
    /// symbol table.
    pub fn find_sysv(&self, name: impl AsRef<[u8]>) -> Result<Option<usize>> {
        let name = name.as_ref();
        let words = self.items::<u32>()?;
        let search = Search::new(self.image().section(self.header().link)?, name)?;
        let word = |i: u64| {
            let i = usize::try_from(i).map_err(|_| Error::BadChain)?;
            words.get(i).ok_or(Error::BadChain)
        };
        let buckets = word(0)?;
        let bucket = hash(name).checked_rem(buckets).ok_or(Error::BadChain)?;
        let chains = word(1)?;
        let behind_buckets = u64::from(buckets).saturating_add(2);
        let first = word(u64::from(bucket).saturating_add(2))?;
        search.on_chain(first, |i| {
            if i >= chains {
                return Err(Error::BadChain);
            }
            word(behind_buckets.saturating_add(u64::from(i)))
        })
    }

    /// The same by this section, GNU's hash section, in the symbol table to which it links.
    ///
    /// Its hash is that of `elfkit_gnu_hash`. It refuses as [`Section::items`] does on the symbols,
    /// [`Error::WrongKind`] where this section's items are no bytes, [`Error::OutOfFile`], and
    /// [`Error::BadChain`] where a word of the walk is not there: there are no buckets or no bloom
    /// words, the bucket names a symbol below the first that the section knows, or the chain is
    /// longer than the symbol table.
    pub fn find_gnu(&self, name: impl AsRef<[u8]>) -> Result<Option<usize>> {
        let name = name.as_ref();
        if self.kind()? != Kind::Bytes {
            return Err(Error::WrongKind);
        }
        let section = GnuSection { bytes: self.data()?, form: self.image().form() };
        let search = Search::new(self.image().section(self.header().link)?, name)?;
        let (head, hash) = (section.head()?, gnu_hash(name));
        if !section.has_bits(&head, hash)? {
            return Ok(None);
        }
        let chains = section.chains_at(&head);
        let first = section.bucket(&head, hash)?;
        search.on_chain(first, |i| {
            let behind = u64::from(i.saturating_sub(head.first_symbol)).saturating_mul(4);
            let word: u32 = section.number(chains.saturating_add(behind))?;
            Ok(if word & 1 == 0 { i.saturating_add(1) } else { 0 })
        })
    }
}
