//! Version records, and lookups by the hash sections.

use crate::{same, Both, Compared, Counts};
use elfkit::Section;
use object::read::elf::{FileHeader, SectionHeader, VersionTable};
use object::{Endianness, SectionIndex};

impl<'data, E: FileHeader<Endian = Endianness>> Both<'_, 'data, E> {
    pub(crate) fn versions(
        &self,
        section: &Section<'_, 'data>,
        theirs: &E::SectionHeader,
    ) -> Compared {
        let (e, data) = (self.endian, self.data);
        let mut counts = Counts::default();
        let told = |refusal: object::read::Error| refusal.to_string();
        if let Some((theirs, _)) = theirs.gnu_versym(e, data).map_err(told)? {
            let mine = section.items::<u16>().map_err(|refusal| refusal.to_string())?;
            same!(mine.len(), theirs.len(), "count of versions");
            for (i, (mine, theirs)) in mine.iter().zip(theirs).enumerate() {
                same!(mine, theirs.0.get(e), "version of {i}");
            }
            counts.versions += mine.len();
        }
        if let Some((mut theirs, _)) = theirs.gnu_verdef(e, data).map_err(told)? {
            let mut mine = section.version_definitions();
            while let Some((theirs, mut their_names)) = theirs.next().map_err(told)? {
                let (mine, names) = mine.next().ok_or("a definition less")?.map_err(words)?;
                same!(mine.version, theirs.vd_version.get(e), "vd_version");
                same!(mine.flags, theirs.vd_flags.get(e), "vd_flags");
                same!(mine.ndx, theirs.vd_ndx.get(e), "vd_ndx");
                same!(mine.cnt, theirs.vd_cnt.get(e), "vd_cnt");
                same!(mine.hash, theirs.vd_hash.get(e), "vd_hash");
                for name in names {
                    let name = name.map_err(words)?;
                    let theirs = their_names.next().map_err(told)?.ok_or("a name more")?;
                    same!(name.name, theirs.vda_name.get(e), "vda_name");
                    same!(name.next, theirs.vda_next.get(e), "vda_next");
                    counts.versions += 1;
                }
            }
            same!(mine.next().is_none(), true, "end of the definitions");
        }
        if let Some((mut theirs, _)) = theirs.gnu_verneed(e, data).map_err(told)? {
            let mut mine = section.version_needs();
            while let Some((theirs, mut their_needs)) = theirs.next().map_err(told)? {
                let (mine, needs) = mine.next().ok_or("a need less")?.map_err(words)?;
                same!(mine.version, theirs.vn_version.get(e), "vn_version");
                same!(mine.cnt, theirs.vn_cnt.get(e), "vn_cnt");
                same!(mine.file, theirs.vn_file.get(e), "vn_file");
                for need in needs {
                    let need = need.map_err(words)?;
                    let theirs = their_needs.next().map_err(told)?.ok_or("a version more")?;
                    same!(need.hash, theirs.vna_hash.get(e), "vna_hash");
                    same!(need.flags, theirs.vna_flags.get(e), "vna_flags");
                    same!(need.other, theirs.vna_other.get(e), "vna_other");
                    same!(need.name, theirs.vna_name.get(e), "vna_name");
                    counts.versions += 1;
                }
            }
            same!(mine.next().is_none(), true, "end of the needs");
        }
        Ok(counts)
    }

    /// Looks each name of the symbols up by a hash section, in the three ways and by `object`.
    pub(crate) fn lookups(
        &self,
        section: &Section<'_, 'data>,
        theirs: &E::SectionHeader,
    ) -> Compared {
        let (e, data) = (self.endian, self.data);
        let gnu = theirs.gnu_hash(e, data).map_err(|refusal| refusal.to_string())?;
        let sysv = theirs.hash(e, data).map_err(|refusal| refusal.to_string())?;
        if gnu.is_none() && sysv.is_none() {
            return Ok(Counts::default());
        }
        let linked = section.image().section(section.header().link).map_err(words)?;
        let (symbols, strings) =
            (linked.symbols().map_err(words)?, linked.linked_strings().map_err(words)?);
        let place = SectionIndex(linked.index() as usize);
        let table = self.sections.symbol_table_by_index(e, data, place);
        let table = table.map_err(|refusal| refusal.to_string())?;
        let versions = VersionTable::default();
        let mut counts = Counts::default();
        // a search among all symbols takes long in a large table
        let step = symbols.len() / 500 + 1;
        for symbol in symbols.iter().step_by(step) {
            let name = strings.get(symbol.name).map_err(words)?;
            let linear = linked.find_linear(name).map_err(words)?;
            let told = String::from_utf8_lossy(name);
            if let Some((theirs, _)) = &gnu {
                same!(section.find_gnu(name).map_err(words)?, linear, "{told} by GNU's hash");
                let hash = object::elf::gnu_hash(name);
                same!(hash, elfkit::gnu_hash(name), "hash of {told}");
                // `object` finds symbols that are not defined too
                if linear.is_some() {
                    let found = theirs.find(e, name, hash, None, &table, &versions);
                    same!(found.map(|(i, _)| i), linear, "{told} by object's GNU hash");
                }
            }
            if let Some((theirs, _)) = &sysv {
                same!(section.find_sysv(name).map_err(words)?, linear, "{told} by the hash");
                let hash = object::elf::hash(name);
                same!(hash, elfkit::hash(name), "hash of {told}");
                if linear.is_some() {
                    let found = theirs.find(e, name, hash, None, &table, &versions);
                    same!(found.is_some(), true, "{told} by object's hash");
                }
            }
            counts.lookups += 1;
        }
        Ok(counts)
    }
}

fn words(refusal: elfkit::Error) -> String {
    refusal.to_string()
}
