//! Numbers of the standard, under the gABI's names: those that this crate and its examples need,
//! and their like.

macro_rules! constants {
    ($($(#[$doc:meta])* $type:ty { $($(#[$one:meta])* $name:ident = $value:expr,)* })*) => {
        $($($(#[$one])* pub const $name: $type = $value;)*)*
    };
}

constants! {
    u16 {
        /// `e_type`: no type.
        ET_NONE = 0,
        /// `e_type`: a relocatable object.
        ET_REL = 1,
        /// `e_type`: a program.
        ET_EXEC = 2,
        /// `e_type`: a shared object, or a program that may stand at any place.
        ET_DYN = 3,
        /// `e_type`: a core file.
        ET_CORE = 4,
        /// `e_machine`: Intel 80386.
        EM_386 = 3,
        /// `e_machine`: PowerPC.
        EM_PPC = 20,
        /// `e_machine`: ARM of 32 bits.
        EM_ARM = 40,
        /// `e_machine`: AMD x86-64.
        EM_X86_64 = 62,
        /// `e_machine`: ARM of 64 bits.
        EM_AARCH64 = 183,
        /// `e_machine`: RISC-V.
        EM_RISCV = 243,
    }
    u32 {
        /// `sh_type`: the header stands for no section.
        SHT_NULL = 0,
        /// `sh_type`: what the program gives a meaning.
        SHT_PROGBITS = 1,
        /// `sh_type`: symbols.
        SHT_SYMTAB = 2,
        /// `sh_type`: strings.
        SHT_STRTAB = 3,
        /// `sh_type`: relocations with an addend.
        SHT_RELA = 4,
        /// `sh_type`: a hash table of symbols.
        SHT_HASH = 5,
        /// `sh_type`: what a program is linked by when it begins.
        SHT_DYNAMIC = 6,
        /// `sh_type`: notes.
        SHT_NOTE = 7,
        /// `sh_type`: no bytes in the file.
        SHT_NOBITS = 8,
        /// `sh_type`: relocations without an addend.
        SHT_REL = 9,
        /// `sh_type`: the symbols that a program is linked by when it begins.
        SHT_DYNSYM = 11,
        /// `sh_type`: addresses of functions that begin.
        SHT_INIT_ARRAY = 14,
        /// `sh_type`: addresses of functions that end.
        SHT_FINI_ARRAY = 15,
        /// `sh_type`: addresses of functions that run before those of `SHT_INIT_ARRAY`.
        SHT_PREINIT_ARRAY = 16,
        /// `sh_type`: sections that belong together.
        SHT_GROUP = 17,
        /// `sh_type`: sections of symbols whose `st_shndx` is `SHN_XINDEX`.
        SHT_SYMTAB_SHNDX = 18,
        /// `sh_type`: GNU's hash table of symbols.
        SHT_GNU_HASH = 0x6fff_fff6,
        /// `sh_type`: GNU's version definitions.
        SHT_GNU_VERDEF = 0x6fff_fffd,
        /// `sh_type`: GNU's version needs.
        SHT_GNU_VERNEED = 0x6fff_fffe,
        /// `sh_type`: GNU's versions of symbols.
        SHT_GNU_VERSYM = 0x6fff_ffff,
        /// `p_type`: the header stands for no segment.
        PT_NULL = 0,
        /// `p_type`: a segment that is loaded.
        PT_LOAD = 1,
        /// `p_type`: where the dynamic section is.
        PT_DYNAMIC = 2,
        /// `p_type`: the name of the program's interpreter.
        PT_INTERP = 3,
        /// `p_type`: notes.
        PT_NOTE = 4,
        /// `p_type`: the program headers themselves.
        PT_PHDR = 6,
        /// `p_type`: memory of each thread.
        PT_TLS = 7,
        /// `p_flags`: it may be executed.
        PF_X = 1,
        /// `p_flags`: it may be written.
        PF_W = 2,
        /// `p_flags`: it may be read.
        PF_R = 4,
        /// `n_type` of GNU: the lowest system that a program runs on.
        NT_GNU_ABI_TAG = 1,
        /// `n_type` of GNU: the number of a build.
        NT_GNU_BUILD_ID = 3,
        /// `n_type` of GNU: properties of the program.
        NT_GNU_PROPERTY_TYPE_0 = 5,
    }
    u64 {
        /// `sh_flags`: it may be written.
        SHF_WRITE = 1,
        /// `sh_flags`: it is in memory when the program runs.
        SHF_ALLOC = 2,
        /// `sh_flags`: it may be executed.
        SHF_EXECINSTR = 4,
        /// `sh_flags`: it may be merged with others.
        SHF_MERGE = 0x10,
        /// `sh_flags`: it holds strings that end by a NUL.
        SHF_STRINGS = 0x20,
        /// `sh_flags`: `sh_info` is the number of a section.
        SHF_INFO_LINK = 0x40,
        /// `sh_flags`: it belongs to a group.
        SHF_GROUP = 0x200,
        /// `sh_flags`: memory of each thread.
        SHF_TLS = 0x400,
        /// `sh_flags`: its bytes are compressed.
        SHF_COMPRESSED = 0x800,
    }
    u16 {
        /// `st_shndx`: the symbol is defined elsewhere.
        SHN_UNDEF = 0,
        /// `st_shndx`: from here on up no section is meant.
        SHN_LORESERVE = 0xff00,
        /// `st_shndx`: the value is no place and does not change.
        SHN_ABS = 0xfff1,
        /// `st_shndx`: a symbol for which there is no memory yet.
        SHN_COMMON = 0xfff2,
        /// `st_shndx`: the section is in the table of extended indexes.
        SHN_XINDEX = 0xffff,
    }
    u8 {
        /// The binding of a symbol: nobody sees it outside of its object.
        STB_LOCAL = 0,
        /// The binding of a symbol: everybody sees it.
        STB_GLOBAL = 1,
        /// The binding of a symbol: as global, but others come first.
        STB_WEAK = 2,
        /// The binding of a symbol: GNU's, of which there is one in a process.
        STB_GNU_UNIQUE = 10,
        /// The type of a symbol: none.
        STT_NOTYPE = 0,
        /// The type of a symbol: data.
        STT_OBJECT = 1,
        /// The type of a symbol: code.
        STT_FUNC = 2,
        /// The type of a symbol: a section.
        STT_SECTION = 3,
        /// The type of a symbol: the name of a source file.
        STT_FILE = 4,
        /// The type of a symbol: data for which there is no memory yet.
        STT_COMMON = 5,
        /// The type of a symbol: data of each thread.
        STT_TLS = 6,
        /// The type of a symbol: GNU's, a function that finds the function.
        STT_GNU_IFUNC = 10,
        /// The visibility of a symbol: as its binding says.
        STV_DEFAULT = 0,
        /// The visibility of a symbol: as hidden, and more by the machine.
        STV_INTERNAL = 1,
        /// The visibility of a symbol: nobody sees it outside of its component.
        STV_HIDDEN = 2,
        /// The visibility of a symbol: others see it, and none takes its place.
        STV_PROTECTED = 3,
    }
    i64 {
        /// `d_tag`: the end of the dynamic section.
        DT_NULL = 0,
        /// `d_tag`: the name of a library that is needed.
        DT_NEEDED = 1,
        /// `d_tag`: the address of the hash table.
        DT_HASH = 4,
        /// `d_tag`: the address of the strings.
        DT_STRTAB = 5,
        /// `d_tag`: the address of the symbols.
        DT_SYMTAB = 6,
        /// `d_tag`: the size of the strings.
        DT_STRSZ = 10,
        /// `d_tag`: the name of this shared object.
        DT_SONAME = 14,
        /// `d_tag`: where libraries are looked for.
        DT_RPATH = 15,
        /// `d_tag`: where libraries are looked for, behind the environment's places.
        DT_RUNPATH = 29,
        /// `d_tag`: the address of GNU's hash table.
        DT_GNU_HASH = 0x6fff_fef5,
    }
}
