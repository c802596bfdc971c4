/* core.h: the proved core's calls and records, as C sees them. Each declaration stands for the
   function of the same name in crates/elfkit_c/src, and each struct for the one of
   crates/c_handles, crates/c_records or crates/c_calls that its comment names; capi/check-core
   compares them. A parameter of the allocator's type has no bytes, and so none here. */
#ifndef ELFKIT_CORE_H
#define ELFKIT_CORE_H 1

#include <stdbool.h>
#include <stddef.h>
#include <stdint.h>

/* Lent: bytes that are lent; all zeros where none are. */
struct elfkit_lent
{
  const uint8_t *at;
  size_t len;
};

/* Handle: an object; a null pointer where there is none. */
struct elfkit_handle
{
  void *ptr;
};

/* ArchiveHandle: an archive; a null pointer where there is none. */
struct elfkit_ar_handle
{
  void *ptr;
};

/* MemberRecord: the header of a member of an archive, or that there is none. */
struct elfkit_ar_member
{
  uint32_t found, mode, uid, gid;
  uint64_t at, body, size, date, namesz;
};

/* ArSymRecord: a symbol of an archive's table. */
struct elfkit_ar_symbol
{
  uint64_t at, namesz;
};

/* WritesHandle: the writes of an update; a null pointer where there are none. */
struct elfkit_writes
{
  void *ptr;
};

/* WriteRecord: a write: the length of the file from then on, and where bytes are put. */
struct elfkit_write
{
  uint64_t size, at, len;
};

/* LayoutHandle: the layout of an image; a null pointer where there is none. */
struct elfkit_layout
{
  void *ptr;
};

/* PartRecord: a part of an image that is not empty, and the number of the section whose bytes it
   is: 0 for the ELF header and the two tables. */
struct elfkit_part
{
  uint64_t at, len;
  uint32_t section;
};

/* EhdrRecord: an ELF header with its true counts. */
struct elfkit_ehdr
{
  uint8_t class, order, osabi, abiversion;
  uint16_t etype, machine;
  uint32_t version;
  uint64_t entry, phoff, shoff;
  uint32_t flags;
  uint16_t ehsize, phentsize;
  uint32_t phnum;
  uint16_t shentsize;
  uint32_t shnum, shstrndx;
};

/* ExtentRecord: a range of bytes. */
struct elfkit_extent
{
  uint64_t at, len;
};

/* NoteRecord: a note by its places, or that there is none. */
struct elfkit_note
{
  uint32_t found, ntype;
  uint64_t name_at, namesz, desc_at, descsz, next;
};

/* PhdrRecord, ShdrRecord, SymRecord, RelRecord, RelaRecord, DynRecord, VerdefRecord,
   VerdauxRecord, VerneedRecord and VernauxRecord have the layout of Elf64_Phdr and its like. */
#include <elf.h>

/* The numbers that calls answer: 0 for a value, and refusals that the layer looks at
   (crates/c_records, Codes.antt). */
enum
{
  REFUSED_NOT = 0,
  REFUSED_MEMORY = 1,
  REFUSED_VERSION = 8,
  REFUSED_PH_TABLE = 9,
  REFUSED_SH_TABLE = 10,
  REFUSED_NO_DATA = 12,
  REFUSED_NO_STRING = 23,
  REFUSED_UNENDED = 24
};

/* The kinds of items (crates/c_records, Forms.antt, kind_number). */
enum { BYTES = 1, HALVES, WORDS, ADDRESSES, SYMBOLS, RELS, RELAS, DYNS };

/* Opening and closing. */
uint32_t elfkit_begin (struct elfkit_lent image, struct elfkit_handle *h,
                       struct elfkit_lent *back);
void elfkit_end (struct elfkit_handle *h, struct elfkit_lent *back);

/* Headers. */
void elfkit_ehdr (struct elfkit_handle *h, struct elfkit_ehdr *out);
uint32_t elfkit_phnum (struct elfkit_handle *h);
uint32_t elfkit_shnum (struct elfkit_handle *h);
uint32_t elfkit_shstrndx (struct elfkit_handle *h);
uint32_t elfkit_phdr (struct elfkit_handle *h, uint32_t i, Elf64_Phdr *out);
uint32_t elfkit_shdr (struct elfkit_handle *h, uint32_t section, Elf64_Shdr *out);
uint32_t elfkit_home (struct elfkit_handle *h, uint32_t section, struct elfkit_extent *out);
uint32_t elfkit_kind (struct elfkit_handle *h, uint32_t section, uint32_t piece, uint32_t *out);

/* Items. */
uint32_t elfkit_sym (struct elfkit_handle *h, uint32_t section, uint32_t piece, uint64_t i,
                     Elf64_Sym *out);
uint32_t elfkit_rel (struct elfkit_handle *h, uint32_t section, uint32_t piece, uint64_t i,
                     Elf64_Rel *out);
uint32_t elfkit_rela (struct elfkit_handle *h, uint32_t section, uint32_t piece, uint64_t i,
                      Elf64_Rela *out);
uint32_t elfkit_dyn (struct elfkit_handle *h, uint32_t section, uint32_t piece, uint64_t i,
                     Elf64_Dyn *out);
uint32_t elfkit_half (struct elfkit_handle *h, uint32_t section, uint32_t piece, uint64_t i,
                      uint16_t *out);
uint32_t elfkit_word (struct elfkit_handle *h, uint32_t section, uint32_t piece, uint64_t i,
                      uint32_t *out);
uint32_t elfkit_addr (struct elfkit_handle *h, uint32_t section, uint32_t piece, uint64_t i,
                      uint64_t *out);

/* Strings, version records, notes. */
uint32_t elfkit_string (struct elfkit_handle *h, uint32_t section, uint64_t offset,
                        uint64_t *out);
uint32_t elfkit_verdef (struct elfkit_handle *h, uint32_t section, uint32_t piece, uint64_t at,
                        Elf64_Verdef *out);
uint32_t elfkit_verdaux (struct elfkit_handle *h, uint32_t section, uint32_t piece, uint64_t at,
                         Elf64_Verdaux *out);
uint32_t elfkit_verneed (struct elfkit_handle *h, uint32_t section, uint32_t piece, uint64_t at,
                         Elf64_Verneed *out);
uint32_t elfkit_vernaux (struct elfkit_handle *h, uint32_t section, uint32_t piece, uint64_t at,
                         Elf64_Vernaux *out);
uint32_t elfkit_note (struct elfkit_handle *h, uint32_t section, uint32_t piece, uint64_t at,
                      struct elfkit_note *out);

/* Editing. */
uint32_t elfkit_update_ehdr (struct elfkit_handle *h, const struct elfkit_ehdr *x);
uint32_t elfkit_newphdr (struct elfkit_handle *h, uint32_t count);
uint32_t elfkit_update_phdr (struct elfkit_handle *h, uint32_t i, const Elf64_Phdr *x);
uint32_t elfkit_newscn (struct elfkit_handle *h, uint32_t *out);
uint32_t elfkit_update_shdr (struct elfkit_handle *h, uint32_t section, const Elf64_Shdr *x);
uint32_t elfkit_replace (struct elfkit_handle *h, uint32_t section, uint32_t piece,
                         const uint8_t *bytes, size_t length);
uint32_t elfkit_newdata (struct elfkit_handle *h, uint32_t section, const uint8_t *bytes,
                         size_t length, uint64_t align, uint32_t *out);
uint32_t elfkit_flag (struct elfkit_handle *h, bool set, uint32_t bits, uint32_t *out);
void elfkit_fill (struct elfkit_handle *h, uint8_t byte);

/* Updating. */
uint32_t elfkit_size (struct elfkit_handle *h, uint64_t *out);
uint32_t elfkit_update (struct elfkit_handle *h, uint8_t *out, size_t length);
uint32_t elfkit_plan (struct elfkit_handle *h, struct elfkit_writes *w, struct elfkit_lent *back);
uint32_t elfkit_write (struct elfkit_writes *w, uint64_t i, struct elfkit_write *out);
void elfkit_write_bytes (struct elfkit_writes *w, uint64_t i, uint8_t *out, size_t length);
void elfkit_writes_end (struct elfkit_writes *w);

/* The layout of an image by its headers, whose sections' bytes the caller writes itself: the parts
   by their places, and the bytes of those with section 0. */
uint32_t elfkit_lay_out (const struct elfkit_ehdr *ehdr, const uint8_t *pad, size_t pad_length,
                         const Elf64_Phdr *phdrs, size_t phnum, const Elf64_Shdr *shdrs,
                         size_t shnum, uint64_t base, struct elfkit_layout *out);
uint64_t elfkit_layout_length (struct elfkit_layout *l);
uint32_t elfkit_layout_part (struct elfkit_layout *l, uint64_t i, struct elfkit_part *out);
void elfkit_layout_bytes (struct elfkit_layout *l, uint64_t i, uint8_t *out, size_t length);
void elfkit_layout_end (struct elfkit_layout *l);

/* Archives. */
uint32_t elfkit_ar_begin (struct elfkit_lent image, struct elfkit_ar_handle *h,
                          struct elfkit_lent *back);
void elfkit_ar_end (struct elfkit_ar_handle *h, struct elfkit_lent *back);
uint32_t elfkit_ar_next (struct elfkit_ar_handle *h, struct elfkit_ar_member *out);
void elfkit_ar_name (struct elfkit_ar_handle *h, uint8_t *out, size_t length);
uint32_t elfkit_ar_symbols (struct elfkit_ar_handle *h, uint64_t *count);
uint32_t elfkit_ar_symbol (struct elfkit_ar_handle *h, uint64_t i, struct elfkit_ar_symbol *out);
void elfkit_ar_symbol_name (struct elfkit_ar_handle *h, uint64_t i, uint8_t *out, size_t length);

/* Translation. */
uint32_t elfkit_translate (uint32_t kind, uint32_t class, uint32_t from, uint32_t to,
                           uint8_t *bytes, size_t length);

/* Hashes. */
uint32_t elfkit_hash (const uint8_t *name, size_t length);
uint32_t elfkit_gnu_hash (const uint8_t *name, size_t length);

#endif /* core.h */
