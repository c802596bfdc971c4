/* refusals.c: what is not there, of another kind or not to be had is refused by each call, with the
   error that elfutils' library has for it; and the calls that ask for little else. */
#define _GNU_SOURCE
#include "check.h"
#include "file.h"
#include "image.h"

/* elf_getshnum and elf_getshstrndx are called too. */
#pragma GCC diagnostic ignored "-Wdeprecated-declarations"

/* The numbers of some errors, which libelf.h does not name. */
enum
{
  UNKNOWN_VERSION = 2, UNKNOWN_TYPE = 3, INVALID_HANDLE = 4, INVALID_FILE = 9, INVALID_OP = 11,
  INVALID_CMD = 13, INVALID_CLASS = 21, INVALID_INDEX = 22, INVALID_OPERAND = 23,
  INVALID_SECTION = 24, INVALID_COMMAND = 25, FD_DISABLED = 27, NUL_SECTION = 30,
  DATA_MISMATCH = 31, INVALID_DATA = 33, UPDATE_RO = 38, NO_PHDR = 42, INVALID_OFFSET = 43,
  SECTION_TYPE = 44, SECTION_FLAGS = 45, NOT_COMPRESSED = 46, UNKNOWN_COMPRESSION = 48
};

/* Whether the last error is this one. */
static int
is_error (int error)
{
  return elf_errno () == error;
}

/* Calls with nothing to ask. */
static void
ask_nothing (void)
{
  size_t size = 77;
  GElf_Shdr shdr;
  GElf_Chdr chdr;
  GElf_Ehdr ehdr;
  CHECK (elf_getident (NULL, &size) == NULL && size == 0 && elf_getbase (NULL) == -1);
  CHECK (elf_rawfile (NULL, &size) == NULL && size == 0 && is_error (INVALID_HANDLE));
  CHECK (elf_rawfile (NULL, NULL) == NULL && is_error (INVALID_HANDLE));
  CHECK (elf_cntl (NULL, ELF_C_FDDONE) == -1 && elf_clone (NULL, ELF_C_EMPTY) == NULL);
  CHECK (elf_getshdrnum (NULL, &size) == -1 && elf_getphdrnum (NULL, &size) == -1);
  CHECK (elf_getshdrstrndx (NULL, &size) == -1 && gelf_getclass (NULL) == ELFCLASSNONE);
  CHECK (gelf_getehdr (NULL, &ehdr) == NULL && gelf_update_ehdr (NULL, &ehdr) == 0);
  CHECK (elf32_getehdr (NULL) == NULL && elf64_getphdr (NULL) == NULL);
  CHECK (gelf_getshdr (NULL, &shdr) == NULL && elf32_getshdr (NULL) == NULL);
  CHECK (gelf_update_shdr (NULL, &shdr) == 0 && gelf_getchdr (NULL, &chdr) == NULL);
  CHECK (elf32_getchdr (NULL) == NULL && elf64_getchdr (NULL) == NULL);
  CHECK (elf_nextscn (NULL, NULL) == NULL && elf_ndxscn (NULL) == SHN_UNDEF);
  CHECK (gelf_offscn (NULL, 0) == NULL && elf_newscn (NULL) == NULL);
  CHECK (elf_newdata (NULL) == NULL && elf_strptr (NULL, 1, 1) == NULL);
  CHECK (elf_getdata_rawchunk (NULL, 0, 1, ELF_T_BYTE) == NULL);
  CHECK (elf_rawdata (NULL, NULL) == NULL && is_error (INVALID_HANDLE));
  CHECK (gelf_newehdr (NULL, ELFCLASS64) == NULL && gelf_newphdr (NULL, 1) == NULL);
  CHECK (elf32_newehdr (NULL) == NULL && elf64_newphdr (NULL, 1) == NULL);
  CHECK (gelf_fsize (NULL, ELF_T_SYM, 1, EV_CURRENT) == 0);
  CHECK (elf_compress (NULL, 0, 0) == -1 && elf_compress_gnu (NULL, 0, 0) == -1);
  CHECK (gelf_getnote (NULL, 0, NULL, NULL, NULL) == 0 && elf_update (NULL, ELF_C_NULL) == -1);
  CHECK (elf_flagelf (NULL, ELF_C_SET, ELF_F_DIRTY) == 0);
  CHECK (elf_flagehdr (NULL, ELF_C_SET, ELF_F_DIRTY) == 0);
  CHECK (elf_flagphdr (NULL, ELF_C_SET, ELF_F_DIRTY) == 0);
  CHECK (elf_flagscn (NULL, ELF_C_SET, ELF_F_DIRTY) == 0);
  CHECK (elf_flagshdr (NULL, ELF_C_SET, ELF_F_DIRTY) == 0);
  CHECK (elf_flagdata (NULL, ELF_C_SET, ELF_F_DIRTY) == 0);
  elf_errno ();
}

/* What is no image has neither headers nor sections. */
static void
ask_no_image (void)
{
  char bytes[] = "no image";
  size_t size;
  GElf_Ehdr ehdr;
  Elf *elf = elf_memory (bytes, sizeof bytes);
  CHECK (elf_kind (elf) == ELF_K_NONE && elf_getident (elf, &size) == NULL && size == 0);
  CHECK (elf_getident (elf, NULL) == NULL && gelf_getclass (elf) == ELFCLASSNONE);
  CHECK (gelf_getehdr (elf, &ehdr) == NULL && is_error (INVALID_HANDLE));
  CHECK (elf_getscn (elf, 0) == NULL && is_error (INVALID_HANDLE));
  CHECK (elf_getdata_rawchunk (elf, 0, 1, ELF_T_BYTE) == NULL && is_error (INVALID_HANDLE));
  CHECK (gelf_fsize (elf, ELF_T_SYM, 1, EV_CURRENT) == 0 && is_error (INVALID_HANDLE));
  CHECK (gelf_newehdr (elf, ELFCLASS64) == NULL && is_error (INVALID_HANDLE));
  CHECK (elf_strptr (elf, 1, 1) == NULL && is_error (INVALID_HANDLE));
  CHECK (elf_cntl (elf, ELF_C_FDDONE) == -1 && is_error (INVALID_HANDLE));
  CHECK (elf_end (elf) == 0);
}

/* Commands, and what a descriptor is opened by. */
static void
ask_commands (const struct image *m)
{
  int fd = file_of (m->bytes, m->size);
  CHECK (elf_begin (fd, ELF_C_NULL, NULL) == NULL && is_error (0));
  CHECK (elf_begin (fd, ELF_C_SET, NULL) == NULL && is_error (INVALID_CMD));
  CHECK (elf_begin (-1, ELF_C_READ, NULL) == NULL && is_error (INVALID_FILE));
  CHECK (elf_begin (-1, ELF_C_WRITE, NULL) == NULL && is_error (INVALID_FILE));
  CHECK (elf_version (9) == EV_NONE && is_error (UNKNOWN_VERSION));
  CHECK (elf_version (EV_NONE) == EV_CURRENT);
  CHECK (elf_errmsg (0) == NULL && strcmp (elf_errmsg (-1), "no error") == 0);
  Elf *elf = elf_begin (fd, ELF_C_READ, NULL);
  CHECK (elf_begin (fd, ELF_C_RDWR, elf) == NULL && is_error (INVALID_CMD));
  CHECK (elf_begin (fd, ELF_C_READ_MMAP_PRIVATE, elf) == NULL && is_error (INVALID_CMD));
  CHECK (elf_update (elf, ELF_C_WRITE) == -1 && is_error (UPDATE_RO));
  CHECK (elf_update (elf, ELF_C_READ) == -1 && is_error (INVALID_CMD));
  CHECK (elf_flagelf (elf, ELF_C_READ, ELF_F_DIRTY) == 0 && is_error (INVALID_COMMAND));
  CHECK (elf_cntl (elf, ELF_C_READ) == -1 && is_error (INVALID_CMD));
  CHECK (elf_cntl (elf, ELF_C_FDREAD) == 0 && elf_end (elf) == 0);
  elf = elf_begin (fd, ELF_C_READ_MMAP_PRIVATE, NULL);
  CHECK (elf_begin (fd, ELF_C_READ_MMAP_PRIVATE, elf) == elf && elf_end (elf) == 1);
  CHECK (elf_end (elf) == 0);
  elf = elf_begin (fd, ELF_C_RDWR_MMAP, NULL);
  CHECK (elf_begin (fd, ELF_C_RDWR, elf) == elf && elf_end (elf) == 1);
  CHECK (elf_cntl (elf, ELF_C_FDDONE) == 0);
  CHECK (elf_update (elf, ELF_C_WRITE) == -1 && is_error (FD_DISABLED));
  CHECK (elf_end (elf) == 0 && close (fd) == 0);
}

/* Flags are set and cleared, each for itself. */
static void
set_flags (Elf *elf)
{
  Elf_Scn *scn = elf_getscn (elf, SYMBOLS);
  CHECK (elf_flagelf (elf, ELF_C_SET, ELF_F_LAYOUT) == ELF_F_LAYOUT);
  CHECK (elf_flagelf (elf, ELF_C_CLR, ELF_F_LAYOUT) == 0);
  CHECK (elf_flagehdr (elf, ELF_C_SET, ELF_F_DIRTY) == ELF_F_DIRTY);
  CHECK (elf_flagphdr (elf, ELF_C_SET, ELF_F_DIRTY) == ELF_F_DIRTY);
  CHECK (elf_flagscn (scn, ELF_C_SET, ELF_F_DIRTY) == ELF_F_DIRTY);
  CHECK (elf_flagshdr (scn, ELF_C_SET, ELF_F_DIRTY) == ELF_F_DIRTY);
  CHECK (elf_flagshdr (scn, ELF_C_CLR, ELF_F_DIRTY) == 0);
}

/* Headers of the other class, and headers with nowhere to go. */
static void
ask_headers (const struct image *m, Elf *elf)
{
  size_t count = 77;
  GElf_Phdr phdr = { .p_type = PT_LOAD };
  GElf_Shdr shdr;
  Elf_Scn *scn = elf_getscn (elf, SYMBOLS);
  CHECK (elf_getident (elf, &count) != NULL && count == EI_NIDENT);
  CHECK ((m->is64 ? (void *) elf32_getehdr (elf) : (void *) elf64_getehdr (elf)) == NULL);
  CHECK (is_error (INVALID_CLASS));
  CHECK ((m->is64 ? (void *) elf32_getshdr (scn) : (void *) elf64_getshdr (scn)) == NULL);
  CHECK (is_error (INVALID_CLASS));
  CHECK ((m->is64 ? (void *) elf32_getphdr (elf) : (void *) elf64_getphdr (elf)) == NULL);
  CHECK (is_error (INVALID_CLASS));
  CHECK ((m->is64 ? (void *) elf64_getphdr (elf) : (void *) elf32_getphdr (elf)) == NULL);
  CHECK (is_error (NO_PHDR) && gelf_update_phdr (elf, 0, &phdr) == 0 && is_error (NO_PHDR));
  CHECK (gelf_newehdr (elf, m->is64 ? ELFCLASS32 : ELFCLASS64) == NULL);
  CHECK (is_error (INVALID_CLASS) && gelf_newphdr (elf, 0) == NULL);
  CHECK (gelf_getshdr (scn, NULL) == NULL && is_error (INVALID_OPERAND));
  CHECK (gelf_getehdr (elf, NULL) == NULL && gelf_getphdr (elf, 0, NULL) == NULL);
  elf_errno ();
  CHECK (gelf_getshdr (scn, &shdr) == &shdr);
  CHECK (elf_getshnum (elf, &count) == 0 && count == IMAGE_SECTIONS);
  CHECK (elf_getshstrndx (elf, &count) == 0 && count == NAMES);
  shdr.sh_addr = (uint64_t) 1 << 32;
  CHECK (gelf_update_shdr (scn, &shdr) == m->is64);
  CHECK (m->is64 || is_error (INVALID_DATA));
}

/* Sections by their places, of one class. */
static void
find_places (const struct image *m, Elf *elf)
{
  GElf_Shdr shdr;
  Elf_Scn *scn = elf_getscn (elf, STRINGS);
  CHECK (gelf_getshdr (scn, &shdr) == &shdr && gelf_offscn (elf, shdr.sh_offset) == scn);
  CHECK (elf32_offscn (elf, shdr.sh_offset) == (m->is64 ? NULL : scn));
  elf_errno ();
  CHECK (elf64_offscn (elf, shdr.sh_offset) == (m->is64 ? scn : NULL));
  elf_errno ();
  CHECK (gelf_offscn (elf, 3) == NULL && is_error (INVALID_OFFSET));
}

/* Data of another section, chunks, and notes. */
static void
ask_data (Elf *elf, size_t size)
{
  GElf_Nhdr nhdr;
  size_t name, desc;
  Elf_Scn *scn = elf_getscn (elf, SYMBOLS), *other = elf_getscn (elf, NOTES);
  Elf_Data *data = elf_getdata (scn, NULL), *raw = elf_rawdata (scn, NULL);
  CHECK (elf_getdata (other, data) == NULL && is_error (DATA_MISMATCH));
  CHECK (elf_rawdata (other, raw) == NULL && is_error (INVALID_OPERAND));
  CHECK (elf_rawdata (scn, raw) == NULL && is_error (0) && elf_rawdata (scn, NULL) == raw);
  CHECK (elf_getdata_rawchunk (elf, 0, 8, ELF_T_NUM) == NULL && is_error (UNKNOWN_TYPE));
  CHECK (elf_getdata_rawchunk (elf, -1, 8, ELF_T_BYTE) == NULL && is_error (INVALID_OP));
  CHECK (elf_getdata_rawchunk (elf, 0, size + 1, ELF_T_BYTE) == NULL && is_error (INVALID_OP));
  Elf_Data *chunk = elf_getdata_rawchunk (elf, 4, 8, ELF_T_BYTE);
  CHECK (chunk != NULL && elf_getdata_rawchunk (elf, 4, 9, ELF_T_BYTE) != chunk);
  CHECK (elf_getdata_rawchunk (elf, 4, 7, ELF_T_BYTE) != chunk);
  CHECK (elf_getdata_rawchunk (elf, 4, 8, ELF_T_WORD) != chunk);
  CHECK (elf_getdata_rawchunk (elf, 4, 8, ELF_T_BYTE) == chunk);
  CHECK (gelf_getnote (data, 0, &nhdr, &name, &desc) == 0 && is_error (INVALID_HANDLE));
  data = elf_getdata (other, NULL);
  CHECK (gelf_getnote (data, data->d_size + 1, &nhdr, &name, &desc) == 0 && elf_errno () != 0);
  CHECK (elf_getscn (elf, IMAGE_SECTIONS) == NULL && is_error (INVALID_INDEX));
  CHECK (elf_strptr (elf, IMAGE_SECTIONS, 0) == NULL && is_error (INVALID_INDEX));
  CHECK (elf_strptr (elf, SYMBOLS, 0) == NULL && is_error (INVALID_SECTION));
  CHECK (elf_newdata (elf_getscn (elf, 0)) == NULL && is_error (NUL_SECTION));
}

/* The sizes of items, and what is no type or version. */
static void
ask_sizes (Elf *elf)
{
  CHECK (elf32_fsize (ELF_T_SYM, 3, EV_CURRENT) == 48 && elf64_fsize (ELF_T_SYM, 3, 1) == 72);
  CHECK (elf32_fsize (ELF_T_SYM, 1, 2) == 0 && is_error (UNKNOWN_VERSION));
  CHECK (elf64_fsize (ELF_T_NUM, 1, EV_CURRENT) == 0 && is_error (UNKNOWN_TYPE));
  CHECK (gelf_fsize (elf, ELF_T_EHDR, 1, EV_CURRENT)
         == (gelf_getclass (elf) == ELFCLASS64 ? sizeof (Elf64_Ehdr) : sizeof (Elf32_Ehdr)));
}

/* What is not compressed, or not to be. */
static void
ask_compressed (Elf *elf)
{
  GElf_Chdr chdr;
  GElf_Shdr shdr;
  Elf_Scn *scn = elf_getscn (elf, STRINGS);
  CHECK (gelf_getchdr (scn, &chdr) == NULL && is_error (NOT_COMPRESSED));
  CHECK (gelf_getchdr (scn, NULL) == NULL && is_error (INVALID_OPERAND));
  CHECK (gelf_getchdr (elf_getscn (elf, 0), &chdr) == NULL && is_error (SECTION_TYPE));
  CHECK (elf_compress_gnu (scn, 2, 0) == -1 && is_error (UNKNOWN_COMPRESSION));
  CHECK (elf_compress_gnu (scn, 0, 2) == -1 && is_error (INVALID_OPERAND));
  CHECK (elf_compress_gnu (elf_getscn (elf, 0), 1, 0) == -1 && is_error (SECTION_TYPE));
  CHECK (gelf_getshdr (scn, &shdr) == &shdr);
  shdr.sh_flags = SHF_ALLOC;
  CHECK (gelf_update_shdr (scn, &shdr) == 1);
  CHECK (gelf_getchdr (scn, &chdr) == NULL && is_error (SECTION_FLAGS));
  CHECK (elf_compress (scn, ELFCOMPRESS_ZLIB, 0) == -1 && is_error (SECTION_FLAGS));
  shdr.sh_flags = SHF_COMPRESSED;
  shdr.sh_size = 3;
  CHECK (gelf_update_shdr (scn, &shdr) == 1);
  CHECK (elf_compress_gnu (scn, 1, 0) == -1 && is_error (SECTION_FLAGS));
}

int
main (void)
{
  elf_version (EV_CURRENT);
  ask_nothing ();
  ask_no_image ();
  for (int kind = 0; kind < 4; kind++)
    {
      struct image m;
      make_image (&m, kind & 1, kind >> 1);
      ask_commands (&m);
      int fd = file_of (m.bytes, m.size);
      Elf *elf = elf_begin (fd, ELF_C_RDWR, NULL);
      set_flags (elf);
      find_places (&m, elf);
      ask_data (elf, m.size);
      ask_headers (&m, elf);
      ask_sizes (elf);
      ask_compressed (elf);
      CHECK (elf_end (elf) == 0 && close (fd) == 0);
    }
  return ended ("refusals");
}
