/* compressing.c: the data of a section is compressed and taken out again, in both classes and both
   orders, in memory and in a file. */
#define _GNU_SOURCE
#include "check.h"
#include "file.h"
#include "image.h"

enum { LONG = 4000 };

static char text[LONG];

/* An image in a file, with a long text behind the strings. */
static Elf *
open_image (const struct image *m, int *fd)
{
  *fd = file_of (m->bytes, m->size);
  Elf *elf = elf_begin (*fd, ELF_C_RDWR, NULL);
  Elf_Data *data = elf_newdata (elf_getscn (elf, STRINGS));
  for (int i = 0; i < LONG; i++)
    text[i] = "once more "[i % 10];
  data->d_buf = text;
  data->d_size = LONG;
  data->d_align = 1;
  return elf;
}

/* The strings are as they were. */
static void
is_whole (Elf_Scn *scn, size_t size)
{
  GElf_Shdr shdr;
  Elf_Data *data = elf_getdata (scn, NULL);
  CHECK (gelf_getshdr (scn, &shdr) == &shdr && shdr.sh_size == size);
  CHECK ((shdr.sh_flags & SHF_COMPRESSED) == 0 && shdr.sh_type == SHT_STRTAB);
  CHECK (data->d_size == size && data->d_type == ELF_T_BYTE && elf_getdata (scn, data) == NULL);
  CHECK (memcmp (data->d_buf, "\0first\0second", 14) == 0);
  CHECK (memcmp ((char *) data->d_buf + size - LONG, text, LONG) == 0);
}

/* The strings of a compressed section are those that it holds, and the section stays compressed. */
static void
find_strings (Elf *elf, size_t size)
{
  GElf_Shdr shdr;
  CHECK (strcmp (elf_strptr (elf, STRINGS, 1), "first") == 0);
  CHECK (strcmp (elf_strptr (elf, STRINGS, 7), "second") == 0);
  CHECK (elf_strptr (elf, STRINGS, size - 1) == NULL && elf_errno () != 0);
  CHECK (elf_strptr (elf, STRINGS, size) == NULL && elf_errno () != 0);
  CHECK (gelf_getshdr (elf_getscn (elf, STRINGS), &shdr) == &shdr);
  CHECK ((shdr.sh_flags & SHF_COMPRESSED) && shdr.sh_size < size);
}

static void
compress_section (const struct image *m)
{
  int fd;
  GElf_Shdr shdr;
  GElf_Chdr chdr;
  Elf *elf = open_image (m, &fd);
  Elf_Scn *scn = elf_getscn (elf, STRINGS);
  size_t size = elf_getdata (scn, NULL)->d_size + LONG;
  CHECK (elf_compress (scn, 0, 0) == -1 && elf_errno () != 0);
  CHECK (elf_compress (scn, 77, 0) == -1 && elf_errno () != 0);
  CHECK (elf_compress (scn, ELFCOMPRESS_ZLIB, 2) == -1 && elf_errno () != 0);
  CHECK (elf_compress (scn, ELFCOMPRESS_ZLIB, 0) == 1);
  CHECK (elf_compress (scn, ELFCOMPRESS_ZLIB, 0) == -1 && elf_errno () != 0);
  CHECK (gelf_getshdr (scn, &shdr) == &shdr && (shdr.sh_flags & SHF_COMPRESSED));
  CHECK (shdr.sh_size < size && elf_getdata (scn, NULL)->d_type == ELF_T_CHDR);
  CHECK (gelf_getchdr (scn, &chdr) == &chdr && chdr.ch_type == ELFCOMPRESS_ZLIB);
  CHECK (chdr.ch_size == size && chdr.ch_addralign == 1);
  find_strings (elf, size);
  CHECK (elf_update (elf, ELF_C_WRITE) > 0);
  CHECK (elf_end (elf) == 0);
  elf = elf_begin (fd, ELF_C_READ, NULL);
  scn = elf_getscn (elf, STRINGS);
  CHECK (gelf_getchdr (scn, &chdr) == &chdr && chdr.ch_size == size);
  find_strings (elf, size);
  CHECK (elf_compress (scn, 0, 0) == 1);
  is_whole (scn, size);
  CHECK (strcmp (elf_strptr (elf, STRINGS, 7), "second") == 0);
  CHECK (elf_end (elf) == 0);
  close (fd);
}

static void
compress_gnu (const struct image *m)
{
  int fd;
  GElf_Shdr shdr;
  Elf *elf = open_image (m, &fd);
  Elf_Scn *scn = elf_getscn (elf, STRINGS);
  size_t size = elf_getdata (scn, NULL)->d_size + LONG;
  CHECK (elf_compress_gnu (scn, 0, 0) == -1 && elf_errno () != 0);
  CHECK (elf_compress_gnu (scn, 1, 0) == 1);
  CHECK (gelf_getshdr (scn, &shdr) == &shdr && (shdr.sh_flags & SHF_COMPRESSED) == 0);
  CHECK (shdr.sh_size < size && memcmp (elf_getdata (scn, NULL)->d_buf, "ZLIB", 4) == 0);
  CHECK (elf_update (elf, ELF_C_WRITE) > 0);
  CHECK (elf_compress_gnu (scn, 0, 0) == 1);
  is_whole (scn, size);
  CHECK (elf_end (elf) == 0);
  elf = elf_begin (fd, ELF_C_READ_MMAP, NULL);
  scn = elf_getscn (elf, STRINGS);
  CHECK (elf_compress_gnu (scn, 0, 0) == 1);
  is_whole (scn, size);
  CHECK (elf_end (elf) == 0);
  close (fd);
}

/* Strings that were looked up where they stand are looked up in what takes their place. */
static void
compress_known (const struct image *m)
{
  int fd;
  Elf *elf = open_image (m, &fd);
  CHECK (elf_end (elf) == 0);
  elf = elf_begin (fd, ELF_C_RDWR, NULL);
  Elf_Scn *scn = elf_getscn (elf, STRINGS);
  CHECK (strcmp (elf_strptr (elf, STRINGS, 1), "first") == 0);
  CHECK (elf_compress (scn, ELFCOMPRESS_ZLIB, ELF_CHF_FORCE) == 1);
  ((char *) elf_getdata (scn, NULL)->d_buf)[0] ^= 0x55;
  CHECK (elf_strptr (elf, STRINGS, 1) == NULL && elf_errno () != 0);
  ((char *) elf_getdata (scn, NULL)->d_buf)[0] ^= 0x55;
  char *string = elf_strptr (elf, STRINGS, 1);
  CHECK (string != NULL && strcmp (string, "first") == 0);
  CHECK (elf_end (elf) == 0);
  close (fd);
}

/* What is short stays as it is, unless it is forced; symbols are compressed in the form of the
   file. */
static void
compress_short (const struct image *m)
{
  int fd;
  GElf_Sym sym;
  Elf *elf = open_image (m, &fd);
  Elf_Scn *scn = elf_getscn (elf, SYMBOLS);
  CHECK (elf_compress (elf_getscn (elf, NAMES), ELFCOMPRESS_ZLIB, 0) == 0);
  CHECK (elf_compress (scn, ELFCOMPRESS_ZLIB, ELF_CHF_FORCE) == 1);
  CHECK (elf_compress (scn, 0, 0) == 1);
  Elf_Data *data = elf_getdata (scn, NULL);
  CHECK (gelf_getsym (data, 1, &sym) == &sym && sym.st_value == 0x1234 && sym.st_size == 8);
  CHECK (elf_end (elf) == 0);
  close (fd);
}

int
main (void)
{
  elf_version (EV_CURRENT);
  for (int kind = 0; kind < 4; kind++)
    {
      struct image m;
      make_image (&m, kind & 1, kind >> 1);
      compress_section (&m);
      compress_gnu (&m);
      compress_known (&m);
      compress_short (&m);
    }
  return ended ("compressing");
}
