/* updating.c: what elf_update refuses, each with its error and with the file as it was; and what it
   leaves of a file whose layout is the program's. In both classes and both orders. */
#define _GNU_SOURCE
#include <fcntl.h>
#include <signal.h>
#include <stddef.h>
#include <sys/resource.h>
#include <sys/stat.h>

#include "archive.h"
#include "check.h"
#include "file.h"

/* The numbers of some errors, which libelf.h does not name. */
enum
{
  UNKNOWN_VERSION = 2, UNKNOWN_TYPE = 3, NO_MEMORY = 8, INVALID_ELF = 10, WRITE_ERROR = 20,
  INVALID_INDEX = 22, WRONG_ORDER = 26, INVALID_DATA = 33, DATA_ENCODING = 34, TOO_SMALL = 35,
  INVALID_ALIGN = 36, INVALID_SHENTSIZE = 37, GROUP_NOT_REL = 40, UNSUPPORTED = 51
};

static struct image image;

/* Opens a copy of the image to be changed, with a layout of the program's or a new one. */
static Elf *
open_copy (int *fd, unsigned int flags)
{
  *fd = file_of (image.bytes, image.size);
  Elf *elf = elf_begin (*fd, ELF_C_RDWR, NULL);
  CHECK (elf != NULL && elf_flagelf (elf, ELF_C_SET, flags) == flags);
  return elf;
}

/* The update fails with an error, and the file is as it was. */
static void
fails (Elf *elf, int fd, int error)
{
  uint8_t now[sizeof image.bytes];
  CHECK (elf_update (elf, ELF_C_WRITE) == -1);
  int found = elf_errno ();
  if (found != error)
    fprintf (stderr, "error %d, not %d\n", found, error);
  CHECK (found == error);
  CHECK (elf_end (elf) == 0);
  CHECK (pread (fd, now, sizeof now, 0) == (ssize_t) image.size);
  CHECK (memcmp (now, image.bytes, image.size) == 0);
  close (fd);
}

static void
refuse_ehdr (size_t place, uint8_t value, int error)
{
  int fd;
  GElf_Ehdr ehdr;
  Elf *elf = open_copy (&fd, 0);
  CHECK (gelf_getehdr (elf, &ehdr) == &ehdr);
  ((uint8_t *) &ehdr)[place] = value;
  CHECK (gelf_update_ehdr (elf, &ehdr) == 1);
  fails (elf, fd, error);
}

/* A header of a section is no good. */
static void
refuse_shdr (unsigned int flags, unsigned int section, const GElf_Shdr *other, int error)
{
  int fd;
  GElf_Shdr shdr;
  Elf *elf = open_copy (&fd, flags);
  Elf_Scn *scn = elf_getscn (elf, section);
  CHECK (gelf_getshdr (scn, &shdr) == &shdr);
  shdr.sh_type = other->sh_type != 0 ? other->sh_type : shdr.sh_type;
  shdr.sh_offset = other->sh_offset != 0 ? other->sh_offset : shdr.sh_offset;
  shdr.sh_size = other->sh_size != 0 ? other->sh_size : shdr.sh_size;
  shdr.sh_addralign = other->sh_addralign != 0 ? other->sh_addralign : shdr.sh_addralign;
  shdr.sh_entsize = other->sh_entsize != 0 ? other->sh_entsize : shdr.sh_entsize;
  CHECK (gelf_update_shdr (scn, &shdr) == 1);
  fails (elf, fd, error);
}

/* A piece of data is no good. */
static void
refuse_data (unsigned int flags, const Elf_Data *piece, int error)
{
  int fd;
  Elf *elf = open_copy (&fd, flags);
  Elf_Data *data = elf_newdata (elf_getscn (elf, STRINGS));
  CHECK (data != NULL);
  *data = *piece;
  fails (elf, fd, error);
}

static void
refuse_parts (void)
{
  static char bytes[8];
  const Elf_Data good = { .d_buf = bytes, .d_version = EV_CURRENT, .d_size = 4, .d_align = 1 };
  Elf_Data piece = good;
  refuse_ehdr (EI_DATA, 7, DATA_ENCODING);
  refuse_ehdr (EI_DATA, 3 - image.bytes[EI_DATA], INVALID_DATA);
  refuse_ehdr (offsetof (GElf_Ehdr, e_version), 9, UNKNOWN_VERSION);
  refuse_shdr (0, NOTES, &(GElf_Shdr) { .sh_addralign = 3 }, INVALID_ALIGN);
  refuse_shdr (0, STRINGS, &(GElf_Shdr) { .sh_entsize = 4 }, INVALID_SHENTSIZE);
  refuse_shdr (ELF_F_LAYOUT, NOTES, &(GElf_Shdr) { .sh_offset = 0x7fffff00, .sh_size = 16 },
               NO_MEMORY);
  refuse_shdr (ELF_F_LAYOUT, STRINGS, &(GElf_Shdr) { .sh_offset = 8 }, INVALID_DATA);
  piece.d_version = 9;
  refuse_data (0, &piece, UNKNOWN_VERSION);
  piece = good;
  piece.d_align = 3;
  refuse_data (0, &piece, INVALID_ALIGN);
  piece.d_align = 16;
  piece.d_off = 4;
  refuse_data (ELF_F_LAYOUT, &piece, INVALID_ALIGN);
  piece.d_align = 1;
  refuse_data (ELF_F_LAYOUT, &piece, INVALID_DATA);     /* it lies over the first piece */
  piece.d_off = 13;
  refuse_data (ELF_F_LAYOUT, &piece, TOO_SMALL);
  piece = good;
  piece.d_buf = NULL;
  refuse_data (0, &piece, INVALID_DATA);
  piece = good;
  piece.d_type = ELF_T_NUM;
  if (image.msb)
    refuse_data (0, &piece, UNKNOWN_TYPE);
}

/* Groups are of relocatable images alone. */
static void
refuse_group (void)
{
  GElf_Ehdr ehdr;
  GElf_Shdr shdr;
  int fd;
  Elf *elf = open_copy (&fd, 0);
  CHECK (gelf_getehdr (elf, &ehdr) == &ehdr);
  ehdr.e_type = ET_DYN;
  CHECK (gelf_update_ehdr (elf, &ehdr) == 1);
  Elf_Scn *scn = elf_newscn (elf);
  CHECK (gelf_getshdr (scn, &shdr) == &shdr);
  shdr.sh_type = SHT_GROUP;
  CHECK (gelf_update_shdr (scn, &shdr) == 1);
  fails (elf, fd, GROUP_NOT_REL);
}

/* A file that may not be written; an image whose tables do not lie in it; a member of an
   archive. */
static void
refuse_files (void)
{
  char name[64];
  struct archive a;
  GElf_Ehdr ehdr;
  int file = named_file_of (image.bytes, image.size, name), fd = open (name, O_RDONLY);
  Elf *elf = elf_begin (fd, ELF_C_RDWR, NULL);
  CHECK (gelf_getehdr (elf, &ehdr) == &ehdr);
  ehdr.e_flags = 5;
  CHECK (gelf_update_ehdr (elf, &ehdr) == 1);
  fails (elf, fd, WRITE_ERROR);
  close (file);

  fd = file_of (image.bytes, image.size - 1);
  elf = elf_begin (fd, ELF_C_RDWR, NULL);
  CHECK (elf_update (elf, ELF_C_WRITE) == -1 && elf_errno () == INVALID_ELF);
  CHECK (elf_end (elf) == 0 && close (fd) == 0);

  make_archive (&a);
  fd = file_of (a.bytes, a.size);
  Elf *ar = elf_begin (fd, ELF_C_RDWR, NULL);
  CHECK (elf_rand (ar, a.at[0]) == a.at[0]);
  elf = elf_begin (fd, ELF_C_RDWR, ar);
  CHECK (elf_kind (elf) == ELF_K_ELF && elf_update (elf, ELF_C_WRITE) == -1);
  CHECK (elf_errno () == UNSUPPORTED && elf_end (elf) == 0 && elf_end (ar) == 0);
  close (fd);
}

/* A section gets longer where the program laid it out so, and the mode of the file stays. */
static void
write_longer (void)
{
  int fd;
  uint8_t now[4096];
  struct stat st;
  GElf_Shdr shdr;
  Elf *elf = open_copy (&fd, ELF_F_LAYOUT);
  CHECK (fchmod (fd, 04755) == 0);
  elf_fill (0x5a);
  Elf_Scn *scn = elf_getscn (elf, STRINGS);
  CHECK (gelf_getshdr (scn, &shdr) == &shdr);
  const size_t from = shdr.sh_offset, size = shdr.sh_size;
  shdr.sh_offset = 1600;
  shdr.sh_size += 10;
  CHECK (gelf_update_shdr (scn, &shdr) == 1);
  CHECK (elf_update (elf, ELF_C_WRITE) == (int64_t) (1600 + size + 10));
  CHECK (elf_end (elf) == 0);
  CHECK (pread (fd, now, sizeof now, 0) == (ssize_t) (1600 + size + 10));
  CHECK (memcmp (now + 1600, image.bytes + from, size) == 0);
  CHECK (now[1600 + size] == 0x5a && now[1600 + size + 9] == 0x5a);
  CHECK (fstat (fd, &st) == 0 && (st.st_mode & 07777) == 04755);
  elf_fill (0);
  close (fd);
}

/* Has writes behind a place of a file fail, or none for RLIM_INFINITY. */
static void
limit_files (rlim_t most)
{
  struct rlimit limit;
  CHECK (getrlimit (RLIMIT_FSIZE, &limit) == 0);
  limit.rlim_cur = most < limit.rlim_max ? most : limit.rlim_max;
  CHECK (setrlimit (RLIMIT_FSIZE, &limit) == 0);
}

/* A write that fails in the middle can be done again: the file is then as without a failure.
   Programs see the image as it was until then. */
static void
write_again (unsigned int flags)
{
  static uint8_t files[2][20000];
  int64_t size = 0;
  for (int fails = 0; fails < 2; fails++)
    {
      int fd = file_of (image.bytes, image.size);
      CHECK (ftruncate (fd, sizeof files[0]) == 0);
      Elf *elf = elf_begin (fd, ELF_C_RDWR, NULL);
      CHECK (elf_flagelf (elf, ELF_C_SET, flags) == flags);
      GElf_Ehdr ehdr;
      GElf_Shdr shdr;
      CHECK (gelf_getehdr (elf, &ehdr) == &ehdr);
      ehdr.e_flags = 5;
      CHECK (gelf_update_ehdr (elf, &ehdr) == 1);
      Elf_Scn *scn = elf_getscn (elf, STRINGS);
      CHECK (gelf_getshdr (scn, &shdr) == &shdr);
      shdr.sh_offset = 16000;
      if (flags == 0)
        shdr.sh_addralign = 16384;
      CHECK (gelf_update_shdr (scn, &shdr) == 1);
      limit_files (fails ? 8192 : RLIM_INFINITY);
      int64_t found = elf_update (elf, ELF_C_WRITE);
      limit_files (RLIM_INFINITY);
      if (fails)
        {
          CHECK (found == -1 && elf_errno () == WRITE_ERROR);
          CHECK (strcmp (elf_strptr (elf, STRINGS, 1), "first") == 0);
          found = elf_update (elf, ELF_C_WRITE);
        }
      CHECK (strcmp (elf_strptr (elf, STRINGS, 1), "first") == 0 && elf_end (elf) == 0);
      CHECK (found > 16000 && (!fails || found == size));
      size = found;
      CHECK (pread (fd, files[fails], sizeof files[0], 0) == size);
      close (fd);
    }
  CHECK (memcmp (files[0], files[1], size) == 0);
}

/* Gives a section another place and another size, unless they are 0. */
static void
move (Elf *elf, unsigned int section, GElf_Off place, GElf_Xword size)
{
  GElf_Shdr shdr;
  Elf_Scn *scn = elf_getscn (elf, section);
  CHECK (gelf_getshdr (scn, &shdr) == &shdr);
  shdr.sh_offset = place != 0 ? place : shdr.sh_offset;
  shdr.sh_size = size != 0 ? size : shdr.sh_size;
  CHECK (gelf_update_shdr (scn, &shdr) == 1);
}

/* Sections take the places of others that were not asked for, and what a program saw of the file
   stays. */
static void
write_rotated (void)
{
  int fd;
  size_t size;
  GElf_Shdr names, strings, symbols;
  uint8_t now[4096];
  Elf *elf = open_copy (&fd, ELF_F_LAYOUT);
  gelf_getshdr (elf_getscn (elf, NAMES), &names);
  gelf_getshdr (elf_getscn (elf, STRINGS), &strings);
  gelf_getshdr (elf_getscn (elf, SYMBOLS), &symbols);
  const char *raw = elf_rawfile (elf, &size);
  CHECK (size == image.size);
  for (int round = 0; round < 2; round++)
    {
      move (elf, NAMES, round ? names.sh_offset : symbols.sh_offset, 0);
      move (elf, STRINGS, round ? strings.sh_offset : names.sh_offset, 0);
      move (elf, SYMBOLS, round ? symbols.sh_offset : 1600, 0);
      CHECK (elf_update (elf, ELF_C_WRITE) > 0);
      CHECK (memcmp (raw, image.bytes, image.size) == 0);
      CHECK (strcmp (elf_strptr (elf, STRINGS, 7), "second") == 0);
      CHECK (pread (fd, now, sizeof now, 0) > (ssize_t) image.size - 1);
      CHECK (memcmp (now + (round ? symbols.sh_offset : 1600), image.bytes + symbols.sh_offset,
                     symbols.sh_size) == 0);
      CHECK (memcmp (now + (round ? strings.sh_offset : names.sh_offset),
                     image.bytes + strings.sh_offset, strings.sh_size) == 0);
    }
  CHECK (elf_end (elf) == 0 && close (fd) == 0);
}

/* No fill byte goes over data: where the program headers are behind it, and where a section without
   bytes lies in another one. */
static void
write_beside (void)
{
  int fd;
  GElf_Ehdr ehdr;
  GElf_Shdr names, notes, symbols;
  uint8_t now[4096];
  Elf *elf = open_copy (&fd, ELF_F_LAYOUT);
  CHECK (gelf_newphdr (elf, 1) != NULL && gelf_getehdr (elf, &ehdr) == &ehdr);
  ehdr.e_phoff = 1600;
  CHECK (gelf_update_ehdr (elf, &ehdr) == 1);
  gelf_getshdr (elf_getscn (elf, NAMES), &names);
  gelf_getshdr (elf_getscn (elf, NOTES), &notes);
  gelf_getshdr (elf_getscn (elf, SYMBOLS), &symbols);
  notes.sh_offset = names.sh_offset + 8;
  notes.sh_size = 0;
  CHECK (gelf_update_shdr (elf_getscn (elf, NOTES), &notes) == 1);
  elf_flagdata (elf_getdata (elf_getscn (elf, STRINGS), NULL), ELF_C_SET, ELF_F_DIRTY);
  elf_fill (0x5a);
  CHECK (elf_update (elf, ELF_C_WRITE) > 1600 && elf_end (elf) == 0);
  elf_fill (0);
  CHECK (pread (fd, now, sizeof now, 0) > 1600);
  CHECK (memcmp (now + names.sh_offset, image.bytes + names.sh_offset, names.sh_size) == 0);
  CHECK (memcmp (now + symbols.sh_offset, image.bytes + symbols.sh_offset, symbols.sh_size) == 0);
  CHECK (now[names.sh_offset + names.sh_size] == 0x5a && close (fd) == 0);
}

/* How many bytes this process wrote, where the system counts them; else 0. */
static long long
bytes_written (void)
{
  long long count = 0;
  char line[64];
  FILE *file = fopen ("/proc/self/io", "r");
  while (file != NULL && fgets (line, sizeof line, file) != NULL)
    sscanf (line, "wchar: %lld", &count);
  if (file != NULL)
    fclose (file);
  return count;
}

/* Of a large section one byte is changed: a few pages are written, and in a second update again. */
static void
write_few (void)
{
  int fd;
  const size_t place = 4096, size = 1 << 20;
  static uint8_t now[1 << 20];
  Elf *elf = open_copy (&fd, ELF_F_LAYOUT);
  move (elf, STRINGS, place, size);
  CHECK (elf_update (elf, ELF_C_WRITE) == (int64_t) (place + size) && elf_end (elf) == 0);
  elf = elf_begin (fd, ELF_C_RDWR_MMAP, NULL);
  CHECK (elf_flagelf (elf, ELF_C_SET, ELF_F_LAYOUT) == ELF_F_LAYOUT);
  Elf_Data *data = elf_getdata (elf_getscn (elf, STRINGS), NULL);
  CHECK (data != NULL && data->d_size == size);
  for (size_t at = size / 2; at < size; at += size / 4)
    {
      ((char *) data->d_buf)[at] = 'x';
      elf_flagdata (data, ELF_C_SET, ELF_F_DIRTY);
      const long long before = bytes_written ();
      CHECK (elf_update (elf, ELF_C_WRITE) == (int64_t) (place + size));
      const long long written = bytes_written () - before;
      CHECK (access ("/proc/self/pagemap", R_OK) != 0 || written < (1 << 16));
      CHECK (pread (fd, now, size, place) == (ssize_t) size);
      CHECK (memcmp (now, data->d_buf, size) == 0 && now[at] == 'x');
    }
  CHECK (elf_end (elf) == 0 && close (fd) == 0);
}

/* An image with sections of another size in its header is opened with those that there are, which
   it has when it was changed. */
static void
write_mended (void)
{
  uint8_t now[sizeof image.bytes];
  const size_t place = (image.is64 ? 58 : 46) + (image.msb ? 1 : 0);
  image.bytes[place]++;
  int fd;
  GElf_Sym sym;
  Elf *elf = open_copy (&fd, ELF_F_LAYOUT);
  image.bytes[place]--;
  Elf_Data *data = elf_getdata (elf_getscn (elf, SYMBOLS), NULL);
  CHECK (gelf_getsym (data, 1, &sym) == &sym);
  sym.st_size++;
  CHECK (gelf_update_sym (data, 1, &sym) == 1);
  CHECK (elf_update (elf, ELF_C_WRITE) == (int64_t) image.size && elf_end (elf) == 0);
  CHECK (pread (fd, now, sizeof now, 0) == (ssize_t) image.size);
  size_t differ = 0;
  for (size_t i = 0; i < image.size; i++)
    differ += now[i] != image.bytes[i];
  CHECK (differ == 1 && now[place] == image.bytes[place]);
  close (fd);
}

/* With ELF_F_PERMISSIVE a size may be one of no whole entries. */
static void
write_ragged (void)
{
  int fd;
  GElf_Shdr shdr;
  Elf *elf = open_copy (&fd, ELF_F_PERMISSIVE);
  Elf_Scn *scn = elf_getscn (elf, STRINGS);
  CHECK (gelf_getshdr (scn, &shdr) == &shdr);
  shdr.sh_entsize = 4;
  CHECK (gelf_update_shdr (scn, &shdr) == 1 && elf_update (elf, ELF_C_WRITE) > 0);
  CHECK (elf_end (elf) == 0 && close (fd) == 0);
}

/* Program headers are made, replaced, changed, read natively, and taken away. */
static void
write_segments (void)
{
  int fd;
  size_t count;
  GElf_Phdr phdr = { .p_type = PT_NOTE, .p_offset = 7, .p_align = 4 }, again;
  Elf *elf = open_copy (&fd, 0);
  CHECK (gelf_newphdr (elf, PN_XNUM) == NULL && elf_errno () == INVALID_INDEX);
  void *table = gelf_newphdr (elf, 2);
  CHECK (table != NULL && gelf_newphdr (elf, 2) == table);
  CHECK (gelf_update_phdr (elf, 1, &phdr) == 1);
  CHECK (gelf_update_phdr (elf, 2, &phdr) == 0 && elf_errno () == INVALID_INDEX);
  CHECK (gelf_getphdr (elf, 1, &again) == &again && memcmp (&phdr, &again, sizeof phdr) == 0);
  CHECK (gelf_getphdr (elf, 2, &again) == NULL && elf_errno () == INVALID_INDEX);
  phdr.p_vaddr = (uint64_t) 1 << 32;
  CHECK (gelf_update_phdr (elf, 1, &phdr) == image.is64 && (image.is64 || elf_errno () != 0));
  phdr.p_vaddr = 0x1000;
  CHECK (gelf_update_phdr (elf, 1, &phdr) == 1);
  CHECK (elf_update (elf, ELF_C_WRITE) > 0 && elf_end (elf) == 0);
  elf = elf_begin (fd, ELF_C_RDWR, NULL);
  CHECK (gelf_getphdr (elf, 2, &again) == NULL && elf_errno () == INVALID_INDEX);
  CHECK (gelf_getphdr (elf, 1, &again) == &again && memcmp (&phdr, &again, sizeof phdr) == 0);
  table = image.is64 ? (void *) elf64_getphdr (elf) : (void *) elf32_getphdr (elf);
  CHECK (table != NULL && gelf_getphdr (elf, 1, &again) == &again);
  CHECK (memcmp (&phdr, &again, sizeof phdr) == 0);
  CHECK (gelf_newphdr (elf, 0) == NULL && elf_getphdrnum (elf, &count) == 0 && count == 0);
  CHECK (elf_update (elf, ELF_C_WRITE) > 0 && elf_end (elf) == 0 && close (fd) == 0);
}

/* Before there is an ELF header, there is no other part. */
static void
begin_without_header (void)
{
  int fd = file_of ("", 0);
  Elf *elf = elf_begin (fd, ELF_C_WRITE, NULL);
  CHECK (elf_getdata_rawchunk (elf, 0, 0, ELF_T_BYTE) == NULL && elf_errno () != 0);
  CHECK (gelf_newphdr (elf, 1) == NULL && elf_errno () == WRONG_ORDER);
  CHECK (elf_newdata (elf_newscn (elf)) == NULL && elf_errno () == WRONG_ORDER);
  CHECK (elf_end (elf) == 0 && close (fd) == 0);
}

int
main (void)
{
  elf_version (EV_CURRENT);
  signal (SIGXFSZ, SIG_IGN);
  begin_without_header ();
  for (int kind = 0; kind < 4; kind++)
    {
      make_image (&image, kind & 1, kind >> 1);
      refuse_parts ();
      refuse_group ();
      refuse_files ();
      write_longer ();
      write_again (ELF_F_LAYOUT);
      write_again (0);
      write_rotated ();
      write_beside ();
      write_few ();
      write_mended ();
      write_ragged ();
      write_segments ();
    }
  return ended ("updating");
}
