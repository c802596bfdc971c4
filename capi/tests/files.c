/* files.c: images in files and from a pipe are read as those in memory, references are counted,
   and no file is written, whatever is stored in memory. */
#define _GNU_SOURCE
#include <fcntl.h>

#include "check.h"
#include "file.h"
#include "image.h"

/* Whether the file holds these bytes still. */
static int
holds (int fd, const struct image *m, size_t size)
{
  struct image found;
  return pread (fd, found.bytes, sizeof found.bytes, 0) == (ssize_t) size
         && memcmp (found.bytes, m->bytes, size) == 0;
}

static void
read_symbol (Elf *elf)
{
  GElf_Sym sym;
  Elf_Data *data = elf_getdata (elf_getscn (elf, SYMBOLS), NULL);
  CHECK (gelf_getsym (data, 1, &sym) == &sym && sym.st_value == 0x1234);
  CHECK (strcmp (elf_strptr (elf, STRINGS, sym.st_name), "first") == 0);
}

static void
read_file (const struct image *m, Elf_Cmd cmd)
{
  int fd = file_of (m->bytes, m->size);
  Elf *elf = elf_begin (fd, cmd, NULL);
  size_t size;
  CHECK (elf != NULL && elf_kind (elf) == ELF_K_ELF && elf_getbase (elf) == 0);
  CHECK (memcmp (elf_rawfile (elf, &size), m->bytes, m->size) == 0 && size == m->size);
  read_symbol (elf);

  CHECK (elf_begin (fd + 1, ELF_C_READ, elf) == NULL && elf_errno () != 0);
  CHECK ((elf_begin (fd, ELF_C_RDWR, elf) == elf) == (cmd == ELF_C_RDWR));
  CHECK (elf_begin (fd, ELF_C_READ, elf) == elf && elf_begin (-1, ELF_C_NULL, elf) == NULL);
  while (elf_end (elf) > 1)
    continue;
  elf_errno ();

  Elf_Data *data = elf_getdata (elf_getscn (elf, SYMBOLS), NULL);
  GElf_Sym sym = { .st_value = 5 };
  CHECK (gelf_update_sym (data, 1, &sym) == 1 && gelf_getsym (data, 1, &sym) == &sym);
  CHECK (sym.st_value == 5 && holds (fd, m, m->size));
  CHECK (elf_cntl (elf, ELF_C_FDDONE) == 0 && elf_cntl (elf, ELF_C_SET) == -1);
  CHECK (elf_errno () != 0 && close (fd) == 0);
  CHECK (elf_strptr (elf, STRINGS, 7) != NULL && elf_end (elf) == 0);
}

/* What a program writes where it sees the image is not what is read of headers, also when it wrote
   before anything but the ELF header was asked for. */
static void
write_seen_bytes (const struct image *m, Elf_Cmd cmd)
{
  int fd = file_of (m->bytes, m->size);
  Elf *elf = elf_begin (fd, cmd, NULL);
  size_t size, count;
  GElf_Shdr shdr;
  memset (elf_rawfile (elf, &size), 0, m->size);
  CHECK (elf_getshdrnum (elf, &count) == 0 && count == IMAGE_SECTIONS);
  CHECK (gelf_getshdr (elf_getscn (elf, SYMBOLS), &shdr) == &shdr && shdr.sh_type == SHT_SYMTAB);
  Elf_Data *data = elf_getdata (elf_getscn (elf, STRINGS), NULL);
  CHECK (data != NULL && data->d_size == sizeof "\0first\0second");
  CHECK (elf_end (elf) == 0 && holds (fd, m, m->size) && close (fd) == 0);
}

static void
read_cut_file (const struct image *m)
{
  int fd = file_of (m->bytes, m->size - 1);
  Elf *elf = elf_begin (fd, ELF_C_READ, NULL);
  size_t count;
  GElf_Ehdr ehdr;
  CHECK (elf != NULL && elf_getshdrnum (elf, &count) == 0 && count == 0);
  CHECK (gelf_getehdr (elf, &ehdr) == &ehdr && ehdr.e_shnum == IMAGE_SECTIONS);
  CHECK (memcmp (elf_rawfile (elf, &count), m->bytes, m->size - 1) == 0);
  CHECK (elf_end (elf) == 0 && holds (fd, m, m->size - 1) && close (fd) == 0);
}

static void
read_pipe (const struct image *m)
{
  int ends[2];
  if (pipe (ends) != 0 || write (ends[1], m->bytes, m->size) != (ssize_t) m->size)
    exit (2);
  close (ends[1]);
  Elf *elf = elf_begin (ends[0], ELF_C_READ, NULL);
  CHECK (elf != NULL && elf_kind (elf) == ELF_K_ELF);
  read_symbol (elf);
  CHECK (elf_end (elf) == 0 && close (ends[0]) == 0);
}

/* An image with many bytes behind it comes from a pipe whole. */
static void
read_long_pipe (const struct image *m)
{
  enum { SIZE = 20000 };
  static uint8_t bytes[SIZE];
  size_t size;
  int ends[2];
  memset (bytes, 0x5a, sizeof bytes);
  memcpy (bytes, m->bytes, m->size);
  if (pipe (ends) != 0 || write (ends[1], bytes, SIZE) != SIZE)
    exit (2);
  close (ends[1]);
  Elf *elf = elf_begin (ends[0], ELF_C_READ, NULL);
  CHECK (elf_kind (elf) == ELF_K_ELF);
  const char *raw = elf_rawfile (elf, &size);
  CHECK (size == SIZE && memcmp (raw, bytes, SIZE) == 0);
  read_symbol (elf);
  CHECK (elf_end (elf) == 0 && close (ends[0]) == 0);
}

int
main (void)
{
  static const Elf_Cmd cmds[]
      = { ELF_C_READ, ELF_C_READ_MMAP, ELF_C_READ_MMAP_PRIVATE, ELF_C_RDWR };
  elf_version (EV_CURRENT);
  for (int kind = 0; kind < 4; kind++)
    {
      struct image m;
      make_image (&m, kind & 1, kind >> 1);
      for (int i = 0; i < 4; i++)
        {
          read_file (&m, cmds[i]);
          if (cmds[i] != ELF_C_READ_MMAP)
            write_seen_bytes (&m, cmds[i]);
        }
      read_cut_file (&m);
      read_pipe (&m);
      read_long_pipe (&m);
    }
  int fd = open ("/", 0);
  CHECK (elf_begin (fd, ELF_C_READ, NULL) == NULL && elf_errno () != 0);
  CHECK (elf_begin (-1, ELF_C_WRITE, NULL) == NULL && elf_errno () != 0);
  return ended ("files");
}
