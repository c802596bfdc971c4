/* unmapped.c: a file that the system cannot map is read into memory, and can be changed all the
   same: in place and laid out anew, several times over one descriptor. */
#define _GNU_SOURCE
#include <errno.h>
#include <sys/syscall.h>

#include "check.h"
#include "file.h"
#include "image.h"

static int is_refused;

/* The system's, but for a mapping of a file while that is refused. */
void *
mmap (void *at, size_t size, int access, int flags, int fd, off_t place)
{
  if (is_refused && fd >= 0)
    {
      errno = ENODEV;
      return MAP_FAILED;
    }
  return (void *) syscall (SYS_mmap, at, size, access, flags, fd, place);
}

/* The size of a symbol of the image as it is open, or as a file has it. */
static uint64_t
size_in (Elf *elf)
{
  GElf_Sym sym;
  Elf_Data *data = elf_getdata (elf_getscn (elf, SYMBOLS), NULL);
  return gelf_getsym (data, 1, &sym) == NULL ? 0 : sym.st_size;
}

static uint64_t
size_in_file (int fd)
{
  lseek (fd, 0, SEEK_SET);
  Elf *elf = elf_begin (fd, ELF_C_READ, NULL);
  uint64_t size = size_in (elf);
  elf_end (elf);
  return size;
}

/* Gives the symbol a size, and updates the file. */
static void
change (Elf *elf, uint64_t size)
{
  GElf_Sym sym;
  Elf_Data *data = elf_getdata (elf_getscn (elf, SYMBOLS), NULL);
  CHECK (gelf_getsym (data, 1, &sym) != NULL);
  sym.st_size = size;
  CHECK (gelf_update_sym (data, 1, &sym));
  CHECK (elf_update (elf, ELF_C_WRITE) > 0);
  CHECK (size_in (elf) == size);
}

static void
try_update (int is64, int msb, unsigned int layout)
{
  struct image m;
  make_image (&m, is64, msb);
  int fd = file_of (m.bytes, m.size);
  lseek (fd, 0, SEEK_SET);
  Elf *elf = elf_begin (fd, ELF_C_RDWR, NULL);
  CHECK (elf_flagelf (elf, ELF_C_SET, layout) == layout);
  for (uint64_t size = 1; size < 4; size++)
    {
      change (elf, size);
      CHECK (size_in_file (fd) == size);
    }
  CHECK (elf_end (elf) == 0);
  close (fd);
}

int
main (void)
{
  CHECK (elf_version (EV_CURRENT) != EV_NONE);
  is_refused = 1;
  for (int kind = 0; kind < 8; kind++)
    try_update (kind & 1, kind >> 1 & 1, kind >> 2 & 1 ? ELF_F_LAYOUT : 0);
  return ended ("unmapped");
}
