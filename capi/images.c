/* images.c: where the bytes of an image are. The layer maps the file twice, privately: one mapping
   is lent to the core and nobody writes it, the other is what programs see, since some write into
   the data of a section. Of ELF_C_READ_MMAP both are one mapping, which nobody can write. A file
   that cannot be mapped is read, and so is a small one of ELF_C_READ, which takes less time; of
   that the core gets bytes of its own once it is asked. */
#define _GNU_SOURCE
#include <sys/mman.h>
#include <sys/stat.h>
#include <unistd.h>

#include "object.h"

/* Maps the file as programs see it; NULL where it cannot be mapped. */
static uint8_t *
map_shown (int fd, size_t size)
{
  void *shown = mmap (NULL, size, PROT_READ | PROT_WRITE, MAP_PRIVATE, fd, 0);
  return shown == MAP_FAILED ? NULL : shown;
}

bool
map_file (Elf *elf, int fd, size_t size)
{
  bool once = elf->cmd == ELF_C_READ_MMAP;
  void *lent = mmap (NULL, size, PROT_READ, MAP_PRIVATE, fd, 0);
  if (lent == MAP_FAILED)
    return false;
  elf->shown = once ? lent : map_shown (fd, size);
  if (elf->shown == NULL)
    {
      munmap (lent, size);
      return false;
    }
  elf->lent = lent;
  elf->size = size;
  elf->memory = once ? MAPPED_ONCE : MAPPED;
  return true;
}

/* Up to this size a file is read. */
enum { SMALL = 32768 };

/* The bytes of a small file; NULL where it is none or is not to be had so. */
static uint8_t *
read_small (const Elf *elf, int fd, const struct stat *st)
{
  size_t size = st->st_size;
  if (elf->cmd != ELF_C_READ || !S_ISREG (st->st_mode) || size == 0 || size > SMALL)
    return NULL;
  uint8_t *bytes = malloc (size);
  if (bytes != NULL && pread (fd, bytes, size, 0) == (ssize_t) size)
    return bytes;
  free (bytes);
  return NULL;
}

/* The bytes of a file up to its end, and their number; NULL and an error where they cannot be
   read. */
static uint8_t *
read_bytes (int fd, size_t *size)
{
  size_t room = 4096;
  uint8_t *bytes = new_bytes (room);
  *size = 0;
  for (ssize_t n; bytes != NULL && (n = read (fd, bytes + *size, room - *size)) != 0;)
    {
      *size += n > 0 ? n : 0;
      uint8_t *more = n < 0 ? NULL : *size < room ? bytes : realloc (bytes, room *= 2);
      if (more == NULL)
        {
          free (bytes);
          set_error (n < 0 ? E_READ_ERROR : E_NOMEM);
        }
      bytes = more;
    }
  return bytes;
}

bool
is_apart (Elf *elf)
{
  if ((elf->memory != COPIED && elf->memory != WRITTEN) || elf->lent != elf->shown)
    return true;
  const uint8_t *own = new_copy (elf->shown, elf->size);
  if (own != NULL)
    elf->lent = own;
  return own != NULL;
}

/* Has the bytes of a file, which are read unless it is a small one that was; false and an error
   where they cannot be read. */
static bool
take_bytes (Elf *elf, int fd, uint8_t *small)
{
  elf->memory = COPIED;
  elf->shown = small != NULL ? small : read_bytes (fd, &elf->size);
  elf->lent = elf->shown;
  if (elf->shown != NULL && (small != NULL || is_apart (elf)))
    return true;
  free (elf->shown);
  return false;
}

bool
take_file (Elf *elf, int fd)
{
  struct stat st;
  if (fstat (fd, &st) != 0)
    return false_with (E_INVALID_FILE);
  uint8_t *small = read_small (elf, fd, &st);
  elf->size = st.st_size;
  bool is_mapped = small == NULL && S_ISREG (st.st_mode) && st.st_size > 0
                   && map_file (elf, fd, st.st_size);
  if (!is_mapped && !take_bytes (elf, fd, small))
    return false;
  elf->map = elf->shown;
  return true;
}

void
drop_bytes (void *at, size_t size, bool is_mapped)
{
  if (is_mapped)
    munmap (at, size);
  else
    free (at);
}

void
drop_lent (Elf *elf)
{
  if (elf->lent != elf->shown)
    drop_bytes ((void *) elf->lent, elf->size, elf->memory == MAPPED);
}

void
let_go (Elf *elf)
{
  bool is_twice = elf->memory == MAPPED || elf->memory == COPIED || elf->memory == WRITTEN;
  if (is_twice)
    drop_lent (elf);
  if (is_twice || elf->memory == MAPPED_ONCE
      || (elf->memory == BORROWED && (elf->marks & IS_HANDED_OVER)))
    drop_bytes (elf->shown, elf->size, elf->memory != COPIED && elf->memory != BORROWED);
  free (elf->front);
  for (struct kept *next, *k = elf->kept; k != NULL; k = next)
    {
      next = k->next;
      drop_bytes (k->at, k->size, k->is_mapped);
      free (k);
    }
}

bool
own_image (Elf *elf)
{
  if (elf->kind == ELF_K_AR || elf->parent != NULL)
    return false_with (E_UNSUPPORTED);  /* its members are lent from the same place */
  if (!keep_end (elf, 0))
    return false;
  if (elf->memory != MAPPED)
    return true;
  uint8_t *copy = new_copy (elf->lent, elf->size);
  if (copy == NULL)
    return false;
  struct elfkit_handle handle = { NULL };
  if (elf->handle.ptr != NULL && !begin_over (copy, elf->size, &handle))
    {
      free (copy);
      return false;
    }
  end_object (&elf->handle);
  elf->handle = handle;
  munmap ((void *) elf->lent, elf->size);
  elf->lent = copy;
  elf->memory = WRITTEN;
  return true;
}

bool
may_write (const Elf *elf)
{
  if (elf->memory == INSIDE)
    return may_write (elf->parent);
  return elf->memory == MAPPED || elf->memory == COPIED || elf->memory == WRITTEN;
}
