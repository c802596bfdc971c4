/* pages.c: the pages of the private mappings through which programs see a file. A page that was
   written is the mapping's own, and stays as it is; another shows what the file has. */
#define _GNU_SOURCE
#include <fcntl.h>
#include <sys/mman.h>
#include <unistd.h>

#include "object.h"

/* Has the pages of a mapping in memory that a range lies in: what is written is a mapping's own. */
static void
touch (uint8_t *map, size_t size, uint64_t from, uint64_t to, const uint8_t *bytes)
{
  if (map + from == bytes)
    return;
  size_t page = sysconf (_SC_PAGESIZE);
  for (uint64_t at = from - from % page; from < to && at < to && at < size; at += page)
    {
      volatile uint8_t *first = map + at;
      *first = *first;
    }
}

/* Whether programs see the image by a mapping of the file. */
static bool
is_shown_mapped (const Elf *elf)
{
  return elf->memory == MAPPED || elf->memory == WRITTEN;
}

void
keep_pages (Elf *elf, uint64_t from, uint64_t to, const uint8_t *bytes)
{
  if (is_shown_mapped (elf))
    touch (elf->shown, elf->size, from, to, bytes);
  for (struct kept *k = elf->kept; k != NULL; k = k->next)
    if (k->is_mapped)
      touch (k->at, k->size, from, to, bytes);
}

bool
is_seen (const Elf *elf, uint64_t at, const uint8_t *bytes, size_t size)
{
  bool found = is_shown_mapped (elf) && lies_in (at, size, elf->size) && bytes == elf->shown + at;
  for (const struct kept *k = elf->kept; !found && k != NULL; k = k->next)
    found = k->is_mapped && lies_in (at, size, k->size) && bytes == k->at + at;
  return found;
}

/* Has a page among those that are known; false where the system does not tell it. */
static bool
look_up (struct pages *p, uint64_t page)
{
  if (page - p->first < p->count)
    return true;
  int fd = open ("/proc/self/pagemap", O_RDONLY | O_CLOEXEC);
  ssize_t got = pread (fd, p->entries, sizeof p->entries, page * sizeof p->entries[0]);
  close (fd);
  p->first = page;
  p->count = got <= 0 ? 0 : got / sizeof p->entries[0];
  return p->count > 0;
}

const uint8_t *
find_page (struct pages *p, const uint8_t *at, const uint8_t *end, bool is_written)
{
  /* the bits of an entry: the page is in memory, or swapped out, and is not the file's */
  const uint64_t is_there = (uint64_t) 3 << 62, of_file = (uint64_t) 1 << 61;
  const size_t size = sysconf (_SC_PAGESIZE);
  uint64_t page = (uintptr_t) at / size, behind = ((uintptr_t) end + size - 1) / size;
  for (; page < behind; page++)
    {
      if (!look_up (p, page))
        return is_written ? at : end;
      const uint64_t entry = p->entries[page - p->first];
      if (((entry & is_there) != 0 && (entry & of_file) == 0) == is_written)
        break;
    }
  size_t left = page * size - (uintptr_t) at;
  return page * size <= (uintptr_t) at ? at : left < (size_t) (end - at) ? at + left : end;
}

/* Has a mapping in memory from a place on, at the same place: where a file gets shorter, what was
   written of a mapping behind its end is lost too. */
static bool
hold (uint8_t *map, size_t size, uint64_t from)
{
  if (from >= size)
    return true;
  from -= from % sysconf (_SC_PAGESIZE);
  void *own = mmap (NULL, size - from, PROT_READ | PROT_WRITE, MAP_PRIVATE | MAP_ANONYMOUS, -1, 0);
  if (own == MAP_FAILED)
    return false_with (E_NOMEM);
  memcpy (own, map + from, size - from);
  if (mremap (own, size - from, size - from, MREMAP_MAYMOVE | MREMAP_FIXED, map + from)
      != MAP_FAILED)
    return true;
  munmap (own, size - from);
  return false_with (E_NOMEM);
}

bool
keep_end (Elf *elf, uint64_t from)
{
  bool done = !is_shown_mapped (elf) || hold (elf->shown, elf->size, from);
  for (struct kept *k = elf->kept; done && k != NULL; k = k->next)
    done = !k->is_mapped || hold (k->at, k->size, from);
  return done;
}
