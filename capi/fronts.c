/* fronts.c: how an image is lent to the core. The core has no object of an image whose tables do
   not lie in it, as of one that was cut, nor of one whose header tells another version or other
   sizes of entries; programs read such an image all the same. So the core then gets the image with
   another front: with the sizes and the version that there are, without section headers where
   their table does not lie in it, and with as many program headers as do. Programs see the front
   as it is. */
#include <sys/mman.h>

#include "object.h"

/* Where the ELF header has its fields (gABI chapter 4, "ELF Header"), and how long the entries of
   the tables are. */
struct places
{
  size_t phoff, shoff, width, phentsize, phnum, shentsize, shnum, shstrndx, phdr, shdr;
};

static const struct places places[2] = { { 28, 32, 4, 42, 44, 46, 48, 50, 32, 40 },
                                         { 32, 40, 8, 54, 56, 58, 60, 62, 56, 64 } };

enum { VERSION_AT = 20 };

static const struct places *
places_of (const uint8_t *image)
{
  /* clang: the image has a whole ELF header, since kind_of found one */
  return &places[image[EI_CLASS] == ELFCLASS64];
}

/* A number of so many bytes, in the order of the image; and how it is put there. */
static uint64_t
get (const uint8_t *image, size_t at, size_t width)
{
  return number_at (image + at, width, image[EI_DATA] == ELFDATA2MSB);
}

static void
put (uint8_t *image, size_t at, size_t width, uint64_t number)
{
  put_number (image + at, width, image[EI_DATA] == ELFDATA2MSB, number);
}

struct tables
tables_of (const uint8_t *image)
{
  const struct places *p = places_of (image);
  return (struct tables) { .phoff = get (image, p->phoff, p->width),
                           .shoff = get (image, p->shoff, p->width),
                           .version = get (image, VERSION_AT, 4),
                           .phentsize = get (image, p->phentsize, 2),
                           .phnum = get (image, p->phnum, 2),
                           .shentsize = get (image, p->shentsize, 2),
                           .shnum = get (image, p->shnum, 2),
                           .shstrndx = get (image, p->shstrndx, 2) };
}

void
make_front (uint8_t *image, const uint8_t *ident)
{
  const size_t ehsize_at = ident[EI_CLASS] == ELFCLASS64 ? 52 : 40;
  memcpy (image, ident, EI_NIDENT);
  put (image, VERSION_AT, 4, EV_CURRENT);
  put (image, ehsize_at, 2, item_size (ELF_T_EHDR, ident[EI_CLASS]));
}

/* The most bytes that an image has (crates/elf_types, MAX_IMAGE). */
#define MOST_BYTES ((uint64_t) 1 << 40)

bool
is_plain (const Elf *elf)
{
  const struct places *p = places_of (elf->lent);
  const struct tables *t = &elf->tables;
  bool has_segments = t->phentsize == p->phdr
                      && lies_in (t->phoff, (uint64_t) t->phnum * p->phdr, elf->size);
  bool has_table = t->shentsize == p->shdr && t->shnum != 0 && t->shstrndx != SHN_XINDEX
                   && lies_in (t->shoff, (uint64_t) t->shnum * p->shdr, elf->size);
  return elf->lent[EI_DATA] == NATIVE_ORDER && elf->size <= MOST_BYTES
         && t->version == EV_CURRENT && t->phnum != PN_XNUM && (t->phnum == 0 || has_segments)
         && (t->shoff == 0 ? t->shnum == 0 : has_table);
}

/* Takes the section headers out of a front, where it has any. */
static bool
drop_sections (Elf *elf, uint8_t *image)
{
  const struct places *p = places_of (image);
  struct tables t = tables_of (image);
  if (t.shoff != 0 && t.shentsize != p->shdr)
    put (image, p->shentsize, 2, p->shdr);
  else if (t.shoff != 0 || t.shnum != 0)
    {
      put (image, p->shoff, p->width, 0);
      put (image, p->shnum, 2, 0);
      put (image, p->shstrndx, 2, 0);
      elf->is_cut = true;
    }
  else
    return false;
  return true;
}

/* Leaves as many program headers in a front as lie in the image, and fewer than it had. */
static bool
fit_segments (Elf *elf, uint8_t *image)
{
  const struct places *p = places_of (image);
  struct tables t = tables_of (image);
  uint64_t room = t.phoff < elf->size ? (elf->size - t.phoff) / p->phdr : 0;
  if (t.phnum == 0)
    return false;
  if (t.phentsize != p->phdr)
    put (image, p->phentsize, 2, p->phdr);
  else
    {
      put (image, p->phnum, 2, room < t.phnum ? room : t.phnum - 1u);
      elf->lacks_phdrs = true;
    }
  return true;
}

/* Mends what the core refused in a front; false where nothing is left to be mended. */
static bool
mend (Elf *elf, uint8_t *image, uint32_t number)
{
  switch (number)
    {
    case REFUSED_VERSION:
      if (tables_of (image).version == EV_CURRENT)
        return false;
      put (image, VERSION_AT, 4, EV_CURRENT);
      return true;
    case REFUSED_SH_TABLE:
      return drop_sections (elf, image);
    default:
      return fit_segments (elf, image);
    }
}

/* The bytes that are lent, to be written while they are not: the layer's own mapping or buffer, or
   a copy where programs see the image in the same place. NULL where there is no memory. */
static uint8_t *
open_front (Elf *elf)
{
  if (elf->memory == MAPPED
      && mprotect ((void *) elf->lent, EI_NIDENT, PROT_READ | PROT_WRITE) != 0)
    return NULL;
  bool is_own = elf->memory == MAPPED || elf->memory == COPIED || elf->memory == WRITTEN;
  if (!is_own && elf->front == NULL)
    {
      elf->front = new_copy (elf->lent, elf->size);
      if (elf->front == NULL)
        return NULL;
      elf->lent = elf->front;
    }
  return (uint8_t *) elf->lent;
}

/* Lends bytes to the core; the number of its refusal, or 0. */
static uint32_t
lend (const uint8_t *bytes, size_t size, struct elfkit_handle *h)
{
  struct elfkit_lent back = { NULL, 0 };
  return elfkit_begin ((struct elfkit_lent) { bytes, size }, h, &back);
}

bool
begin_over (const uint8_t *bytes, size_t size, struct elfkit_handle *h)
{
  return is_given (lend (bytes, size, h));
}

void
end_object (struct elfkit_handle *h)
{
  struct elfkit_lent back = { NULL, 0 };
  if (h->ptr != NULL)
    elfkit_end (h, &back);
}

uint32_t
begin_core (Elf *elf)
{
  if (!is_apart (elf))
    return REFUSED_MEMORY;
  for (;;)
    {
      uint32_t number = lend (elf->lent, elf->size, &elf->handle);
      if (number != REFUSED_VERSION && number != REFUSED_SH_TABLE && number != REFUSED_PH_TABLE)
        return number;
      uint8_t *front = open_front (elf);
      if (front == NULL)
        return REFUSED_MEMORY;
      bool again = mend (elf, front, number);
      elf->is_torn = true;
      if (elf->memory == MAPPED)
        mprotect ((void *) elf->lent, EI_NIDENT, PROT_READ);
      if (!again)
        return number;
    }
}
