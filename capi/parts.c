/* parts.c: what elf_update writes: the parts of the image, by their places, and what is between
   them. All of it is gone over twice: first what programs see there is kept, and memory is taken,
   and then it is written. Data is checked in the same way, before it is laid out. */
#include "update.h"

/* A file is compared by so many bytes at once. */
enum { PAGE = 4096 };

/* Data of at least so many bytes, of which a program may have changed few, is looked through. */
enum { LARGE = 1 << 16 };

/* Room for bytes in the form of the file; NULL and an error where there is no memory, which is
   taken when they are first gone over. */
static uint8_t *
block_of (struct update *u, size_t size)
{
  if (size <= u->room)
    return u->block;
  free (u->block);
  u->block = new_bytes (size);
  u->room = u->block == NULL ? 0 : size;
  return u->block;
}

const uint8_t *
front_of (struct update *u, uint64_t i, const struct elfkit_part *part)
{
  uint8_t *bytes = block_of (u, part->len);
  if (bytes != NULL)
    elfkit_layout_bytes (&u->layout, i, bytes, part->len);
  return bytes;
}

/* Writes bytes at a place of the file, or keeps what programs see there, unless they see these very
   bytes. */
static bool
put (struct update *u, uint64_t at, const uint8_t *bytes, size_t size)
{
  Elf *elf = u->elf;
  if (size == 0 || u->step == CHECK)
    return true;
  if (u->step == WRITE)
    return write_bytes (elf->fd, bytes, size, at);
  keep_pages (elf, at, at + size, bytes);
  u->stays = u->stays && bytes == elf->shown + at;
  return true;
}

/* Whether the file may have other bytes there. */
static bool
is_other (const Elf *elf, uint64_t at, const uint8_t *bytes, size_t size)
{
  return elf->is_torn || !lies_in (at, size, elf->size)
         || memcmp (elf->lent + at, bytes, size) != 0;
}

/* Puts the bytes where the file may have others. */
static bool
put_other (struct update *u, uint64_t at, const uint8_t *bytes, size_t size)
{
  size_t from = 0;              /* what is put next begins there */
  for (size_t n, done = 0; done < size; done += n)
    {
      n = PAGE - (at + done) % PAGE;
      n = n < size - done ? n : size - done;
      if (is_other (u->elf, at + done, bytes + done, n))
        continue;
      if (!put (u, at + from, bytes + from, done - from))
        return false;
      from = done + n;
    }
  return put (u, at + from, bytes + from, size - from);
}

bool
put_fill (struct update *u, uint64_t at, uint64_t size)
{
  uint8_t page[PAGE];
  if (size > MOST_FILL)
    return false_with (E_NOMEM);
  if (u->step == CHECK || (u->fill == 0 && at >= u->elf->size && !u->elf->is_torn))
    return true;
  memset (page, u->fill, sizeof page);
  for (uint64_t n; size > 0; at += n, size -= n)
    {
      n = size < PAGE ? size : PAGE;
      if (!put_other (u, at, page, n))
        return false;
    }
  return true;
}

/* Puts bytes of data: of many that a mapping of the file shows there, the pages that were
   written. */
static bool
put_data (struct update *u, uint64_t at, const uint8_t *bytes, size_t size)
{
  if (u->step == CHECK || size < LARGE || !is_seen (u->elf, at, bytes, size))
    return put (u, at, bytes, size);
  if (u->step == KEEP && u->elf->kept == NULL)
    return true;                /* there is no other mapping */
  struct pages pages;
  pages.count = 0;
  const uint8_t *end = bytes + size, *from = bytes;
  for (const uint8_t *to; (from = find_page (&pages, from, end, true)) < end; from = to)
    {
      to = find_page (&pages, from, end, false);
      if (!put (u, at + (from - bytes), from, to - from))
        return false;
    }
  return true;
}

/* Puts a piece, in the form that it has in the file. */
static bool
put_piece (struct update *u, uint64_t at, const Elf_Data *d)
{
  const Elf *elf = u->elf;
  if (d->d_size > 0 && d->d_buf == NULL)
    return false_with (E_INVALID_DATA);
  if (!is_foreign (elf, d->d_type) || d->d_size == 0)
    return put_data (u, at, d->d_buf, d->d_size);
  if ((unsigned int) d->d_type >= ELF_T_NUM)
    return false_with (E_UNKNOWN_TYPE);
  if (u->step == CHECK)
    return true;
  uint8_t *bytes = block_of (u, d->d_size);
  if (bytes != NULL && u->step == WRITE)
    translate (d->d_type, elf->class, false, bytes, d->d_buf, d->d_size);
  return bytes != NULL && put (u, at, bytes, d->d_size);
}

/* Puts the pieces of a section, with fill bytes between them, and behind them where the program
   laid out that the section is longer. */
static bool
put_pieces (struct update *u, Elf_Scn *scn, uint64_t at, uint64_t size)
{
  uint64_t end = 0;
  for (const struct elfkit_data *d = &scn->data; d != NULL; d = d->next)
    {
      uint64_t from = d->d.d_off;
      if (from < end)
        return false_with (E_INVALID_DATA);
      if (!put_fill (u, at + end, from - end) || !put_piece (u, at + from, &d->d))
        return false;
      end = from + d->d.d_size;
    }
  return put_fill (u, at + end, size - end);
}

/* Puts the data of a section: its pieces, or what the image that is open has there, and fill bytes
   behind it where a program made it longer. */
bool
put_section (struct update *u, Elf_Scn *scn, uint64_t at, uint64_t size)
{
  const Elf *elf = u->elf;
  if (has_pieces (scn))
    return put_pieces (u, scn, at, size);
  if (scn->is_made)
    return put_fill (u, at, size);
  uint64_t old = size < scn->home.len ? size : scn->home.len;
  if (!lies_in (scn->home.at, old, elf->size))
    return false_with (E_INVALID_SECTION_HEADER);
  return put_data (u, at, elf->shown + scn->home.at, old) && put_fill (u, at + old, size - old);
}

/* Whether the file has the data of a section at a place: it did not move, its length is the same,
   and the program did not mark it. */
static bool
is_there (const struct update *u, const Elf_Scn *scn, const struct elfkit_part *part)
{
  return !u->elf->is_torn && !scn->is_new && scn->home.at == part->at && scn->home.len == part->len
         && !is_marked (scn);
}

/* Puts a part, where the file does not have it. */
static bool
put_part (struct update *u, uint64_t i, const struct elfkit_part *part)
{
  if (part->section == 0)
    {
      const uint8_t *bytes = front_of (u, i, part);
      return bytes != NULL && put_other (u, part->at, bytes, part->len);
    }
  Elf_Scn *scn = section_at (u->elf, part->section);
  return is_there (u, scn, part) || put_section (u, scn, part->at, part->len);
}

bool
put_parts (struct update *u)
{
  struct elfkit_part part;
  uint64_t end = u->base;       /* there is nothing behind it but the parts */
  for (uint64_t i = 0; u->is_dirty && elfkit_layout_part (&u->layout, i, &part) == REFUSED_NOT;
       i++)
    {
      if (!put_part (u, i, &part) || (end < part.at && !put_fill (u, end, part.at - end)))
        return false;
      end = part.at + part.len > end ? part.at + part.len : end;
    }
  return u->is_anew || fill_gaps (u);
}
