/* written.c: how elf_update writes an image, and what the descriptor is over from then on. What
   programs saw of the image before stays theirs until elf_end. */
#define _GNU_SOURCE
#include <sys/stat.h>
#include <unistd.h>

#include "update.h"

bool
write_bytes (int fd, const uint8_t *bytes, size_t size, size_t at)
{
  for (size_t done = 0; done < size;)
    {
      ssize_t put = pwrite (fd, bytes + done, size - done, at + done);
      if (put <= 0)
        return false_with (E_WRITE_ERROR);
      done += put;
    }
  return true;
}

/* Writes an image to the file of a descriptor, and leaves its mode as it was. The file gets longer
   first, so that what programs see of it is there also where a write fails; a new one is empty
   before. */
static bool
write_file (struct update *u, uint64_t length)
{
  const Elf *elf = u->elf;
  const int fd = elf->fd;
  struct stat st;
  if (fstat (fd, &st) != 0 || (elf->is_bare && ftruncate (fd, 0) != 0)
      || ((elf->is_bare || (uint64_t) st.st_size < length) && ftruncate (fd, length) != 0))
    return false_with (E_WRITE_ERROR);
  u->step = WRITE;
  return put_parts (u)
         && (((elf->is_bare || (uint64_t) st.st_size <= length || ftruncate (fd, length) == 0)
              && ((st.st_mode & (S_ISUID | S_ISGID)) == 0 || fchmod (fd, st.st_mode) == 0))
             || false_with (E_WRITE_ERROR));
}

/* Finds where programs see the image then: a mapping, or memory where the file cannot be mapped;
   false and an error where there is none. */
static bool
find_room (Elf *next, int fd, size_t size)
{
  if (map_file (next, fd, size))
    return true;
  next->shown = new_bytes (size);
  next->lent = next->shown;
  next->size = size;
  next->memory = COPIED;
  return next->shown != NULL;
}

/* Reads what was written, where the file is not mapped. */
static bool
fill_room (const Elf *next, int fd)
{
  ssize_t got;
  for (size_t done = 0; next->memory == COPIED && done < next->size; done += got)
    {
      got = pread (fd, next->shown + done, next->size - done, done);
      if (got <= 0)
        return false_with (E_READ_ERROR);
    }
  return true;
}

/* The descriptor is over other bytes of the file. What programs saw of the old ones is kept. */
static void
take_bytes_of (Elf *elf, const Elf *next, struct kept *kept)
{
  *kept = (struct kept) { elf->kept, elf->shown, elf->size, elf->memory != COPIED };
  elf->kept = kept;
  drop_lent (elf);
  elf->map = elf->shown = next->shown;
  elf->lent = next->lent;
  elf->size = next->size;
  elf->memory = next->memory;
}

/* The descriptor and its sections are those of the image that was written. */
static void
settle (struct update *u)
{
  Elf *elf = u->elf;
  elf->is_torn = false;
  elf->tables = tables_of (elf->lent);
  elf->shstrndx = u->names;
  for (size_t i = 0; i < elf->shnum; i++)
    {
      Elf_Scn *scn = section_at (elf, i);
      scn->is_new = false;
      scn->has_home = 0;
      forget_strings (scn);
      if (scn->last != NULL)
        scn->data.from_core = false;
    }
}

/* The file may have other bytes than the image, which programs see as it was. So does the core from
   then on. */
static void
tear (Elf *elf)
{
  elf->is_torn = true;
  if (elf->memory != MAPPED)
    return;
  drop_lent (elf);
  elf->lent = elf->shown;
  elf->memory = WRITTEN;
}

/* Nothing is dirty any more. */
static void
clear_flags (Elf *elf)
{
  elf->flags &= ~ELF_F_DIRTY;
  elf->ehdr_flags &= ~ELF_F_DIRTY;
  elf->phdr_flags &= ~ELF_F_DIRTY;
  for (size_t i = 0; i < elf->shnum; i++)
    {
      Elf_Scn *scn = section_at (elf, i);
      scn->flags &= ~ELF_F_DIRTY;
      scn->shdr_flags &= ~ELF_F_DIRTY;
      for (struct elfkit_data *d = &scn->data; d != NULL; d = d->next)
        d->flags &= ~ELF_F_DIRTY;
    }
}

/* Takes what the update of a file needs, so that nothing can fail then but the write. The mappings
   stay where they show all that is written, and the image keeps its length. */
static bool
prepare (struct update *u, uint64_t length, Elf *next, struct kept **kept)
{
  Elf *elf = u->elf;
  u->step = KEEP;
  u->stays = elf->memory == MAPPED && !elf->is_torn && u->length == elf->size;
  if (!put_parts (u) || !keep_end (elf, length))
    return false;
  if (elf->is_bare || u->stays)
    return true;
  *kept = new_zeros (sizeof **kept);
  return *kept != NULL && find_room (next, elf->fd, u->length);
}

bool
write_image (struct update *u, uint64_t length)
{
  Elf *elf = u->elf;
  Elf next = { .cmd = elf->cmd };
  struct kept *kept = NULL;
  u->length = u->length < length ? u->length : length;
  bool is_ready = prepare (u, length, &next, &kept);
  if (is_ready)
    end_object (&elf->handle);
  if (!is_ready || !write_file (u, length) || (kept != NULL && !fill_room (&next, elf->fd)))
    {
      free (kept);
      if (next.lent != NULL)
        let_go (&next);
      if (is_ready && !elf->is_bare)
        tear (elf);
      return false;
    }
  if (kept != NULL)
    take_bytes_of (elf, &next, kept);
  if (!elf->is_bare)
    settle (u);
  clear_flags (elf);
  return true;
}
