/* archives.c: the members of an archive and its table of symbols. The core walks over the members,
   one after another; the layer keeps each that the walk came to, so that a program may come back
   to it. The tables of symbols and of names, which the core passes over, are shown as members too,
   since eu-ranlib looks for them. A member's image lies in the archive's and is lent to the core
   once more. */
#include <ar.h>

#include "object.h"

bool
begin_archive (Elf *elf)
{
  elf->archive = is_apart (elf) ? new_zeros (sizeof *elf->archive) : NULL;
  if (elf->archive == NULL)
    return false;
  struct elfkit_lent image = { elf->lent, elf->size }, back = { NULL, 0 };
  elf->archive->place = FIRST_HEADER;
  return is_given (elfkit_ar_begin (image, &elf->archive->handle, &back));
}

void
end_archive (struct elfkit_archive *archive)
{
  struct elfkit_lent back = { NULL, 0 };
  if (archive->handle.ptr != NULL)
    elfkit_ar_end (&archive->handle, &back);
  for (size_t i = 0; i < archive->members.count; i++)
    free (archive->members.at[i]);
  free (archive->members.at);
  free (archive->symbols);
  free (archive);
}

/* The number of a header's field that the core has read: digits, and then spaces. */
static uint64_t
number_of (const char *field, size_t width, unsigned int base)
{
  uint64_t number = 0;
  for (size_t i = 0; i < width && field[i] != ' '; i++)
    number = number * base + (unsigned int) (field[i] - '0');
  return number;
}

/* The header of the table at a place, which the core's walk passed over. */
static struct elfkit_ar_member
table_at (const Elf *elf, uint64_t place)
{
  struct ar_hdr h;
  memcpy (&h, elf->lent + place, sizeof h);
  size_t length = sizeof h.ar_name;
  while (length > 0 && h.ar_name[length - 1] == ' ')
    length--;
  return (struct elfkit_ar_member) {
    .found = 1, .at = place, .body = place + sizeof h, .namesz = length,
    .mode = number_of (h.ar_mode, sizeof h.ar_mode, 8),
    .uid = number_of (h.ar_uid, sizeof h.ar_uid, 10),
    .gid = number_of (h.ar_gid, sizeof h.ar_gid, 10),
    .size = number_of (h.ar_size, sizeof h.ar_size, 10),
    .date = number_of (h.ar_date, sizeof h.ar_date, 10)
  };
}

/* The header of a member as programs see it, and its name as the archive has it. */
static void
make_header (const Elf *elf, struct elfkit_member *m, const struct elfkit_ar_member *x)
{
  m->at = x->at;
  m->body = x->body;
  m->header = (Elf_Arhdr) { .ar_name = m->name, .ar_date = x->date, .ar_uid = x->uid,
                            .ar_gid = x->gid, .ar_mode = x->mode, .ar_size = x->size,
                            .ar_rawname = m->raw_name };
  memcpy (m->raw_name, elf->lent + x->at, sizeof m->raw_name - 1);
}

/* Asks the core for the member after those that were come to, unless it gave one that was not shown
   yet. Gives why there is none, or E_NONE. */
static int
come_to_one (struct elfkit_archive *archive)
{
  if (archive->came.found || archive->end != E_NONE)
    return archive->end;
  int error = error_of (elfkit_ar_next (&archive->handle, &archive->came));
  if (error == E_NONE && !archive->came.found)
    error = E_RANGE;
  if (error == E_RANGE || error == E_INVALID_ARCHIVE)
    archive->end = error;
  return error;
}

/* One step of the walk: the table that stands before the core's next member, or that member; false
   and an error where there is neither. */
static bool
step (Elf *elf)
{
  struct elfkit_archive *archive = elf->archive;
  int error = come_to_one (archive);
  uint64_t before = error == E_NONE ? archive->came.at : error == E_RANGE ? elf->size : 0;
  bool is_table = archive->place < before;
  if (error != E_NONE && !is_table)
    return false_with (error);
  struct elfkit_ar_member x = is_table ? table_at (elf, archive->place) : archive->came;
  struct elfkit_member *m = new_zeros (sizeof *m + x.namesz + 1);
  if (m == NULL || !add (&archive->members, m))
    {
      free (m);
      return false;
    }
  make_header (elf, m, &x);
  if (is_table)
    memcpy (m->name, m->raw_name, x.namesz);
  else
    {
      elfkit_ar_name (&archive->handle, (uint8_t *) m->name, x.namesz);
      archive->came.found = 0;
    }
  archive->place = round_up (x.body + x.size, 2);
  return true;
}

struct elfkit_member *
current_member (Elf *elf)
{
  struct elfkit_archive *archive = elf->archive;
  if (archive == NULL || archive->current == NOWHERE)
    return null_with (E_INVALID_ARCHIVE);
  while (archive->members.count <= archive->current)
    if (!step (elf))
      return NULL;
  return archive->members.at[archive->current];
}

/* elf_next: goes on to the next member of the archive that this one is of. Gives the command of
   this one, or ELF_C_NULL where there is none. */
PUBLIC Elf_Cmd
elf_next (Elf *elf)
{
  if (elf == NULL || elf->parent == NULL || current_member (elf->parent) == NULL)
    return ELF_C_NULL;
  elf->parent->archive->current++;
  return current_member (elf->parent) == NULL ? ELF_C_NULL : elf->cmd;
}

/* Where the header of a member is that the walk came to. */
static uint64_t
place_of (const struct elfkit_archive *archive, size_t index)
{
  return ((const struct elfkit_member *) archive->members.at[index])->at;
}

/* The index of the member whose header is at a place, NOWHERE and an error where there is none. */
static size_t
member_at (Elf *elf, size_t place)
{
  struct elfkit_archive *archive = elf->archive;
  size_t low = 0, high;
  while ((high = archive->members.count) == 0 || place_of (archive, high - 1) < place)
    if (!step (elf))
      return NOWHERE;
  high--;
  while (low < high)
    {
      size_t middle = low + (high - low) / 2;
      if (place_of (archive, middle) < place)
        low = middle + 1;
      else
        high = middle;
    }
  if (place_of (archive, low) == place)
    return low;
  set_error (E_RANGE);
  return NOWHERE;
}

/* elf_rand: goes to the member whose header is at a place. Gives the place, or 0 where there is no
   member. */
PUBLIC size_t
elf_rand (Elf *elf, size_t offset)
{
  if (elf == NULL || elf->kind != ELF_K_AR || elf->archive == NULL)
    return 0;
  elf->archive->current = member_at (elf, offset);
  return elf->archive->current == NOWHERE ? 0 : offset;
}

/* elf_getarhdr: the header of a member. */
PUBLIC Elf_Arhdr *
elf_getarhdr (Elf *elf)
{
  if (elf == NULL)
    return NULL;
  return elf->member != NULL ? &elf->member->header : null_with (E_INVALID_OP);
}

/* elf_getaroff: the place of a member's header in its archive. */
PUBLIC int64_t elf_getaroff (Elf *elf)
{ return elf == NULL || elf->member == NULL ? 0 : (int64_t) elf->member->at; }

/* Whether the first member is a table of symbols, as an archive with an empty table has it. */
static bool
has_table (const Elf *elf)
{
  static const char name[16] = "/               ";
  return lies_in (FIRST_HEADER, sizeof name, elf->size)
         && memcmp (elf->lent + FIRST_HEADER, name, sizeof name) == 0;
}

/* The symbols of the core as programs see them, the last one without a name, and the names behind
   them; NULL and an error where there is no memory. */
static Elf_Arsym *
make_symbols (struct elfkit_archive *archive, size_t count)
{
  struct elfkit_ar_symbol x = { 0 };
  size_t names = 0;
  for (size_t i = 0; i < count; i++)
    if (elfkit_ar_symbol (&archive->handle, i, &x) == 0)
      names += x.namesz + 1;
  Elf_Arsym *all = new_zeros ((count + 1) * sizeof *all + names);
  if (all == NULL)
    return NULL;
  char *name = (char *) (all + count + 1);
  for (size_t i = 0; i < count; i++)
    if (elfkit_ar_symbol (&archive->handle, i, &x) == 0)
      {
        elfkit_ar_symbol_name (&archive->handle, i, (uint8_t *) name, x.namesz);
        all[i] = (Elf_Arsym) { .as_name = name, .as_off = x.at,
                               .as_hash = elfkit_hash ((uint8_t *) name, x.namesz) };
        name += x.namesz + 1;
      }
  return all;
}

/* A table of symbols with places of eight bytes, "/SYM64/", which the core does not read: how many
   there are, their places, and behind these their names. */
struct wide_table
{
  uint64_t count;
  const uint8_t *places;
  char *names, *end;
};

/* Whether the first member is such a table, and lies in the archive. */
static bool
has_wide_table (const Elf *elf, struct wide_table *t)
{
  static const char name[16] = "/SYM64/         ";
  struct ar_hdr h;
  if (!lies_in (FIRST_HEADER, sizeof h, elf->size))
    return false;
  memcpy (&h, elf->lent + FIRST_HEADER, sizeof h);
  uint64_t body = FIRST_HEADER + sizeof h, size = number_of (h.ar_size, sizeof h.ar_size, 10);
  if (memcmp (h.ar_name, name, sizeof name) != 0 || memcmp (h.ar_fmag, ARFMAG, 2) != 0
      || !lies_in (body, size, elf->size) || size < 8)
    return false;
  t->count = number_at (elf->lent + body, 8, true);
  t->places = elf->lent + body + 8;
  if (t->count > (size - 8) / 8)
    return false;
  t->names = (char *) elf->shown + body + 8 + 8 * t->count;
  t->end = (char *) elf->shown + body + size;
  return true;
}

/* The symbols of such a table, whose names are shown where they stand; NULL and an error where one
   has no end. */
static Elf_Arsym *
make_wide_symbols (const struct wide_table *t)
{
  Elf_Arsym *all = new_zeros ((t->count + 1) * sizeof *all);
  char *name = t->names;
  for (uint64_t i = 0; all != NULL && i < t->count; i++)
    {
      const char *end = name == t->end ? NULL : memchr (name, 0, t->end - name);
      if (end == NULL)
        {
          free (all);
          return null_with (E_NO_INDEX);
        }
      all[i] = (Elf_Arsym) { .as_name = name,
                             .as_off = number_at (t->places + 8 * i, 8, true),
                             .as_hash = elfkit_hash ((uint8_t *) name, end - name) };
      name += end - name + 1;
    }
  return all;
}

/* Makes the symbols of either table; false and an error where there is none. */
static bool
read_symbols (Elf *elf)
{
  struct elfkit_archive *archive = elf->archive;
  struct wide_table wide;
  uint64_t count = 0;
  Elf_Arsym *all;
  if (has_wide_table (elf, &wide))
    {
      count = wide.count;
      all = make_wide_symbols (&wide);
    }
  else if (!is_given (elfkit_ar_symbols (&archive->handle, &count)))
    return false;
  else if (count == 0 && !has_table (elf))
    return false_with (E_NO_INDEX);
  else
    all = make_symbols (archive, count);
  if (all == NULL)
    return false;
  all[count].as_hash = ~0ul;
  archive->symbols = all;
  /* -fanalyzer: the archive has the symbols, and end_archive frees them */
  archive->symbol_count = count + 1;
  return true;
}

/* elf_getarsym: the table of symbols, whose last entry has no name and is counted. */
PUBLIC Elf_Arsym *
elf_getarsym (Elf *elf, size_t *count)
{
  if (count != NULL)
    *count = 0;
  if (elf == NULL)
    return NULL;
  if (elf->kind != ELF_K_AR || elf->archive == NULL)
    return null_with (E_NO_ARCHIVE);
  /* -fanalyzer: the same */
  if (elf->archive->symbols == NULL && !read_symbols (elf))
    return NULL;
  if (count != NULL)
    *count = elf->archive->symbol_count;
  return elf->archive->symbols;
}
