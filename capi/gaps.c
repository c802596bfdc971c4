/* gaps.c: what elf_update fills of an image that a program laid out: as in elfutils the gaps before
   what it changed, and those behind. Others stay as the file has them. */
#include "update.h"

/* The ELF header, the program headers or a section, and whether a program changed it. */
struct gap_end
{
  uint64_t at, size;
  bool is_changed;
};

static int
compare_ends (const void *left, const void *right)
{
  const struct gap_end *a = left, *b = right;
  if (a->at != b->at)
    return a->at < b->at ? -1 : 1;
  return a->size < b->size ? -1 : a->size > b->size;
}

/* Lists all that a gap may end at, by their places; false and an error where there is no memory. */
static bool
list_ends (struct update *u)
{
  Elf *elf = u->elf;
  struct gap_end *ends = new_zeros ((elf->shnum + 2) * sizeof *ends);
  u->ends = ends;
  if (ends == NULL)
    return false;
  const unsigned int flags = elf->phnum > 0 ? elf->phdr_flags : elf->ehdr_flags;
  const uint64_t size = elf->phnum * item_size (ELF_T_PHDR, elf->class);
  bool is_changed = (flags | elf->flags) & ELF_F_DIRTY;
  ends[u->end_count++] = (struct gap_end) { 0, u->ehdr.e_ehsize, is_changed && elf->phnum == 0 };
  if (elf->phnum > 0)
    ends[u->end_count++] = (struct gap_end) { u->ehdr.e_phoff, size, is_changed };
  for (size_t i = 1; i < elf->shnum; i++)
    {
      GElf_Shdr shdr;
      Elf_Scn *scn = section_at (elf, i);
      if (gelf_getshdr (scn, &shdr) != NULL && shdr.sh_type != SHT_NOBITS)
        ends[u->end_count++] = (struct gap_end) { shdr.sh_offset, shdr.sh_size, is_marked (scn) };
    }
  qsort (ends, u->end_count, sizeof *ends, compare_ends);
  return true;
}

/* Fills a gap of the image, but not where the section headers stand. */
static bool
fill_gap (struct update *u, uint64_t from, uint64_t to)
{
  const Elf *elf = u->elf;
  to = to < u->length ? to : u->length;
  const uint64_t table = u->ehdr.e_shoff, end = to < table ? to : table;
  const uint64_t behind = table + elf->shnum * item_size (ELF_T_SHDR, elf->class);
  if (from < end && !put_fill (u, from, end - from))
    return false;
  from = from > behind ? from : behind;
  return from >= to || put_fill (u, from, to - from);
}

bool
fill_gaps (struct update *u)
{
  if (u->ends == NULL && !list_ends (u))
    return false;
  uint64_t end = 0;
  bool was_changed = false;
  for (size_t i = 0; i < u->end_count; i++)
    {
      const struct gap_end *x = &u->ends[i];
      if ((was_changed || x->is_changed) && !fill_gap (u, end, x->at))
        return false;
      end = x->at + x->size > end ? x->at + x->size : end;
      was_changed = x->is_changed;
    }
  return (u->elf->flags & ELF_F_DIRTY) == 0 || fill_gap (u, end, u->ehdr.e_shoff);
}
