/* sections.c: the sections by number and by place, and where their bytes are. A section is an entry
   of one array, which is made when the first one is asked for. */
#define _GNU_SOURCE
#include <sys/mman.h>

#include "object.h"

/* The size of a large page. An array of sections that is larger is mapped, in such pages where the
   system has them: a walk over many sections takes most of its time for new pages else. */
enum { LARGE = 1 << 21 };

static size_t
array_size (const Elf *elf)
{
  size_t size = elf->opened * sizeof *elf->sections;
  return size <= LARGE ? size : round_up (size, LARGE);
}

static Elf_Scn *
new_array (size_t size)
{
  if (size <= LARGE)
    return new_zeros (size);
  void *made = mmap (NULL, size, PROT_READ | PROT_WRITE, MAP_PRIVATE | MAP_ANONYMOUS, -1, 0);
  if (made == MAP_FAILED)
    return null_with (E_NOMEM);
  madvise (made, size, MADV_HUGEPAGE);
  return made;
}

void
free_array (Elf *elf)
{
  if (elf->sections != NULL)
    drop_bytes (elf->sections, array_size (elf), array_size (elf) > LARGE);
}

bool
has_sections (Elf *elf)
{
  if (elf == NULL)
    return false;
  if (elf->kind != ELF_K_ELF)
    return false_with (E_INVALID_HANDLE);
  if (elf->sections == NULL && elf->opened > 0)
    elf->sections = new_array (array_size (elf));
  return elf->sections != NULL || elf->opened == 0;
}

bool
has_home (Elf_Scn *scn)
{
  if (scn->has_home == 0)
    {
      if (!has_core (scn->elf))
        return false;
      uint32_t number = elfkit_home (core_of (scn->elf), scn->index, &scn->home);
      scn->has_home = number == 0 ? 1 : 2;
      scn->home_error = error_of (number);
    }
  if (scn->has_home == 2)
    set_error (scn->home_error);
  return scn->has_home == 1;
}

/* Whether section 0 is made when it is asked for, of an image that may be written and has none:
   its header has the numbers that do not fit the ELF header. */
static bool
lacks_section_0 (const Elf *elf)
{
  return elf->shnum == 0 && (elf->is_bare || changes_file (elf->cmd));
}

/* elf_getscn: the section with a number. */
PUBLIC Elf_Scn *
elf_getscn (Elf *elf, size_t index)
{
  if (!has_sections (elf))
    return NULL;
  if (index == 0 && lacks_section_0 (elf))
    return append_section (elf);
  return index < elf->shnum ? section_at (elf, index) : null_with (E_INVALID_INDEX);
}

/* elf_nextscn: the section after one, the one with number 1 for NULL. */
PUBLIC Elf_Scn *
elf_nextscn (Elf *elf, Elf_Scn *scn)
{
  if (scn != NULL)
    elf = scn->elf;
  if (!has_sections (elf))
    return NULL;
  size_t index = scn == NULL ? 1 : (size_t) scn->index + 1;
  return index < elf->shnum ? section_at (elf, index) : NULL;
}

/* elf_ndxscn: a section's number. */
PUBLIC size_t elf_ndxscn (Elf_Scn *scn) { return scn == NULL ? SHN_UNDEF : scn->index; }

/* gelf_offscn: the section that begins at a place: the first that has bytes, or the last. */
PUBLIC Elf_Scn *
gelf_offscn (Elf *elf, GElf_Off offset)
{
  if (!has_sections (elf))
    return NULL;
  Elf_Scn *found = NULL;
  for (size_t i = 0; i < elf->shnum; i++)
    {
      GElf_Shdr shdr;
      if (gelf_getshdr (section_at (elf, i), &shdr) == NULL)
        return NULL;
      if (shdr.sh_offset != offset)
        continue;
      found = section_at (elf, i);
      if (shdr.sh_size != 0 && shdr.sh_type != SHT_NOBITS)
        return found;
    }
  return found != NULL ? found : null_with (E_INVALID_OFFSET);
}

PUBLIC Elf_Scn *elf32_offscn (Elf *elf, Elf32_Off offset)
{ return gelf_getclass (elf) == ELFCLASS32 ? gelf_offscn (elf, offset) : NULL; }
PUBLIC Elf_Scn *elf64_offscn (Elf *elf, Elf64_Off offset)
{ return gelf_getclass (elf) == ELFCLASS64 ? gelf_offscn (elf, offset) : NULL; }

/* Notes of each section which one has its extended indexes: the first that links to it. One pass
   serves all sections, until a header is stored. False and an error where a header is not to be
   had. */
static bool
link_sections (Elf *elf)
{
  for (size_t i = 0; i < elf->shnum; i++)
    section_at (elf, i)->extended = 0;
  for (size_t i = elf->shnum; i-- > 1;)
    {
      GElf_Shdr shdr;
      if (gelf_getshdr (section_at (elf, i), &shdr) == NULL)
        return false;
      if (shdr.sh_type == SHT_SYMTAB_SHNDX && shdr.sh_link < elf->shnum)
        section_at (elf, shdr.sh_link)->extended = i;
    }
  return elf->has_links = true;
}

/* elf_scnshndx: the section with the extended indexes of a symbol table, 0 where there is none. */
PUBLIC int
elf_scnshndx (Elf_Scn *scn)
{
  if (scn == NULL)
    return -1;
  if (!scn->elf->has_links && !link_sections (scn->elf))
    return -1;
  return (int) scn->extended;
}

/* Notes where the strings of a section end: behind its last NUL. The core says whether it is a
   section of strings, and where it is; a string is then at each place before that NUL, and none
   behind it, so that nobody need look for the end of each. */
static void
find_end (Elf_Scn *scn)
{
  GElf_Shdr shdr;
  uint32_t kind;
  struct elfkit_handle *h = core_of (scn->elf);
  if (elfkit_shdr (h, scn->index, &shdr) != 0 || shdr.sh_type != SHT_STRTAB
      || elfkit_kind (h, scn->index, 0, &kind) != 0 || kind != BYTES || !has_home (scn)
      || !lies_in (scn->home.at, scn->home.len, scn->elf->size))
    return;
  const uint8_t *bytes = scn->elf->lent + scn->home.at;
  const uint8_t *last = scn->home.len == 0 ? NULL : memrchr (bytes, 0, scn->home.len);
  scn->has_end = true;
  scn->strings_end = last == NULL ? 0 : last - bytes + 1;
}

void
forget_strings (Elf_Scn *scn)
{
  scn->has_end = false;
  scn->strings_end = 0;
}

/* The number of the refusal of a string at an offset of a section, 0 where there is one. What has
   no end of strings the core refuses, and that without reading it. A library that is built with
   ELFKIT_CHECK compares each answer with the core's. */
static uint32_t
refused_string (Elf_Scn *scn, size_t offset)
{
  uint64_t length;
  if (!scn->has_end)
    find_end (scn);
  if (!scn->has_end)
    return elfkit_string (core_of (scn->elf), scn->index, offset, &length);
  uint32_t number = offset < scn->strings_end ? REFUSED_NOT
                    : offset < scn->home.len ? REFUSED_UNENDED : REFUSED_NO_STRING;
#ifdef ELFKIT_CHECK
  if (elfkit_string (core_of (scn->elf), scn->index, offset, &length) != number)
    abort ();
#endif
  return number;
}

/* The string at an offset of bytes, with its end. */
static char *
string_in (char *bytes, size_t size, size_t offset)
{
  bool has_end = memchr (bytes + offset, 0, size - offset) != NULL;
  return has_end ? bytes + offset : null_with (E_INVALID_INDEX);
}

/* The string at an offset of a section whose data a program made or changed: in the buffer of the
   piece that covers it. */
static char *
own_string (Elf_Scn *scn, size_t offset)
{
  GElf_Shdr shdr;
  if (gelf_getshdr (scn, &shdr) == NULL)
    return NULL;
  if (shdr.sh_type != SHT_STRTAB)
    return null_with (E_INVALID_SECTION);
  if (offset >= shdr.sh_size)
    return null_with (E_OFFSET_RANGE);
  for (const struct elfkit_data *d = &scn->data; d != NULL; d = d->next)
    if (offset >= (uint64_t) d->d.d_off && offset - d->d.d_off < d->d.d_size && d->d.d_buf != NULL)
      return string_in (d->d.d_buf, d->d.d_size, offset - d->d.d_off);
  return null_with (E_INVALID_INDEX);
}

/* The string at an offset of what a compressed section of strings holds, which is taken out once.
   The section stays as it is. */
static char *
unpacked_string (Elf_Scn *scn, size_t offset)
{
  GElf_Chdr chdr;
  if (scn->unpacked == NULL)
    {
      scn->unpacked = (char *) unpack (scn, &chdr);
      if (scn->unpacked == NULL)
        return NULL;
      scn->unpacked_size = chdr.ch_size;
    }
  return offset < scn->unpacked_size ? string_in (scn->unpacked, scn->unpacked_size, offset)
                                     : null_with (E_OFFSET_RANGE);
}

/* Whether a section is one of strings that are compressed. */
static bool
is_packed (const GElf_Shdr *shdr)
{
  return shdr->sh_type == SHT_STRTAB && (shdr->sh_flags & SHF_COMPRESSED) != 0;
}

/* elf_strptr: the string at an offset of a section, which lies where programs see the section; of a
   compressed one in what it holds. */
PUBLIC char *
elf_strptr (Elf *elf, size_t index, size_t offset)
{
#ifndef ELFKIT_CHECK
  /* a place before the end that is known, which is 0 where none is */
  if (elf != NULL && elf->sections != NULL && index < elf->opened
      && offset < elf->sections[index].strings_end)
    return (char *) elf->shown + elf->sections[index].home.at + offset;
#endif
  if (!has_sections (elf))
    return NULL;
  if (index >= elf->shnum)
    return null_with (E_INVALID_INDEX);
  GElf_Shdr shdr;
  Elf_Scn *scn = section_at (elf, index);
  if (!scn->has_end)
    {
      if (gelf_getshdr (scn, &shdr) == NULL)
        return NULL;
      if (is_packed (&shdr))
        return unpacked_string (scn, offset);
    }
  if (scn->is_made || scn->last != NULL || (scn->has_data == 1 && !scn->data.from_core))
    return own_string (scn, offset);
  return has_core (elf) && is_given (refused_string (scn, offset)) && has_home (scn)
         ? (char *) elf->shown + scn->home.at + offset : NULL;
}
