/* versions.c: version records and notes, by their places. Those of a section are the core's; those
   of a chunk of the file are read from its buffer, which is in memory form, and so is a note of a
   section in the machine's order. */
#include "object.h"

#define RECORD(call, type) \
  struct elfkit_data *d = record_of (data, type, offset, sizeof *dst); \
  if (d == NULL) \
    return NULL; \
  if (d->from_core) \
    return has_core (d->elf) && is_given (call (core_of (d->elf), d->scn->index, 0, offset, dst)) \
           ? dst : NULL; \
  memcpy (dst, (const uint8_t *) data->d_buf + offset, sizeof *dst); \
  return dst

/* gelf_getverdef, gelf_getverdaux, gelf_getverneed, gelf_getvernaux: a version definition, one of
   its names, the needs of a file, a needed version. */
PUBLIC GElf_Verdef *gelf_getverdef (Elf_Data *data, int offset, GElf_Verdef *dst)
{ RECORD (elfkit_verdef, ELF_T_VDEF); }
PUBLIC GElf_Verdaux *gelf_getverdaux (Elf_Data *data, int offset, GElf_Verdaux *dst)
{ RECORD (elfkit_verdaux, ELF_T_VDEF); }
PUBLIC GElf_Verneed *gelf_getverneed (Elf_Data *data, int offset, GElf_Verneed *dst)
{ RECORD (elfkit_verneed, ELF_T_VNEED); }
PUBLIC GElf_Vernaux *gelf_getvernaux (Elf_Data *data, int offset, GElf_Vernaux *dst)
{ RECORD (elfkit_vernaux, ELF_T_VNEED); }

/* A note in the buffer, as the core finds one: header, name and descriptor lie in it. Gives the
   place of the next one, 0 at the end, and 0 and an error where they do not lie in it. */
static inline size_t
note_in (const Elf_Data *data, size_t offset, GElf_Nhdr *nhdr, size_t *name, size_t *desc)
{
  const size_t size = data->d_size, mask = data->d_type == ELF_T_NHDR8 ? 7 : 3;
  const uint8_t *at = (const uint8_t *) data->d_buf + offset;
  if (size - offset < sizeof *nhdr)
    return offset == size ? 0 : false_with (E_OFFSET_RANGE);
  uint64_t sizes;               /* of the name and of the descriptor, the least byte first */
  memcpy (&sizes, at, sizeof sizes);
  /* no sum is too large: both sizes have 32 bits */
  size_t name_at = offset + sizeof *nhdr, name_end = name_at + (uint32_t) sizes;
  size_t desc_at = (name_end + mask) & ~mask;
  desc_at = desc_at > size ? size : desc_at;
  size_t desc_end = desc_at + (sizes >> 32), next = (desc_end + mask) & ~mask;
  if (name_end > size || desc_end > size)
    return false_with (E_OFFSET_RANGE);
  memcpy (nhdr, at, sizeof *nhdr);
  *name = name_at;
  *desc = desc_at;
  return next > size ? size : next;
}

/* The same of the core, for a section as the image has it. */
static __attribute__ ((noinline)) size_t
core_note (const struct elfkit_data *d, size_t offset, GElf_Nhdr *nhdr, size_t *name, size_t *desc)
{
  struct elfkit_note x;
  if (!has_core (d->elf)
      || !is_given (elfkit_note (core_of (d->elf), d->scn->index, 0, offset, &x)) || x.found == 0)
    return 0;
  *nhdr = (GElf_Nhdr) { .n_namesz = x.namesz, .n_descsz = x.descsz, .n_type = x.ntype };
  *name = x.name_at;
  *desc = x.desc_at;
  return x.next;
}

#ifdef ELFKIT_CHECK
/* Compares a note that was read in the buffer with the core's. */
static void
check_note (const struct elfkit_data *d, size_t offset, size_t next, const GElf_Nhdr *nhdr,
            const size_t *name, const size_t *desc)
{
  struct elfkit_note x;
  uint32_t number = elfkit_note (core_of (d->elf), d->scn->index, 0, offset, &x);
  if (next == 0 ? (number == REFUSED_NOT) != (offset == d->d.d_size) || (number == 0 && x.found)
      : number != REFUSED_NOT || !x.found || x.next != next || x.namesz != nhdr->n_namesz
          || x.descsz != nhdr->n_descsz || x.ntype != nhdr->n_type || x.name_at != *name
          || x.desc_at != *desc)
    abort ();
}
#endif

/* gelf_getnote: a note, and the place of the next one; 0 at the end and where there is none. */
PUBLIC size_t
gelf_getnote (Elf_Data *data, size_t offset, GElf_Nhdr *nhdr, size_t *name_offset,
              size_t *desc_offset)
{
  if (data == NULL)
    return 0;
  const struct elfkit_data *d = data_of (data);
  if ((data->d_type != ELF_T_NHDR && data->d_type != ELF_T_NHDR8) || d->elf == NULL)
    return false_with (E_INVALID_HANDLE);
  if (data->d_buf == NULL || offset > data->d_size)
    return false_with (E_OFFSET_RANGE);
  if (d->from_core && !d->is_native)
    return core_note (d, offset, nhdr, name_offset, desc_offset);
  size_t next = note_in (data, offset, nhdr, name_offset, desc_offset);
#ifdef ELFKIT_CHECK
  if (d->from_core && has_core (d->elf))
    check_note (d, offset, next, nhdr, name_offset, desc_offset);
#endif
  return next;
}
