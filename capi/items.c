/* items.c: the items of data, one by one. Those of a section are the core's. Where the buffer of
   its data has them in the very form that is asked for, that of class 64 in the machine's own
   order, they are read there, and so are those of a chunk of the file and of data that was
   changed. A library that is built with ELFKIT_CHECK compares each item of a section with the
   core's. */
#include "object.h"

/* Whether an item is asked of the core: of a section as the image has it, and in another form than
   the one that is asked for. Numbers have one form in both classes. */
static inline bool
is_asked (const struct elfkit_data *d, Elf_Type type)
{
  bool has_form = d->is_native && (d->is_64 || type == ELF_T_HALF || type == ELF_T_WORD);
  return !has_form && d->from_core && types[type].kind != 0;
}

/* The core's item at an index. */
static uint32_t
core_item (const struct elfkit_data *d, uint64_t i, void *dst)
{
  struct elfkit_handle *h = core_of (d->elf);
  switch (d->d.d_type)
    {
    case ELF_T_SYM:
      return elfkit_sym (h, d->scn->index, 0, i, dst);
    case ELF_T_REL:
      return elfkit_rel (h, d->scn->index, 0, i, dst);
    case ELF_T_RELA:
      return elfkit_rela (h, d->scn->index, 0, i, dst);
    case ELF_T_DYN:
      return elfkit_dyn (h, d->scn->index, 0, i, dst);
    case ELF_T_HALF:
      return elfkit_half (h, d->scn->index, 0, i, dst);
    default:
      return elfkit_word (h, d->scn->index, 0, i, dst);
    }
}

/* Compares an item that was read in the buffer with the core's. */
static inline void
check_item (const struct elfkit_data *d, int ndx, const void *dst, size_t size)
{
#ifdef ELFKIT_CHECK
  uint64_t item[sizeof (GElf_Move) / sizeof (uint64_t)];        /* the longest one */
  if (d->from_core && types[d->d.d_type].kind != 0 && has_core (d->elf)
      && (core_item (d, ndx, item) != REFUSED_NOT || memcmp (item, dst, size) != 0))
    abort ();
#else
  (void) d, (void) ndx, (void) dst, (void) size;
#endif
}

/* The item at an index, which the buffer has in another form than that of gelf(3E), or has not. */
static void *
other_item (Elf_Data *data, Elf_Type type, int ndx, void *dst, size_t size)
{
  struct elfkit_data *d = item_of (data, type, ndx);
  if (d == NULL)
    return NULL;
  if (is_asked (d, type))
    return has_core (d->elf) && is_given (core_item (d, ndx, dst)) ? dst : NULL;
  to_gelf (type, d->is_64 ? ELFCLASS64 : ELFCLASS32, dst, at_index (d, type, ndx));
  check_item (d, ndx, dst, size);
  return dst;
}

/* The item at an index, of so many bytes in the form of gelf(3E). */
static inline void *
get_item (Elf_Data *data, Elf_Type type, int ndx, void *dst, size_t size)
{
  const struct elfkit_data *d = data_of (data);
  const size_t at = (size_t) ndx * size;        /* no size is so great as a place below 0 */
  if (d == NULL || d->d.d_type != type || !d->has_form || d->d.d_buf == NULL
      || at + (size - 1) >= d->d.d_size)
    return other_item (data, type, ndx, dst, size);
  memcpy (dst, (const uint8_t *) d->d.d_buf + at, size);
  check_item (d, ndx, dst, size);
  return dst;
}

/* gelf_getsym: a symbol. */
PUBLIC GElf_Sym *gelf_getsym (Elf_Data *data, int ndx, GElf_Sym *dst)
{ return get_item (data, ELF_T_SYM, ndx, dst, sizeof *dst); }

/* gelf_getsymshndx: a symbol, and its word in the table of extended indexes, 0 without one. */
PUBLIC GElf_Sym *
gelf_getsymshndx (Elf_Data *symdata, Elf_Data *shndxdata, int ndx, GElf_Sym *sym,
                  Elf32_Word *xshndx)
{
  Elf32_Word index = 0;
  if (symdata == NULL
      || (shndxdata != NULL
          && get_item (shndxdata, ELF_T_WORD, ndx, &index, sizeof index) == NULL)
      || gelf_getsym (symdata, ndx, sym) == NULL)
    return NULL;
  if (xshndx != NULL)
    *xshndx = index;
  return sym;
}

/* gelf_getrel, gelf_getrela: a relocation, without an addend and with one. */
PUBLIC GElf_Rel *gelf_getrel (Elf_Data *data, int ndx, GElf_Rel *dst)
{ return get_item (data, ELF_T_REL, ndx, dst, sizeof *dst); }
PUBLIC GElf_Rela *gelf_getrela (Elf_Data *data, int ndx, GElf_Rela *dst)
{ return get_item (data, ELF_T_RELA, ndx, dst, sizeof *dst); }

/* gelf_getdyn: an entry of the dynamic section. */
PUBLIC GElf_Dyn *gelf_getdyn (Elf_Data *data, int ndx, GElf_Dyn *dst)
{ return get_item (data, ELF_T_DYN, ndx, dst, sizeof *dst); }

/* gelf_getversym: the version of a symbol. */
PUBLIC GElf_Versym *gelf_getversym (Elf_Data *data, int ndx, GElf_Versym *dst)
{ return get_item (data, ELF_T_HALF, ndx, dst, sizeof *dst); }

/* gelf_getauxv: an entry of the auxiliary vector, which is of no section. */
PUBLIC GElf_auxv_t *gelf_getauxv (Elf_Data *data, int ndx, GElf_auxv_t *dst)
{ return get_item (data, ELF_T_AUXV, ndx, dst, sizeof *dst); }

/* gelf_getlib, gelf_getmove, gelf_getsyminfo: records that the core does not know. */
PUBLIC GElf_Lib *gelf_getlib (Elf_Data *data, int ndx, GElf_Lib *dst)
{ return get_item (data, ELF_T_LIB, ndx, dst, sizeof *dst); }
PUBLIC GElf_Move *gelf_getmove (Elf_Data *data, int ndx, GElf_Move *dst)
{ return get_item (data, ELF_T_MOVE, ndx, dst, sizeof *dst); }
PUBLIC GElf_Syminfo *gelf_getsyminfo (Elf_Data *data, int ndx, GElf_Syminfo *dst)
{ return get_item (data, ELF_T_SYMINFO, ndx, dst, sizeof *dst); }
