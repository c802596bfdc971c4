/* updates.c: items and records are stored in the buffer of data, where they are read from then on:
   it is no longer what the core has. */
#include "object.h"

/* Whether data is a program's own, that of elf_newdata. */
static bool
is_own (const struct elfkit_data *d)
{
  return d != d->scn->raw && (d->scn->is_made || d != &d->scn->data);
}

/* The data, with a buffer that may be written: a copy, where it lies in an image that the core
   reads. NULL where there is no memory, or no data. */
static struct elfkit_data *
writable (struct elfkit_data *d)
{
  if (d == NULL || may_write (d->elf) || d->owned != NULL || is_own (d))
    return d;
  d->owned = new_copy (d->d.d_buf, d->d.d_size);
  if (d->owned == NULL)
    return NULL;
  d->d.d_buf = d->owned;        /* -fanalyzer: the data owns the copy, and free_pieces frees it */
  return d;
}

/* Notes that the data differs from what the core has. */
static int
stored (struct elfkit_data *d)
{
  d->from_core = false;
  d->flags |= ELF_F_DIRTY;
  return 1;
}

/* Whether data is of another type than what is to be stored, which is an error. */
static bool
is_other (const Elf_Data *data, Elf_Type type)
{
  return data != NULL && data->d_type != type && !false_with (E_DATA_MISMATCH);
}

/* Stores an item at an index, which is given in the form of gelf(3E). */
static int
store_item (Elf_Data *data, Elf_Type type, int ndx, const void *src)
{
  if (is_other (data, type))
    return 0;
  struct elfkit_data *d = writable (item_of (data, type, ndx));
  if (d == NULL
      || !from_gelf (type, d->is_64 ? ELFCLASS64 : ELFCLASS32, at_index (d, type, ndx), src))
    return 0;
  return stored (d);
}

/* gelf_update_sym, gelf_update_symshndx: a symbol, and its extended index. */
PUBLIC int gelf_update_sym (Elf_Data *data, int ndx, GElf_Sym *src)
{ return store_item (data, ELF_T_SYM, ndx, src); }

PUBLIC int
gelf_update_symshndx (Elf_Data *symdata, Elf_Data *shndxdata, int ndx, GElf_Sym *sym,
                      Elf32_Word xshndx)
{
  if (shndxdata != NULL && writable (item_of (shndxdata, ELF_T_WORD, ndx)) == NULL)
    return 0;
  if (shndxdata == NULL && xshndx != 0)
    return false_with (E_INVALID_INDEX);
  return gelf_update_sym (symdata, ndx, sym)
         && (shndxdata == NULL || store_item (shndxdata, ELF_T_WORD, ndx, &xshndx));
}

/* gelf_update_rel, gelf_update_rela: a relocation. */
PUBLIC int gelf_update_rel (Elf_Data *data, int ndx, GElf_Rel *src)
{ return store_item (data, ELF_T_REL, ndx, src); }
PUBLIC int gelf_update_rela (Elf_Data *data, int ndx, GElf_Rela *src)
{ return store_item (data, ELF_T_RELA, ndx, src); }

/* gelf_update_dyn: an entry of the dynamic section. */
PUBLIC int gelf_update_dyn (Elf_Data *data, int ndx, GElf_Dyn *src)
{ return store_item (data, ELF_T_DYN, ndx, src); }

/* gelf_update_versym: the version of a symbol. */
PUBLIC int gelf_update_versym (Elf_Data *data, int ndx, GElf_Versym *src)
{ return store_item (data, ELF_T_HALF, ndx, src); }

/* gelf_update_syminfo, gelf_update_lib, gelf_update_move: Sun's and GNU's records. */
PUBLIC int gelf_update_syminfo (Elf_Data *data, int ndx, GElf_Syminfo *src)
{ return store_item (data, ELF_T_SYMINFO, ndx, src); }
PUBLIC int gelf_update_lib (Elf_Data *data, int ndx, GElf_Lib *src)
{ return store_item (data, ELF_T_LIB, ndx, src); }
PUBLIC int gelf_update_move (Elf_Data *data, int ndx, GElf_Move *src)
{ return store_item (data, ELF_T_MOVE, ndx, src); }

/* gelf_update_auxv: an entry of the auxiliary vector. */
PUBLIC int gelf_update_auxv (Elf_Data *data, int ndx, GElf_auxv_t *src)
{ return store_item (data, ELF_T_AUXV, ndx, src); }

/* A record of both classes at a place. */
static int
store_record (Elf_Data *data, Elf_Type type, int offset, const void *src, size_t size)
{
  struct elfkit_data *d
    = is_other (data, type) ? NULL : writable (record_of (data, type, offset, size));
  if (d == NULL)
    return 0;
  memcpy ((uint8_t *) data->d_buf + offset, src, size);
  return stored (d);
}

/* gelf_update_verdef and its like: version records. */
PUBLIC int gelf_update_verdef (Elf_Data *data, int offset, GElf_Verdef *src)
{ return store_record (data, ELF_T_VDEF, offset, src, sizeof *src); }
PUBLIC int gelf_update_verdaux (Elf_Data *data, int offset, GElf_Verdaux *src)
{ return store_record (data, ELF_T_VDEF, offset, src, sizeof *src); }
PUBLIC int gelf_update_verneed (Elf_Data *data, int offset, GElf_Verneed *src)
{ return store_record (data, ELF_T_VNEED, offset, src, sizeof *src); }
PUBLIC int gelf_update_vernaux (Elf_Data *data, int offset, GElf_Vernaux *src)
{ return store_record (data, ELF_T_VNEED, offset, src, sizeof *src); }
