/* data.c: the data of a section, raw and in memory form, and chunks of the file. Of an image in the
   machine's own order the data is what programs see of the image, where it lies aligned; else the
   layer makes a buffer. */
#define _GNU_SOURCE
#include <search.h>

#include "object.h"

/* Whether programs write into the data: libdwfl does, of relocatable images. */
static bool
is_written (const Elf *elf)
{
  return ((const Elf64_Ehdr *) elf->ehdr)->e_type == ET_REL;
}

/* The bytes of a range in memory form; NULL and an error where there is no memory. What was made
   goes into *owned. */
static void *
in_memory (Elf *elf, Elf_Type type, uint64_t at, size_t size, void **owned)
{
  uint8_t *shown = elf->shown + at;
  *owned = NULL;
  if (!is_foreign (elf, type) && ((uintptr_t) shown & (item_align (type, elf->class) - 1)) == 0
      && (elf->memory != BORROWED || !is_written (elf)))
    return shown;
  return *owned = is_foreign (elf, type) ? translated (elf, type, true, shown, size)
                                         : new_copy (shown, size);
}

/* The alignment of a section's data: that of its header, but where it stands before such a place no
   more than the power of two from its own place on, as elfutils tells it. */
static size_t
section_align (const GElf_Shdr *shdr, unsigned int class)
{
  size_t align = shdr->sh_addralign == 0 ? 1 : shdr->sh_addralign;
  if (shdr->sh_flags & SHF_COMPRESSED)
    align = item_align (ELF_T_CHDR, class);
  if (shdr->sh_type == SHT_NOBITS || align <= shdr->sh_offset)
    return align;
  if (shdr->sh_offset == 0)
    return 0;
  for (align = 1; align != 0 && align < shdr->sh_offset;)
    align *= 2;                 /* 0 behind the last power of two */
  return align;
}

/* Makes data that of an image. */
void
tie (struct elfkit_data *d, Elf *elf)
{
  d->elf = elf;
  d->is_64 = elf->class == ELFCLASS64;
  d->is_native = elf->order == NATIVE_ORDER;
  d->has_form = d->is_64 && d->is_native;
}

struct elfkit_data *
raw_of (Elf_Scn *scn)
{
  if (scn->raw == NULL && (scn->raw = new_zeros (sizeof *scn->raw)) != NULL)
    {
      scn->elf->has_parts = true;
      scn->raw->scn = scn;
      tie (scn->raw, scn->elf);
    }
  return scn->raw;
}

/* The raw bytes of a section. */
static bool
make_raw (Elf_Scn *scn)
{
  GElf_Shdr shdr;
  if (!has_home (scn) || !opened_shdr (scn, &shdr))
    return false;
  if (!lies_in (scn->home.at, scn->home.len, scn->elf->size) && scn->home.len > 0)
    return false_with (E_INVALID_SECTION_HEADER);
  bool none = shdr.sh_type == SHT_NOBITS || scn->home.len == 0;
  if (raw_of (scn) == NULL)
    return false;
  scn->raw->d = (Elf_Data) { .d_buf = none ? NULL : scn->elf->shown + scn->home.at,
                            .d_type = section_type (&shdr), .d_version = EV_CURRENT,
                            .d_size = shdr.sh_type == SHT_NOBITS ? shdr.sh_size : scn->home.len,
                            .d_align = section_align (&shdr, scn->elf->class) };
  return true;
}

/* elf_rawdata: the bytes of a section as they stand in the file; it has one piece. */
PUBLIC Elf_Data *
elf_rawdata (Elf_Scn *scn, Elf_Data *data)
{
  if (scn == NULL)
    return null_with (E_INVALID_HANDLE);
  if (data != NULL)
    return scn->raw != NULL && data == &scn->raw->d ? NULL : null_with (E_INVALID_OPERAND);
  int error = scn->raw_error;
  if (scn->raw == NULL && error == E_NONE
      && !(scn->is_made ? raw_of (scn) != NULL : make_raw (scn)))
    error = elf_errno ();
  if (error != E_NOMEM)
    scn->raw_error = error;
  return scn->raw != NULL ? &scn->raw->d : null_with (error);
}

/* Whether the core says that a section has such items; an error where it does not. */
static bool
has_items (Elf_Scn *scn, Elf_Type type)
{
  uint32_t kind;
  if (!has_core (scn->elf) || !is_given (elfkit_kind (core_of (scn->elf), scn->index, 0, &kind)))
    return false;
  return kind == (types[type].kind != 0 ? types[type].kind : BYTES) || false_with (E_INVALID_DATA);
}

/* The data of a section. */
static bool
make_data (Elf_Scn *scn)
{
  if (elf_rawdata (scn, NULL) == NULL)
    return false;
  scn->data.d = scn->raw->d;
  scn->data.scn = scn;
  tie (&scn->data, scn->elf);
  scn->data.from_core = true;
  const Elf_Data *raw = &scn->raw->d;
  if (raw->d_buf == NULL)
    return true;
  if (!has_items (scn, raw->d_type))
    return false;
  if (!is_whole (raw->d_type, scn->elf->class, raw->d_size))
    return false_with (E_INVALID_DATA);
  scn->data.d.d_buf = in_memory (scn->elf, raw->d_type, scn->home.at, raw->d_size,
                                 &scn->data.owned);
  return scn->data.d.d_buf != NULL;
}

/* The piece after one of a section. */
static Elf_Data *
next_piece (Elf_Scn *scn, const Elf_Data *data)
{
  for (struct elfkit_data *d = &scn->data; d != NULL; d = d->next)
    if (&d->d == data)
      return d->next == NULL ? NULL : &d->next->d;
  return null_with (E_DATA_MISMATCH);
}

/* elf_getdata: the data of a section in memory form; it has one piece, and those that a program
   added. */
PUBLIC Elf_Data *
elf_getdata (Elf_Scn *scn, Elf_Data *data)
{
  if (scn == NULL)
    return NULL;
  if (data != NULL)
    return next_piece (scn, data);
  if (scn->is_made)
    return &scn->data.d;
  int error = scn->data_error;
  if (scn->has_data == 0)
    {
      bool is_there = make_data (scn);
      error = is_there ? E_NONE : elf_errno ();
      scn->has_data = is_there ? 1 : error == E_NOMEM ? 0 : 2;
      scn->data_error = error;
    }
  return scn->has_data == 1 ? &scn->data.d : null_with (error);
}

/* The order of the chunks of a file, which stand in a tree. */
static int
compare_chunks (const void *left, const void *right)
{
  const Elf_Data *a = &((const Elf_Scn *) left)->data.d;
  const Elf_Data *b = &((const Elf_Scn *) right)->data.d;
  if (a->d_off != b->d_off)
    return a->d_off < b->d_off ? -1 : 1;
  if (a->d_size != b->d_size)
    return a->d_size < b->d_size ? -1 : 1;
  return (int) a->d_type - (int) b->d_type;
}

static void
free_chunk (void *chunk)
{
  free_pieces (chunk);
  free (chunk);
}

void
free_pieces (Elf_Scn *scn)
{
  free (scn->data.owned);
  if (scn->raw != NULL)
    free (scn->raw->owned);
  free (scn->unpacked);
  for (struct elfkit_data *next, *d = scn->data.next; d != NULL; d = next)
    {
      next = d->next;
      free (d);
    }
}

void
free_chunks (Elf *elf)
{
  tdestroy (elf->chunks, free_chunk);
}

/* Makes a chunk of the file; NULL and an error where there is no memory. */
static Elf_Scn *
make_chunk (Elf *elf, int64_t offset, size_t size, Elf_Type type)
{
  Elf_Scn *made = is_apart (elf) ? new_zeros (sizeof *made) : NULL;
  if (made == NULL)
    return NULL;
  made->elf = elf;
  made->data.scn = made;
  tie (&made->data, elf);
  made->data.d = (Elf_Data) { .d_type = type, .d_version = EV_CURRENT, .d_size = size,
                              .d_off = offset, .d_align = item_align (type, elf->class) };
  made->data.d.d_buf = in_memory (elf, type, offset, size, &made->data.owned);
  if (made->data.d.d_buf == NULL)
    {
      free (made);
      return NULL;
    }
  if (tsearch (made, &elf->chunks, compare_chunks) == NULL)
    {
      free_chunk (made);
      return null_with (E_NOMEM);
    }
  return made;
}

/* elf_getdata_rawchunk: a range of the file as data of no section; the same data for the same range
   and type. */
PUBLIC Elf_Data *
elf_getdata_rawchunk (Elf *elf, int64_t offset, size_t size, Elf_Type type)
{
  if (elf == NULL)
    return NULL;
  if (elf->kind != ELF_K_ELF)
    return null_with (E_INVALID_HANDLE);
  if (elf->is_bare || offset < 0 || !lies_in (offset, size, elf->size))
    return null_with (E_INVALID_OP);
  if ((unsigned int) type >= ELF_T_NUM)
    return null_with (E_UNKNOWN_TYPE);
  Elf_Scn key = { .data.d = { .d_off = offset, .d_size = size, .d_type = type } };
  Elf_Scn **found = tfind (&key, &elf->chunks, compare_chunks), *chunk;
  chunk = found != NULL ? *found : make_chunk (elf, offset, size, type);
  return chunk == NULL ? NULL : &chunk->data.d;
}
