/* compress.c: elf_compress and elf_compress_gnu. The data of a section is replaced by what zlib
   makes of it, behind a header that says how long it is: a compression header of the gABI, or that
   of GNU, "ZLIB" and the size in eight bytes, the greatest first. */
#include <zlib.h>

#include "object.h"

/* The size of GNU's header. */
enum { GNU_HEADER = 12 };

/* Whether the flags and the section are such that its data may be replaced. */
static bool
is_open_to (Elf_Scn *scn, unsigned int flags, GElf_Xword other_flags, GElf_Shdr *shdr)
{
  if (flags & ~ELF_CHF_FORCE)
    return false_with (E_INVALID_OPERAND);
  if (!is_elf (scn->elf, 0) || gelf_getshdr (scn, shdr) == NULL)
    return false;
  if (shdr->sh_flags & (SHF_ALLOC | other_flags))
    return false_with (E_INVALID_SECTION_FLAGS);
  if (shdr->sh_type == SHT_NULL || shdr->sh_type == SHT_NOBITS)
    return false_with (E_INVALID_SECTION_TYPE);
  return true;
}

/* Gives a section these bytes, as they stand in the file, in place of its data; they become its
   own. False and an error where there is no memory. */
static bool
replace_data (Elf_Scn *scn, uint8_t *bytes, size_t size, size_t align, Elf_Type type)
{
  Elf *elf = scn->elf;
  uint8_t *native = raw_of (scn) == NULL ? NULL
                    : is_foreign (elf, type) ? translated (elf, type, true, bytes, size) : bytes;
  if (native == NULL)
    {
      free (bytes);
      return false;
    }
  free_pieces (scn);
  const Elf_Data d = { .d_buf = bytes, .d_type = type, .d_version = EV_CURRENT, .d_size = size,
                       .d_align = align };
  *scn->raw = (struct elfkit_data) { .d = d, .scn = scn, .owned = bytes };
  scn->data = (struct elfkit_data) { .d = d, .scn = scn };
  if (native != bytes)
    scn->data.d.d_buf = scn->data.owned = native;
  tie (scn->raw, elf);
  tie (&scn->data, elf);
  scn->last = &scn->data;
  scn->is_made = true;
  forget_strings (scn);
  scn->unpacked = NULL;
  scn->has_data = 1;
  return true;
}

/* Stores a header, and the bytes that it tells of; 1, or -1 and an error. */
static int
replace_section (Elf_Scn *scn, const GElf_Shdr *shdr, uint8_t *bytes, size_t align, Elf_Type type)
{
  if (!put_shdr (scn, shdr))
    {
      free (bytes);
      return -1;
    }
  return replace_data (scn, bytes, shdr->sh_size, align, type) ? 1 : -1;
}

/* ---- Compressing */

/* The pieces of a section together: their size, the greatest of their alignments, and how many
   there are. */
struct whole
{
  size_t size, align, pieces;
};

static bool
measure (Elf_Scn *scn, struct whole *w)
{
  *w = (struct whole) { 0, 0, 0 };
  for (Elf_Data *d = elf_getdata (scn, NULL); d != NULL; d = elf_getdata (scn, d))
    {
      w->size += d->d_size;
      w->pieces++;
      if (d->d_align > w->align)
        w->align = d->d_align;
    }
  return w->pieces > 0;
}

/* Puts a piece into a stream, in the form that it has in the file. */
static bool
put_piece (z_stream *z, const Elf *elf, Elf_Data *d, int flush)
{
  void *bytes = NULL;
  if (is_foreign (elf, d->d_type) && d->d_size > 0)
    {
      bytes = translated (elf, d->d_type, false, d->d_buf, d->d_size);
      if (bytes == NULL)
        return false;
    }
  z->next_in = bytes != NULL ? bytes : d->d_buf;
  z->avail_in = d->d_size;
  int answer = deflate (z, flush);
  free (bytes);
  return (z->avail_in == 0 && answer == (flush == Z_FINISH ? Z_STREAM_END : Z_OK))
         || false_with (E_COMPRESS_ERROR);
}

/* What zlib makes of the data of a section, behind room for a header; NULL and an error where there
   is none. */
static uint8_t *
deflated (Elf_Scn *scn, size_t header, const struct whole *w, size_t *size)
{
  z_stream z = { .next_in = Z_NULL };
  if (w->size > UINT32_MAX / 2 || deflateInit (&z, Z_BEST_COMPRESSION) != Z_OK)
    return null_with (E_COMPRESS_ERROR);
  size_t room = deflateBound (&z, w->size) + 6 * w->pieces;
  uint8_t *bytes = new_bytes (header + room);
  bool done = bytes != NULL;
  z.next_out = done ? bytes + header : NULL;
  z.avail_out = room;
  for (Elf_Data *next, *d = elf_getdata (scn, NULL); done && d != NULL; d = next)
    {
      next = elf_getdata (scn, d);
      done = put_piece (&z, scn->elf, d, next == NULL ? Z_FINISH : Z_NO_FLUSH);
    }
  *size = header + room - z.avail_out;
  deflateEnd (&z);
  if (done)
    return bytes;
  free (bytes);
  return NULL;
}

/* Puts a header before what zlib made of a section: a compression header, or GNU's. */
static bool
put_header (const Elf_Scn *scn, const GElf_Shdr *shdr, const struct whole *w, uint8_t *bytes,
            bool is_gnu)
{
  unsigned int class = scn->elf->class;
  if (is_gnu)
    {
      memcpy (bytes, "ZLIB", 4);
      put_number (bytes + 4, 8, true, w->size);
      return true;
    }
  GElf_Chdr chdr = { .ch_type = ELFCOMPRESS_ZLIB, .ch_size = w->size,
                     .ch_addralign = class == ELFCLASS64 ? shdr->sh_addralign : w->align };
  if (!from_gelf (ELF_T_CHDR, class, bytes, &chdr))
    return false;
  if (is_foreign (scn->elf, ELF_T_CHDR))
    translate (ELF_T_CHDR, class, false, bytes, bytes, item_size (ELF_T_CHDR, class));
  return true;
}

/* Compresses a section: 1, 0 where it would not get shorter, or -1 and an error. */
static int
compress_section (Elf_Scn *scn, GElf_Shdr *shdr, unsigned int flags, bool is_gnu)
{
  const size_t least = 11;      /* what a stream of zlib takes besides */
  size_t header = is_gnu ? GNU_HEADER : item_size (ELF_T_CHDR, scn->elf->class), size = 0;
  struct whole w;
  if (!measure (scn, &w))
    return -1;
  if (!(flags & ELF_CHF_FORCE) && w.pieces == 1 && w.size <= header + least)
    return 0;
  uint8_t *bytes = deflated (scn, header, &w, &size);
  if (bytes == NULL)
    return -1;
  bool is_shorter = (flags & ELF_CHF_FORCE) || size < w.size;
  if (!is_shorter || !put_header (scn, shdr, &w, bytes, is_gnu))
    {
      free (bytes);
      return is_shorter ? -1 : 0;
    }
  shdr->sh_size = size;
  if (!is_gnu)
    {
      shdr->sh_addralign = item_align (ELF_T_CHDR, scn->elf->class);
      shdr->sh_flags |= SHF_COMPRESSED;
    }
  return replace_section (scn, shdr, bytes, 1, is_gnu ? ELF_T_BYTE : ELF_T_CHDR);
}

/* ---- Taking out */

/* So many bytes that streams of zlib hold, one behind the other; NULL and an error where they hold
   others. */
static uint8_t *
inflated (const uint8_t *from, size_t from_size, uint64_t size)
{
  const uint64_t most = 1032;   /* zlib makes nothing smaller by more */
  if (size / most > from_size || size > UINT32_MAX || from_size > UINT32_MAX)
    return null_with (E_INVALID_DATA);
  uint8_t *bytes = new_bytes (size);
  if (bytes == NULL)
    return NULL;
  z_stream z = { .next_in = (uint8_t *) from, .avail_in = from_size, .next_out = bytes,
                 .avail_out = size };
  int answer = inflateInit (&z);
  while (z.avail_in > 0 && answer == Z_OK)
    answer = inflate (&z, Z_FINISH) == Z_STREAM_END ? inflateReset (&z) : Z_DATA_ERROR;
  bool whole = answer == Z_OK && z.avail_out == 0;
  inflateEnd (&z);
  if (whole)
    return bytes;
  free (bytes);
  return null_with (E_DECOMPRESS_ERROR);
}

uint8_t *
unpack (Elf_Scn *scn, GElf_Chdr *chdr)
{
  if (gelf_getchdr (scn, chdr) == NULL)
    return NULL;
  if (chdr->ch_type != ELFCOMPRESS_ZLIB)
    return null_with (E_UNKNOWN_COMPRESSION_TYPE);
  if (!is_power (chdr->ch_addralign))
    return null_with (E_INVALID_ALIGN);
  const Elf_Data *d = elf_getdata (scn, NULL);
  size_t header = item_size (ELF_T_CHDR, scn->elf->class);
  return inflated ((uint8_t *) d->d_buf + header, d->d_size - header, chdr->ch_size);
}

/* Takes the data of a section out that stands behind a compression header. */
static int
take_out (Elf_Scn *scn, GElf_Shdr *shdr)
{
  GElf_Chdr chdr;
  uint8_t *bytes = unpack (scn, &chdr);
  if (bytes == NULL)
    return -1;
  shdr->sh_size = chdr.ch_size;
  shdr->sh_addralign = chdr.ch_addralign;
  shdr->sh_flags &= ~(GElf_Xword) SHF_COMPRESSED;
  return replace_section (scn, shdr, bytes, chdr.ch_addralign, section_type (shdr));
}

/* The same behind GNU's header. */
static int
take_gnu_out (Elf_Scn *scn, GElf_Shdr *shdr)
{
  const size_t least = 11;
  const Elf_Data *d = elf_getdata (scn, NULL);
  if (d == NULL)
    return -1;
  if (d->d_size < GNU_HEADER || memcmp (d->d_buf, "ZLIB", 4) != 0)
    return negative_with (E_NOT_COMPRESSED);
  uint64_t size = number_at ((uint8_t *) d->d_buf + 4, 8, true);
  if (size < d->d_size && d->d_size - size > GNU_HEADER + least)
    return negative_with (E_NOT_COMPRESSED);
  uint8_t *bytes = inflated ((uint8_t *) d->d_buf + GNU_HEADER, d->d_size - GNU_HEADER, size);
  if (bytes == NULL)
    return -1;
  shdr->sh_size = size;
  return replace_section (scn, shdr, bytes, shdr->sh_addralign, section_type (shdr));
}

/* elf_compress: with ELFCOMPRESS_ZLIB the data of a section is compressed, with 0 taken out. 1
   where it is done, 0 where it would not get shorter, unless ELF_CHF_FORCE says that it may. */
PUBLIC int
elf_compress (Elf_Scn *scn, int type, unsigned int flags)
{
  GElf_Shdr shdr;
  if (scn == NULL || !is_open_to (scn, flags, 0, &shdr))
    return -1;
  if (type == 0)
    return take_out (scn, &shdr);
  if (type != ELFCOMPRESS_ZLIB)
    return negative_with (E_UNKNOWN_COMPRESSION_TYPE);
  return (shdr.sh_flags & SHF_COMPRESSED) ? negative_with (E_ALREADY_COMPRESSED)
                                          : compress_section (scn, &shdr, flags, false);
}

/* elf_compress_gnu: the same in GNU's form, which the section header does not tell: 1 compresses, 0
   takes out. */
PUBLIC int
elf_compress_gnu (Elf_Scn *scn, int compress, unsigned int flags)
{
  GElf_Shdr shdr;
  if (scn == NULL || !is_open_to (scn, flags, SHF_COMPRESSED, &shdr))
    return -1;
  if (compress != 0 && compress != 1)
    return negative_with (E_UNKNOWN_COMPRESSION_TYPE);
  return compress == 0 ? take_gnu_out (scn, &shdr) : compress_section (scn, &shdr, flags, true);
}
