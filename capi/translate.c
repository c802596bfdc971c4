/* translate.c: translation between the orders, of whole buffers. The core translates items; the
   layer knows which items a type consists of. A record of several kinds of numbers is a run of
   numbers of one width after another, and some types are lists of records of several sizes, which
   are walked. */
#include "object.h"

/* The widths of the fields of an item, for class 32 and class 64, where the core has no such
   items. */
static const char *const fields[ELF_T_NUM][2] = {
  [ELF_T_EHDR] = { "11111111111111112244444222222", "11111111111111112248884222222" },
  [ELF_T_OFF] = { "4", "8" },
  [ELF_T_PHDR] = { "44444444", "44888888" },
  [ELF_T_SHDR] = { "4444444444", "4488884488" },
  [ELF_T_SWORD] = { "4", "4" },
  [ELF_T_XWORD] = { "8", "8" },
  [ELF_T_SXWORD] = { "8", "8" },
  [ELF_T_VDAUX] = { "44", "44" },
  [ELF_T_VNAUX] = { "42244", "42244" },
  [ELF_T_SYMINFO] = { "22", "22" },
  [ELF_T_MOVE] = { "844221111", "888221111" },
  [ELF_T_LIB] = { "44444", "44444" },
  [ELF_T_AUXV] = { "44", "88" },
  [ELF_T_CHDR] = { "444", "4488" },
};

/* Copies whole items of a kind, and has the core translate them there, a page at a time, while it
   is in the processor's cache. The core rejects no whole items. */
static void
translate_items (unsigned int kind, unsigned int class, bool to_memory, uint8_t *bytes,
                 const uint8_t *from, size_t size)
{
  const unsigned int foreign = NATIVE_ORDER == ELFDATA2LSB ? ELFDATA2MSB : ELFDATA2LSB;
  const size_t page = 3 * 2048; /* which the size of each item divides */
  for (size_t n; size > 0; bytes += n, from += n, size -= n)
    {
      n = size < page ? size : page;
      if (bytes != from)
        memcpy (bytes, from, n);
      elfkit_translate (kind, class, to_memory ? foreign : NATIVE_ORDER,
                        to_memory ? NATIVE_ORDER : foreign, bytes, n);
    }
}

/* Translates so many numbers of a width. */
static void
translate_numbers (unsigned int width, bool to_memory, uint8_t *bytes, size_t count)
{
  static const uint8_t by_width[9] = { [2] = HALVES, [4] = WORDS, [8] = ADDRESSES };
  if (width > 1)
    translate_items (by_width[width], ELFCLASS64, to_memory, bytes, bytes, width * count);
}

/* Translates the fields of one record where they are. */
static void
translate_fields (bool to_memory, uint8_t *at, const char *widths)
{
  while (*widths != '\0')
    {
      size_t count = 1;
      while (widths[count] == widths[0])
        count++;
      unsigned int width = widths[0] - '0';
      translate_numbers (width, to_memory, at, count);
      at += width * count;
      widths += count;
    }
}

static uint32_t
word (const uint8_t *at)
{
  uint32_t x;
  memcpy (&x, at, sizeof x);
  return x;
}

static uint16_t
half (const uint8_t *at)
{
  uint16_t x;
  memcpy (&x, at, sizeof x);
  return x;
}

/* Translates a record, and gives its native form, by which the walk goes on. */
static void
translate_record (bool to_memory, uint8_t *at, const char *widths, uint8_t *native, size_t size)
{
  if (!to_memory)
    memcpy (native, at, size);
  translate_fields (to_memory, at, widths);
  if (to_memory)
    memcpy (native, at, size);
}

/* How records lead to others: each to a list behind it, and to the next one. */
struct chain
{
  const char *widths;
  size_t count_at, aux_at, next_at;
  const char *aux_widths;
  size_t aux_next_at;
};

static const struct chain definitions = { "2222444", 6, 12, 16, "44", 4 };
static const struct chain needs = { "22444", 2, 8, 12, "42244", 12 };

/* The list behind a record. All lists together have no more records than have room in the bytes. */
static void
translate_list (const struct chain *c, bool to_memory, uint8_t *bytes, size_t size, size_t at,
                unsigned int count, size_t *left)
{
  size_t record = c->aux_next_at + 4;
  uint8_t native[16];
  while (count-- > 0 && lies_in (at, record, size) && *left > 0)
    {
      --*left;
      translate_record (to_memory, bytes + at, c->aux_widths, native, record);
      if (word (native + c->aux_next_at) == 0)
        break;
      at += word (native + c->aux_next_at);
    }
}

/* A list of records, each with a list of others behind it. A record that does not lie in the bytes
   ends its list; what is reached by no way is left as it is. */
static void
translate_chains (const struct chain *c, bool to_memory, uint8_t *bytes, size_t size)
{
  size_t record = c->next_at + 4, left = size / (c->aux_next_at + 4), more = size / record;
  uint8_t native[20];
  for (size_t at = 0; more > 0 && lies_in (at, record, size); more--)
    {
      translate_record (to_memory, bytes + at, c->widths, native, record);
      if (word (native + c->aux_at) != 0)
        translate_list (c, to_memory, bytes, size, at + word (native + c->aux_at),
                        half (native + c->count_at), &left);
      if (word (native + c->next_at) == 0)
        break;
      at += word (native + c->next_at);
    }
}

/* Notes: three words each, then a name and a descriptor, aligned to 4 or 8 bytes. */
static void
translate_notes (bool to_memory, uint8_t *bytes, size_t size, size_t align)
{
  uint8_t native[12];
  for (size_t at = 0; lies_in (at, sizeof native, size);)
    {
      translate_record (to_memory, bytes + at, "444", native, sizeof native);
      size_t name = at + sizeof native;
      if (!lies_in (name, word (native), size))
        break;
      size_t desc = round_up (name + word (native), align);
      if (!lies_in (desc, word (native + 4), size))
        break;
      at = round_up (desc + word (native + 4), align);
    }
}

/* GNU's hash section: four words, as many bloom words as the third says, and words. */
static void
translate_gnu_hash (unsigned int class, bool to_memory, uint8_t *bytes, size_t size)
{
  uint8_t native[16] = { 0 };
  size_t at = size < sizeof native ? 0 : sizeof native;
  if (at > 0)
    translate_record (to_memory, bytes, "4444", native, sizeof native);
  size_t bloom = class == ELFCLASS64 ? word (native + 8) : 0;
  if (bloom > (size - at) / 8)
    bloom = (size - at) / 8;
  translate_numbers (8, to_memory, bytes + at, bloom);
  translate_numbers (4, to_memory, bytes + at + 8 * bloom, (size - at - 8 * bloom) / 4);
}

/* Items of one size, and no more than whole ones: at once where all their numbers have one
   width. */
static void
translate_records (Elf_Type type, unsigned int class, bool to_memory, uint8_t *bytes, size_t size)
{
  const char *widths = fields[type][class == ELFCLASS64];
  size_t record = item_size (type, class);
  size -= size % record;
  if (widths == NULL)
    return;
  unsigned int width = widths[0] - '0';
  if (strspn (widths, (char[]) { widths[0], '\0' }) == strlen (widths))
    translate_numbers (width, to_memory, bytes, size / width);
  else
    for (size_t at = 0; at < size; at += record)
      translate_fields (to_memory, bytes + at, widths);
}

void
translate (Elf_Type type, unsigned int class, bool to_memory, void *to, const void *from,
           size_t size)
{
  size_t rest = types[type].kind == 0 ? size : size % item_size (type, class);
  uint8_t *end = (uint8_t *) to + (size - rest);
  if (to != from && rest > 0)
    memcpy (end, (const uint8_t *) from + (size - rest), rest);
  if (types[type].kind != 0)
    translate_items (types[type].kind, class, to_memory, to, from, size - rest);
  else if (type == ELF_T_VDEF || type == ELF_T_VNEED)
    translate_chains (type == ELF_T_VDEF ? &definitions : &needs, to_memory, to, size);
  else if (type == ELF_T_NHDR || type == ELF_T_NHDR8)
    translate_notes (to_memory, to, size, type == ELF_T_NHDR ? 4 : 8);
  else if (type == ELF_T_GNUHASH)
    translate_gnu_hash (class, to_memory, to, size);
  else if (type != ELF_T_CHDR)
    translate_records (type, class, to_memory, to, size);
  else if (size >= item_size (type, class))
    translate_fields (to_memory, to, fields[type][class == ELFCLASS64]);
}

void *
translated (const Elf *elf, Elf_Type type, bool to_memory, const void *from, size_t size)
{
  void *made = new_bytes (size);
  if (made != NULL)
    translate (type, elf->class, to_memory, made, from, size);
  return made;
}

/* elf32_xlatetom and its like: what the source holds goes into the destination, in the other form.
   The two buffers are the same or apart. */
static Elf_Data *
xlate (Elf_Data *dest, const Elf_Data *src, unsigned int encode, unsigned int class,
       bool to_memory)
{
  if (dest == NULL || src == NULL)
    return NULL;
  if (item_size (src->d_type, class) == 0)
    return null_with (E_UNKNOWN_TYPE);
  if (!is_whole (src->d_type, class, src->d_size))
    return null_with (E_INVALID_DATA);
  if (dest->d_size < src->d_size)
    return null_with (E_DEST_SIZE);
  if (encode != ELFDATA2LSB && encode != ELFDATA2MSB)
    return null_with (E_INVALID_ENCODING);
  if (encode != NATIVE_ORDER)
    translate (src->d_type, class, to_memory, dest->d_buf, src->d_buf, src->d_size);
  else if (dest->d_buf != src->d_buf)
    memmove (dest->d_buf, src->d_buf, src->d_size);
  dest->d_type = src->d_type;
  dest->d_size = src->d_size;
  return dest;
}

PUBLIC Elf_Data *elf32_xlatetom (Elf_Data *dest, const Elf_Data *src, unsigned int encode)
{ return xlate (dest, src, encode, ELFCLASS32, true); }
PUBLIC Elf_Data *elf64_xlatetom (Elf_Data *dest, const Elf_Data *src, unsigned int encode)
{ return xlate (dest, src, encode, ELFCLASS64, true); }
PUBLIC Elf_Data *elf32_xlatetof (Elf_Data *dest, const Elf_Data *src, unsigned int encode)
{ return xlate (dest, src, encode, ELFCLASS32, false); }
PUBLIC Elf_Data *elf64_xlatetof (Elf_Data *dest, const Elf_Data *src, unsigned int encode)
{ return xlate (dest, src, encode, ELFCLASS64, false); }
PUBLIC Elf_Data *gelf_xlatetom (Elf *elf, Elf_Data *dest, const Elf_Data *src, unsigned int encode)
{ return elf == NULL ? NULL : xlate (dest, src, encode, elf->class, true); }
PUBLIC Elf_Data *gelf_xlatetof (Elf *elf, Elf_Data *dest, const Elf_Data *src, unsigned int encode)
{ return elf == NULL ? NULL : xlate (dest, src, encode, elf->class, false); }
