/* records.c: the records that differ between the classes, in their own form and in that of
   gelf(3E), which is that of class 64. Each is a list of fields; what they hold is the same in both
   forms, and of class 32 has to fit four bytes. */
#include "object.h"

/* What a field of fewer bytes in class 32 holds: a number, a signed number, or r_info, whose symbol
   has 24 bits there and whose type has 8. */
enum form { NUMBER, SIGNED, INFO };

/* A field: where it is in class 32 and in class 64, and how many bytes it has there. */
struct field
{
  uint8_t at[2], width[2];
  uint8_t form;
};

#define FIELD(record, name, form) \
  { { offsetof (Elf32_##record, name), offsetof (Elf64_##record, name) }, \
    { sizeof ((Elf32_##record *) 0)->name, sizeof ((Elf64_##record *) 0)->name }, form }

enum { MOST_FIELDS = 16 };

static const struct field fields[ELF_T_NUM][MOST_FIELDS] = {
  [ELF_T_EHDR] = {
    { { 0, 0 }, { 8, 8 }, NUMBER }, { { 8, 8 }, { 8, 8 }, NUMBER },     /* e_ident */
    FIELD (Ehdr, e_type, NUMBER), FIELD (Ehdr, e_machine, NUMBER),
    FIELD (Ehdr, e_version, NUMBER), FIELD (Ehdr, e_entry, NUMBER), FIELD (Ehdr, e_phoff, NUMBER),
    FIELD (Ehdr, e_shoff, NUMBER), FIELD (Ehdr, e_flags, NUMBER), FIELD (Ehdr, e_ehsize, NUMBER),
    FIELD (Ehdr, e_phentsize, NUMBER), FIELD (Ehdr, e_phnum, NUMBER),
    FIELD (Ehdr, e_shentsize, NUMBER), FIELD (Ehdr, e_shnum, NUMBER),
    FIELD (Ehdr, e_shstrndx, NUMBER) },
  [ELF_T_PHDR] = {
    FIELD (Phdr, p_type, NUMBER), FIELD (Phdr, p_flags, NUMBER), FIELD (Phdr, p_offset, NUMBER),
    FIELD (Phdr, p_vaddr, NUMBER), FIELD (Phdr, p_paddr, NUMBER), FIELD (Phdr, p_filesz, NUMBER),
    FIELD (Phdr, p_memsz, NUMBER), FIELD (Phdr, p_align, NUMBER) },
  [ELF_T_SHDR] = {
    FIELD (Shdr, sh_name, NUMBER), FIELD (Shdr, sh_type, NUMBER), FIELD (Shdr, sh_flags, NUMBER),
    FIELD (Shdr, sh_addr, NUMBER), FIELD (Shdr, sh_offset, NUMBER), FIELD (Shdr, sh_size, NUMBER),
    FIELD (Shdr, sh_link, NUMBER), FIELD (Shdr, sh_info, NUMBER),
    FIELD (Shdr, sh_addralign, NUMBER), FIELD (Shdr, sh_entsize, NUMBER) },
  [ELF_T_CHDR] = {
    FIELD (Chdr, ch_type, NUMBER), FIELD (Chdr, ch_size, NUMBER),
    FIELD (Chdr, ch_addralign, NUMBER) },
  [ELF_T_SYM] = {
    FIELD (Sym, st_name, NUMBER), FIELD (Sym, st_info, NUMBER), FIELD (Sym, st_other, NUMBER),
    FIELD (Sym, st_shndx, NUMBER), FIELD (Sym, st_value, NUMBER), FIELD (Sym, st_size, NUMBER) },
  [ELF_T_REL] = { FIELD (Rel, r_offset, NUMBER), FIELD (Rel, r_info, INFO) },
  [ELF_T_RELA] = {
    FIELD (Rela, r_offset, NUMBER), FIELD (Rela, r_info, INFO), FIELD (Rela, r_addend, SIGNED) },
  [ELF_T_DYN] = { FIELD (Dyn, d_tag, SIGNED), FIELD (Dyn, d_un.d_val, NUMBER) },
  [ELF_T_AUXV] = { FIELD (auxv_t, a_type, NUMBER), FIELD (auxv_t, a_un.a_val, NUMBER) },
  [ELF_T_MOVE] = {
    FIELD (Move, m_value, NUMBER), FIELD (Move, m_info, NUMBER), FIELD (Move, m_poffset, NUMBER),
    FIELD (Move, m_repeat, NUMBER), FIELD (Move, m_stride, NUMBER) },
};

/* Whether a record has one form in both classes, or is in that of gelf(3E) already. */
static bool
is_same (Elf_Type type, unsigned int class)
{
  return class == ELFCLASS64 || fields[type][0].width[0] == 0;
}

/* The number of a field, as the form of gelf(3E) has it. */
static uint64_t
wide_form (const struct field *f, uint64_t number)
{
  if (f->form == INFO)
    return GELF_R_INFO ((uint64_t) ELF32_R_SYM (number), ELF32_R_TYPE (number));
  return f->form == SIGNED ? (uint64_t) (int64_t) (int32_t) number : number;
}

/* The same as class 32 has it, in as many bytes; false and an error where it does not fit them. */
static bool
narrow_form (const struct field *f, uint64_t *number)
{
  const uint64_t given = *number;
  if (f->form == INFO)
    *number = (uint32_t) ELF32_R_INFO (GELF_R_SYM (given), GELF_R_TYPE (given));
  else if (f->width[0] < f->width[1])
    *number = (uint32_t) given;
  return wide_form (f, *number) == given || false_with (E_INVALID_DATA);
}

void
to_gelf (Elf_Type type, unsigned int class, void *to, const void *from)
{
  const size_t size = types[type].size[1];
  if (is_same (type, class))
    {
      memcpy (to, from, size);
      return;
    }
  memset (to, 0, size);
  for (const struct field *f = fields[type]; f->width[0] != 0; f++)
    {
      uint64_t number = number_at ((const uint8_t *) from + f->at[0], f->width[0], false);
      put_number ((uint8_t *) to + f->at[1], f->width[1], false, wide_form (f, number));
    }
}

bool
from_gelf (Elf_Type type, unsigned int class, void *to, const void *from)
{
  uint8_t made[sizeof (Elf32_Ehdr)] = { 0 };    /* the longest of class 32 */
  if (is_same (type, class))
    {
      memcpy (to, from, types[type].size[1]);
      return true;
    }
  for (const struct field *f = fields[type]; f->width[0] != 0; f++)
    {
      uint64_t number = number_at ((const uint8_t *) from + f->at[1], f->width[1], false);
      if (!narrow_form (f, &number))
        return false;
      put_number (made + f->at[0], f->width[0], false, number);
    }
  memcpy (to, made, types[type].size[0]);
  return true;
}

uint64_t
number_at (const uint8_t *at, size_t width, bool msb)
{
  uint64_t number = 0;
  for (size_t i = 0; i < width; i++)
    number = number << 8 | at[msb ? i : width - 1 - i];
  return number;
}

void
put_number (uint8_t *at, size_t width, bool msb, uint64_t number)
{
  for (size_t i = 0; i < width; i++)
    at[msb ? width - 1 - i : i] = number >> (8 * i);
}
