/* types.c: what is known of the types of data: the sizes of their items, and which sections have
   them (gABI chapter 4, "Sections"; GNU's and Sun's additions). */
#include "object.h"

size_t
item_size (Elf_Type type, unsigned int class)
{
  if ((unsigned int) type >= ELF_T_NUM || (class != ELFCLASS32 && class != ELFCLASS64))
    return 0;
  return types[type].size[class == ELFCLASS64];
}

/* The types of sections whose data has another type than ELF_T_BYTE, whatever their header says. */
static const struct
{
  uint32_t section;
  Elf_Type data;
} section_types[] = {
  { SHT_SYMTAB, ELF_T_SYM },
  { SHT_DYNSYM, ELF_T_SYM },
  { SHT_RELA, ELF_T_RELA },
  { SHT_REL, ELF_T_REL },
  { SHT_HASH, ELF_T_WORD },
  { SHT_DYNAMIC, ELF_T_DYN },
  { SHT_NOTE, ELF_T_NHDR },
  { SHT_INIT_ARRAY, ELF_T_ADDR },
  { SHT_FINI_ARRAY, ELF_T_ADDR },
  { SHT_PREINIT_ARRAY, ELF_T_ADDR },
  { SHT_GROUP, ELF_T_WORD },
  { SHT_SYMTAB_SHNDX, ELF_T_WORD },
  { SHT_GNU_verdef, ELF_T_VDEF },
  { SHT_GNU_verneed, ELF_T_VNEED },
  { SHT_GNU_versym, ELF_T_HALF },
  { SHT_SUNW_syminfo, ELF_T_SYMINFO },
  { SHT_SUNW_move, ELF_T_MOVE },
  { SHT_GNU_LIBLIST, ELF_T_LIB },
  { SHT_GNU_HASH, ELF_T_GNUHASH },
};

Elf_Type
section_type (const GElf_Shdr *shdr)
{
  if (shdr->sh_flags & SHF_COMPRESSED)
    return ELF_T_CHDR;
  if (shdr->sh_type == SHT_HASH && shdr->sh_entsize == 8)
    return ELF_T_XWORD;
  if (shdr->sh_type == SHT_NOTE && shdr->sh_addralign == 8)
    return ELF_T_NHDR8;
  for (size_t i = 0; i < sizeof section_types / sizeof section_types[0]; i++)
    if (section_types[i].section == shdr->sh_type)
      return section_types[i].data;
  return ELF_T_BYTE;
}

/* elf32_fsize, elf64_fsize, gelf_fsize: the size of so many items in the file. */
static size_t
fsize (Elf_Type type, size_t count, unsigned int version, unsigned int class)
{
  size_t size = item_size (type, class);
  if (version == EV_CURRENT && size > 0)
    return count * size;
  return false_with (version != EV_CURRENT ? E_UNKNOWN_VERSION : E_UNKNOWN_TYPE);
}

PUBLIC size_t elf32_fsize (Elf_Type type, size_t count, unsigned int version)
{ return fsize (type, count, version, ELFCLASS32); }
PUBLIC size_t elf64_fsize (Elf_Type type, size_t count, unsigned int version)
{ return fsize (type, count, version, ELFCLASS64); }

PUBLIC size_t
gelf_fsize (Elf *elf, Elf_Type type, size_t count, unsigned int version)
{
  if (elf == NULL)
    return 0;
  return elf->kind == ELF_K_ELF ? fsize (type, count, version, elf->class)
                                : false_with (E_INVALID_HANDLE);
}
