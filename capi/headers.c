/* headers.c: the headers, of both classes and in the form of gelf(3E), and their counts. The core
   gives each header; the layer keeps the native form for programs that ask for a pointer. */
#include "object.h"

bool
is_elf (Elf *elf, unsigned int class)
{
  if (elf == NULL)
    return false;
  if (elf->kind != ELF_K_ELF)
    set_error (E_INVALID_HANDLE);
  else if (elf->ehdr == NULL)
    set_error (E_WRONG_ORDER_EHDR);
  else if (class != 0 && elf->class != class)
    set_error (E_INVALID_CLASS);
  else
    return true;
  return false;
}

/* gelf_getclass: the class, ELFCLASSNONE where it is no ELF image. */
PUBLIC int gelf_getclass (Elf *elf)
{ return elf == NULL || elf->kind != ELF_K_ELF ? ELFCLASSNONE : (int) elf->class; }

/* elf32_getehdr, elf64_getehdr: the native ELF header. */
PUBLIC Elf32_Ehdr *elf32_getehdr (Elf *elf) { return is_elf (elf, ELFCLASS32) ? elf->ehdr : NULL; }
PUBLIC Elf64_Ehdr *elf64_getehdr (Elf *elf) { return is_elf (elf, ELFCLASS64) ? elf->ehdr : NULL; }

/* gelf_getehdr: the ELF header, whose counts are as they stand in the image. */
PUBLIC GElf_Ehdr *
gelf_getehdr (Elf *elf, GElf_Ehdr *dst)
{
  if (!is_elf (elf, 0) || dst == NULL)
    return NULL;
  to_gelf (ELF_T_EHDR, elf->class, dst, elf->ehdr);
  return dst;
}

bool
put_ehdr (Elf *elf, const GElf_Ehdr *src)
{
  return from_gelf (ELF_T_EHDR, elf->class, elf->ehdr, src);
}

/* gelf_update_ehdr: stores the ELF header. */
PUBLIC int
gelf_update_ehdr (Elf *elf, GElf_Ehdr *src)
{
  if (!is_elf (elf, 0) || !put_ehdr (elf, src))
    return 0;
  elf->ehdr_flags |= ELF_F_DIRTY;
  return 1;
}

/* elf_getphdrnum, elf_getshdrnum, elf_getshdrstrndx: the true counts, and the section of the names
   of sections. */
PUBLIC int
elf_getphdrnum (Elf *elf, size_t *count)
{
  if (!is_elf (elf, 0))
    return -1;
  if (elf->lacks_phdrs && elf->phnum == 0 && elf->tables.phoff != 0)
    return negative_with (E_INVALID_DATA);
  *count = elf->phnum;
  return 0;
}

PUBLIC int
elf_getshdrnum (Elf *elf, size_t *count)
{
  if (!is_elf (elf, 0))
    return -1;
  *count = elf->shnum;
  return 0;
}

/* Whether section 0 has another header than the image: a program stored it, or made it. */
static bool
has_stored_0 (Elf *elf)
{
  return elf->shnum > 0 && (elf->opened == 0 || elf->sections != NULL)
         && section_at (elf, 0)->shdr != NULL;
}

PUBLIC int
elf_getshdrstrndx (Elf *elf, size_t *index)
{
  if (!is_elf (elf, 0))
    return -1;
  GElf_Ehdr ehdr;
  GElf_Shdr first;
  gelf_getehdr (elf, &ehdr);
  bool is_as_opened = !elf->is_bare && !elf->is_cut && !has_stored_0 (elf)
                      && ehdr.e_shstrndx == elf->tables.shstrndx;
  *index = ehdr.e_shstrndx;
  if (ehdr.e_shstrndx == SHN_XINDEX && elf->shnum == 0)
    return negative_with (E_INVALID_SECTION_HEADER);
  if (is_as_opened)
    *index = elf->shstrndx;
  else if (ehdr.e_shstrndx == SHN_XINDEX)
    {
      if (gelf_getshdr (elf_getscn (elf, 0), &first) == NULL)
        return -1;
      *index = first.sh_link;
    }
  return 0;
}

/* elf_getshnum, elf_getshstrndx: the old names of the two. */
PUBLIC int elf_getshnum (Elf *elf, size_t *count) { return elf_getshdrnum (elf, count); }
PUBLIC int elf_getshstrndx (Elf *elf, size_t *index) { return elf_getshdrstrndx (elf, index); }

/* A program header in native form, of those that there are. */
static void *
phdr_at (Elf *elf, size_t index)
{
  return (uint8_t *) elf->phdr + index * item_size (ELF_T_PHDR, elf->class);
}

/* gelf_getphdr: a program header. */
PUBLIC GElf_Phdr *
gelf_getphdr (Elf *elf, int ndx, GElf_Phdr *dst)
{
  if (!is_elf (elf, 0) || dst == NULL)
    return NULL;
  if (elf->phnum == 0)
    return null_with (E_NO_PHDR);
  if (elf->phdr == NULL)
    return has_core (elf) && is_given (elfkit_phdr (core_of (elf), (uint32_t) ndx, dst)) ? dst
                                                                                         : NULL;
  if (ndx < 0 || (size_t) ndx >= elf->phnum)
    return null_with (E_INVALID_INDEX);
  to_gelf (ELF_T_PHDR, elf->class, dst, phdr_at (elf, ndx));
  return dst;
}

/* All program headers in native form, for elf32_getphdr and elf64_getphdr. */
void *
native_phdrs (Elf *elf)
{
  if (elf->phdr != NULL)
    return elf->phdr;
  if (elf->phnum == 0)
    return null_with (E_NO_PHDR);
  if (!has_core (elf))
    return NULL;
  elf->phdr = new_zeros (elf->phnum * item_size (ELF_T_PHDR, elf->class));
  for (size_t i = 0; elf->phdr != NULL && i < elf->phnum; i++)
    {
      GElf_Phdr x;
      if (elfkit_phdr (core_of (elf), i, &x) == REFUSED_NOT)
        from_gelf (ELF_T_PHDR, elf->class, phdr_at (elf, i), &x);
    }
  return elf->phdr;
}

/* gelf_update_phdr: stores a program header. */
PUBLIC int
gelf_update_phdr (Elf *elf, int ndx, GElf_Phdr *src)
{
  GElf_Phdr x;
  if (!is_elf (elf, 0) || !from_gelf (ELF_T_PHDR, elf->class, &x, src)
      || native_phdrs (elf) == NULL)
    return 0;
  if (ndx < 0 || (size_t) ndx >= elf->phnum)
    return false_with (E_INVALID_INDEX);
  memcpy (phdr_at (elf, ndx), &x, item_size (ELF_T_PHDR, elf->class));
  elf->phdr_flags |= ELF_F_DIRTY;
  return 1;
}

PUBLIC Elf32_Phdr *elf32_getphdr (Elf *elf)
{ return is_elf (elf, ELFCLASS32) ? native_phdrs (elf) : NULL; }
PUBLIC Elf64_Phdr *elf64_getphdr (Elf *elf)
{ return is_elf (elf, ELFCLASS64) ? native_phdrs (elf) : NULL; }

/* Where the image has headers in the very form that is asked for, it is read there; a library that
   is built with ELFKIT_CHECK compares it with the core's. */
bool
opened_shdr (const Elf_Scn *scn, GElf_Shdr *dst)
{
  Elf *elf = scn->elf;
  uint64_t at = elf->tables.shoff + scn->index * sizeof *dst;
  if (elf->class != ELFCLASS64 || elf->order != NATIVE_ORDER
      || !lies_in (at, sizeof *dst, elf->size))
    return has_core (elf) && is_given (elfkit_shdr (core_of (elf), scn->index, dst));
  memcpy (dst, elf->lent + at, sizeof *dst);
#ifdef ELFKIT_CHECK
  GElf_Shdr x;                  /* before there is an object, check_ehdr has compared them */
  if (elf->handle.ptr != NULL
      && (elfkit_shdr (&elf->handle, scn->index, &x) != REFUSED_NOT
          || memcmp (&x, dst, sizeof x) != 0))
    abort ();
#endif
  return true;
}

/* gelf_getshdr: a section header, as the program changed it where it asked for a pointer. */
PUBLIC GElf_Shdr *
gelf_getshdr (Elf_Scn *scn, GElf_Shdr *dst)
{
  if (scn == NULL)
    return NULL;
  if (dst == NULL)
    return null_with (E_INVALID_OPERAND);
  if (scn->shdr == NULL)
    return opened_shdr (scn, dst) ? dst : NULL;
  to_gelf (ELF_T_SHDR, scn->elf->class, dst, scn->shdr);
  return dst;
}

/* The section header in native form, for elf32_getshdr and elf64_getshdr. */
void *
native_shdr (Elf_Scn *scn, unsigned int class)
{
  if (scn == NULL || !is_elf (scn->elf, class))
    return NULL;
  GElf_Shdr x;
  if (scn->shdr != NULL || gelf_getshdr (scn, &x) == NULL)
    return scn->shdr;
  scn->elf->has_parts = true;
  scn->shdr = new_zeros (item_size (ELF_T_SHDR, class));
  if (scn->shdr != NULL)
    from_gelf (ELF_T_SHDR, class, scn->shdr, &x);
  return scn->shdr;
}

PUBLIC Elf32_Shdr *elf32_getshdr (Elf_Scn *scn) { return native_shdr (scn, ELFCLASS32); }
PUBLIC Elf64_Shdr *elf64_getshdr (Elf_Scn *scn) { return native_shdr (scn, ELFCLASS64); }

bool
put_shdr (Elf_Scn *scn, const GElf_Shdr *src)
{
  unsigned int class = scn->elf->class;
  if (native_shdr (scn, class) == NULL || !from_gelf (ELF_T_SHDR, class, scn->shdr, src))
    return false;
  scn->elf->has_links = false;
  return true;
}

/* gelf_update_shdr: stores a header in memory, where gelf_getshdr and its like then find it. */
PUBLIC int
gelf_update_shdr (Elf_Scn *scn, GElf_Shdr *src)
{
  if (scn == NULL || src == NULL || !put_shdr (scn, src))
    return 0;
  scn->shdr_flags |= ELF_F_DIRTY;
  return 1;
}

/* The data of a section with SHF_COMPRESSED, at whose start the compression header is. */
static Elf_Data *
packed_data (Elf_Scn *scn)
{
  GElf_Shdr shdr;
  if (gelf_getshdr (scn, &shdr) == NULL)
    return NULL;
  if (shdr.sh_flags & SHF_ALLOC)
    return null_with (E_INVALID_SECTION_FLAGS);
  if (shdr.sh_type == SHT_NULL || shdr.sh_type == SHT_NOBITS)
    return null_with (E_INVALID_SECTION_TYPE);
  if ((shdr.sh_flags & SHF_COMPRESSED) == 0)
    return null_with (E_NOT_COMPRESSED);
  Elf_Data *data = elf_getdata (scn, NULL);
  if (data != NULL && data->d_size < item_size (ELF_T_CHDR, scn->elf->class))
    return null_with (E_INVALID_DATA);
  return data;
}

/* gelf_getchdr, elf32_getchdr, elf64_getchdr: the compression header. */
PUBLIC GElf_Chdr *
gelf_getchdr (Elf_Scn *scn, GElf_Chdr *dst)
{
  if (scn == NULL)
    return NULL;
  if (dst == NULL)
    return null_with (E_INVALID_OPERAND);
  const Elf_Data *data = packed_data (scn);
  if (data == NULL)
    return NULL;
  to_gelf (ELF_T_CHDR, scn->elf->class, dst, data->d_buf);
  return dst;
}

/* The same where it stands, of a class. */
static void *
native_chdr (Elf_Scn *scn, unsigned int class)
{
  const Elf_Data *data
    = scn == NULL || !is_elf (scn->elf, class) ? NULL : packed_data (scn);
  return data == NULL ? NULL : data->d_buf;
}

PUBLIC Elf32_Chdr *elf32_getchdr (Elf_Scn *scn) { return native_chdr (scn, ELFCLASS32); }
PUBLIC Elf64_Chdr *elf64_getchdr (Elf_Scn *scn) { return native_chdr (scn, ELFCLASS64); }
