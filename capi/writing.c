/* writing.c: what a program makes anew or stores as a whole: headers, sections and the pieces of
   their data. They are the layer's, in memory, until elf_update hands them to the core. */
#include "object.h"

/* Whether new headers may be made, of that class. */
static bool
takes_class (Elf *elf, unsigned int class)
{
  if (elf == NULL)
    return false;
  if (elf->kind != ELF_K_ELF)
    return false_with (E_INVALID_HANDLE);
  if (elf->class != ELFCLASSNONE && elf->class != class)
    return false_with (E_INVALID_CLASS);
  elf->class = class;
  return true;
}

/* The ELF header, which is made of zeros where there is none. */
static void *
new_ehdr (Elf *elf, unsigned int class)
{
  if (!takes_class (elf, class))
    return NULL;
  if (elf->ehdr == NULL)
    {
      elf->ehdr = new_zeros (item_size (ELF_T_EHDR, class));
      elf->ehdr_flags |= ELF_F_DIRTY;
    }
  return elf->ehdr;
}

/* elf32_newehdr, elf64_newehdr, gelf_newehdr: a new ELF header, or the one that there is. */
PUBLIC Elf32_Ehdr *elf32_newehdr (Elf *elf) { return new_ehdr (elf, ELFCLASS32); }
PUBLIC Elf64_Ehdr *elf64_newehdr (Elf *elf) { return new_ehdr (elf, ELFCLASS64); }
PUBLIC void *gelf_newehdr (Elf *elf, int class)
{ return new_ehdr (elf, class == ELFCLASS32 ? ELFCLASS32 : ELFCLASS64); }

/* Notes the number of program headers in the ELF header. */
static void
set_phnum (Elf *elf, size_t count)
{
  GElf_Ehdr e;
  gelf_getehdr (elf, &e);
  e.e_phnum = elf->phnum = count;
  e.e_phentsize = item_size (ELF_T_PHDR, elf->class);
  put_ehdr (elf, &e);
  elf->phdr_flags |= ELF_F_DIRTY;
  elf->flags |= ELF_F_DIRTY;
}

/* So many program headers of zeros in place of those that there are; with none the table goes. The
   core has at most PN_XNUM - 1. */
static void *
new_phdrs (Elf *elf, size_t count, unsigned int class)
{
  if (!takes_class (elf, class))
    return NULL;
  if (elf->ehdr == NULL || count >= PN_XNUM)
    return null_with (elf->ehdr == NULL ? E_WRONG_ORDER_EHDR : E_INVALID_INDEX);
  if (count == 0)
    {
      free (elf->phdr);
      elf->phdr = NULL;
      if (elf->phnum > 0)
        set_phnum (elf, 0);
      return NULL;
    }
  size_t size = count * item_size (ELF_T_PHDR, class);
  if (elf->phdr == NULL || elf->phnum != count)
    {
      void *made = realloc (elf->phdr, size);
      if (made == NULL)
        return null_with (E_NOMEM);
      elf->phdr = made;
      set_phnum (elf, count);
    }
  elf->phdr_flags |= ELF_F_DIRTY;
  return memset (elf->phdr, 0, size);
}

/* elf32_newphdr, elf64_newphdr, gelf_newphdr: a new table of program headers. */
PUBLIC Elf32_Phdr *elf32_newphdr (Elf *elf, size_t count)
{ return new_phdrs (elf, count, ELFCLASS32); }
PUBLIC Elf64_Phdr *elf64_newphdr (Elf *elf, size_t count)
{ return new_phdrs (elf, count, ELFCLASS64); }

PUBLIC void *
gelf_newphdr (Elf *elf, size_t count)
{
  if (elf == NULL)
    return NULL;
  return new_phdrs (elf, count, elf->class == ELFCLASS32 ? ELFCLASS32 : ELFCLASS64);
}

bool
add (struct list *list, void *item)
{
  if (list->count == list->room)
    {
      size_t room = list->room == 0 ? 16 : 2 * list->room;
      void **more = realloc (list->at, room * sizeof *more);
      if (more == NULL)
        return false_with (E_NOMEM);
      list->at = more;
      list->room = room;
    }
  list->at[list->count++] = item;
  return true;
}

Elf_Scn *
append_section (Elf *elf)
{
  Elf_Scn *scn = new_zeros (sizeof *scn);
  void *shdr = new_zeros (sizeof (Elf64_Shdr));
  if (scn == NULL || shdr == NULL || !add (&elf->added, scn))
    {
      free (scn);
      free (shdr);
      return NULL;
    }
  *scn = (Elf_Scn) { .elf = elf, .index = elf->shnum, .is_made = true, .is_new = true,
                     .flags = elf->shnum == 0 ? 0 : ELF_F_DIRTY, .shdr_flags = ELF_F_DIRTY,
                     .shdr = shdr };
  scn->data.scn = scn;
  scn->data.elf = elf;
  elf->has_links = false;
  elf->shnum++;
  return scn;
}

/* elf_newscn: a new section, and section 0 before it where there is none. */
PUBLIC Elf_Scn *
elf_newscn (Elf *elf)
{
  /* -fanalyzer: the sections are in the list elf->added, and elf_end frees them */
  if (!has_sections (elf) || (elf->shnum == 0 && append_section (elf) == NULL))
    return NULL;
  return append_section (elf);
}

/* elf_newdata: a new piece of data behind those of a section; the program says what it holds. */
PUBLIC Elf_Data *
elf_newdata (Elf_Scn *scn)
{
  if (scn == NULL)
    return NULL;
  if (scn->index == 0 || scn->elf->ehdr == NULL)
    return null_with (scn->index == 0 ? E_NOT_NUL_SECTION : E_WRONG_ORDER_EHDR);
  struct elfkit_data *d = &scn->data;
  if (!scn->is_made && elf_getdata (scn, NULL) == NULL)
    return NULL;
  if (!scn->is_made || scn->last != NULL)
    {
      d = new_zeros (sizeof *d);
      if (d == NULL)
        return NULL;
      d->scn = scn;
      (scn->last == NULL ? &scn->data : scn->last)->next = d;
    }
  scn->last = d;
  tie (d, scn->elf);
  d->flags = ELF_F_DIRTY;
  d->d.d_version = EV_CURRENT;
  return &d->d;
}
