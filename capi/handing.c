/* handing.c: how elf_update hands the headers to the core, which lays the image out: a section
   header is completed as elfutils completes it. Where all is as the image that is open has it,
   nothing is handed over. */
#include "update.h"

/* ---- Section headers */

/* The size of the entries of a section, where its type tells it. */
static uint64_t
entry_size (const struct update *u, const GElf_Shdr *shdr)
{
  unsigned int class = u->elf->class, machine = u->ehdr.e_machine;
  switch (shdr->sh_type)
    {
    case SHT_HASH:
      return machine == EM_ALPHA || (machine == EM_S390 && class == ELFCLASS64) ? 8 : 4;
    case SHT_SYMTAB:
    case SHT_DYNSYM:
    case SHT_RELA:
    case SHT_REL:
    case SHT_DYNAMIC:
    case SHT_GROUP:
    case SHT_SYMTAB_SHNDX:
    case SHT_SUNW_move:
    case SHT_SUNW_syminfo:
      return item_size (section_type (&(GElf_Shdr) { .sh_type = shdr->sh_type }), class);
    default:
      return shdr->sh_entsize;
    }
}

/* Lays the pieces of a section out, or looks whether they lie in it where the program laid them
   out; gives where they end, and the greatest of their alignments and of the one that is given. */
static bool
lay_pieces (const struct update *u, Elf_Scn *scn, const GElf_Shdr *shdr, uint64_t *end,
            uint64_t *align)
{
  *end = 0;
  for (struct elfkit_data *d = &scn->data; d != NULL; d = d->next)
    {
      if (d->d.d_version != EV_CURRENT)
        return false_with (E_UNKNOWN_VERSION);
      if (!is_power (d->d.d_align))
        return false_with (E_INVALID_ALIGN);
      if (d->d.d_align > *align)
        *align = d->d.d_align;
      if (!u->has_layout)
        d->d.d_off = round_up (*end, d->d.d_align);
      else if (!lies_in (d->d.d_off, d->d.d_size, shdr->sh_size))
        return false_with (E_SECTION_TOO_SMALL);
      *end = d->d.d_off + d->d.d_size;
    }
  return true;
}

/* Whether the size of a section is one of whole entries. */
static bool
has_whole_entries (const struct update *u, Elf_Scn *scn, const GElf_Shdr *shdr, uint64_t size)
{
  if (shdr->sh_entsize <= 1 || (u->elf->flags & ELF_F_PERMISSIVE))
    return true;
  if (shdr->sh_flags & SHF_COMPRESSED)
    {
      GElf_Chdr chdr;
      if (gelf_getchdr (scn, &chdr) == NULL)
        return false;
      size = chdr.ch_size;
    }
  return size % shdr->sh_entsize == 0 || false_with (E_INVALID_SHENTSIZE);
}

/* Completes a section header: the size of its entries, and where the places are not the program's
   its alignment, its place and its size. */
static bool
complete_shdr (struct update *u, Elf_Scn *scn, GElf_Shdr *shdr)
{
  uint64_t align = shdr->sh_addralign == 0 ? 1 : shdr->sh_addralign, end = 0;
  if (!is_power (align))
    return false_with (E_INVALID_ALIGN);
  if (shdr->sh_type == SHT_GROUP && u->ehdr.e_type != ET_REL)
    return false_with (E_GROUP_NOT_REL);
  shdr->sh_entsize = entry_size (u, shdr);
  if (shdr->sh_flags & SHF_COMPRESSED)
    align = shdr->sh_addralign = item_align (ELF_T_CHDR, u->elf->class);
  if (has_pieces (scn))
    {
      if (!lay_pieces (u, scn, shdr, &end, &align))
        return false;
    }
  else if (!scn->is_made)
    end = has_bytes (shdr) ? scn->home.len : shdr->sh_size;
  if (!u->has_layout)
    {
      u->end = round_up (u->end, align);
      shdr->sh_addralign = align;
      shdr->sh_offset = u->end;
      shdr->sh_size = end;
      if (shdr->sh_type != SHT_NOBITS)
        u->end += end;
    }
  else if ((shdr->sh_addralign == 0 ? 1 : shdr->sh_addralign) < align)
    return false_with (E_INVALID_ALIGN);
  return has_whole_entries (u, scn, shdr, shdr->sh_size);
}

/* Completes the header of a section, and looks whether its data is there. An image that a program
   laid out and did not change need not have it. */
static bool
hand_section (struct update *u, Elf_Scn *scn, GElf_Shdr *shdr)
{
  GElf_Shdr old;
  if (gelf_getshdr (scn, shdr) == NULL || (!scn->is_new && !has_home (scn)))
    return false;
  old = *shdr;
  if (!complete_shdr (u, scn, shdr)
      || (memcmp (shdr, &old, sizeof old) != 0 && !put_shdr (scn, shdr)))
    return false;
  if (!u->is_dirty)
    u->is_dirty = scn->is_new || !opened_shdr (scn, &old) || memcmp (shdr, &old, sizeof old) != 0
                  || (has_bytes (shdr) && is_marked (scn));
  bool is_as_opened = !u->is_anew && !has_pieces (scn) && shdr->sh_size == scn->home.len;
  return !has_bytes (shdr) || is_as_opened
         || put_section (u, scn, shdr->sh_offset, shdr->sh_size);
}

/* Completes all section headers. The first one is that of the image that is open. */
static bool
hand_sections (struct update *u)
{
  Elf *elf = u->elf;
  u->shdrs = has_sections (elf) ? new_zeros ((elf->shnum + 1) * sizeof *u->shdrs) : NULL;
  if (u->shdrs == NULL)
    return false;
  if (elf->shnum > 0 && !u->is_anew && !section_at (elf, 0)->is_new
      && !opened_shdr (section_at (elf, 0), u->shdrs))
    return false;
  for (size_t i = 1; i < elf->shnum; i++)
    if (!hand_section (u, section_at (elf, i), &u->shdrs[i]))
      return false;
  return true;
}

/* Places the section headers behind all other parts, where the places are not the program's. */
static bool
place_headers (struct update *u)
{
  Elf *elf = u->elf;
  if (!u->has_layout && elf->shnum > 0)
    {
      u->ehdr.e_shoff = round_up (u->end, item_size (ELF_T_OFF, elf->class));
      u->end = u->ehdr.e_shoff + elf->shnum * item_size (ELF_T_SHDR, elf->class);
    }
  return put_ehdr (elf, &u->ehdr);
}

/* ---- The other headers */

/* Takes the program headers. */
static bool
hand_phdrs (struct update *u)
{
  Elf *elf = u->elf;
  u->phdrs = new_bytes (elf->phnum * sizeof *u->phdrs);
  if (u->phdrs == NULL || (!u->is_dirty && !has_core (elf)))
    return false;
  u->is_dirty = u->is_dirty || elfkit_phnum (core_of (elf)) != elf->phnum;
  for (size_t i = 0; i < elf->phnum; i++)
    {
      GElf_Phdr old;
      if (gelf_getphdr (elf, i, &u->phdrs[i]) == NULL
          || (!u->is_dirty && !is_given (elfkit_phdr (core_of (elf), i, &old))))
        return false;
      u->is_dirty = u->is_dirty || memcmp (&u->phdrs[i], &old, sizeof old) != 0;
    }
  return true;
}

/* Fills in the ELF header. The section of names is one that there is, unless the image was opened
   so. */
static bool
hand_ehdr (struct update *u, struct elfkit_ehdr *x)
{
  Elf *elf = u->elf;
  struct elfkit_ehdr old;
  memset (x, 0, sizeof *x);
  x->class = elf->class;
  x->order = elf->order;
  if (!u->is_anew && !has_core (elf))
    return false;
  if (!u->is_anew)
    elfkit_ehdr (core_of (elf), x);
  memcpy (&old, x, sizeof old);
  x->osabi = u->ehdr.e_ident[EI_OSABI];
  x->abiversion = u->ehdr.e_ident[EI_ABIVERSION];
  x->etype = u->ehdr.e_type;
  x->machine = u->ehdr.e_machine;
  x->entry = u->ehdr.e_entry;
  x->phoff = u->ehdr.e_phoff;
  x->shoff = u->ehdr.e_shoff;
  x->flags = u->ehdr.e_flags;
  size_t names = 0;
  if (elf->shnum > 0 && elf_getshdrstrndx (elf, &names) != 0)
    return false;
  x->shstrndx = u->names = names;
  bool is_same = !u->is_anew && memcmp (x, &old, sizeof old) == 0;
  u->is_dirty = u->is_dirty || !is_same;
  return is_same || names == 0 || names < elf->shnum || false_with (E_INVALID_INDEX);
}

/* Whether data that no program asked for lies in the image that is open, where there is any. */
static bool
has_homes (struct update *u)
{
  Elf *elf = u->elf;
  for (size_t i = 1; i < elf->shnum; i++)
    {
      Elf_Scn *scn = section_at (elf, i);
      const GElf_Shdr *shdr = &u->shdrs[i];
      if (has_bytes (shdr) && shdr->sh_size > 0 && !has_pieces (scn)
          && !put_section (u, scn, shdr->sh_offset, shdr->sh_size))
        return false;
    }
  return true;
}

/* Has the core lay the image out. */
static bool
lay_out (struct update *u, const struct elfkit_ehdr *x)
{
  Elf *elf = u->elf;
  if (!has_homes (u)
      || !is_given (elfkit_lay_out (x, u->ehdr.e_ident + EI_PAD, EI_NIDENT - EI_PAD, u->phdrs,
                                    elf->phnum, u->shdrs, elf->shnum, u->base, &u->layout)))
    return false;
  u->length = elfkit_layout_length (&u->layout);
  return true;
}

bool
hand_over (struct update *u)
{
  Elf *elf = u->elf;
  struct elfkit_ehdr x;
  u->is_dirty = u->is_anew || elf->is_torn || (elf->flags & ELF_F_DIRTY);
  u->length = elf->size;
  bool done = hand_sections (u) && place_headers (u) && hand_phdrs (u) && hand_ehdr (u, &x)
              && (!u->is_dirty || lay_out (u, &x));
  free (u->shdrs);
  free (u->phdrs);
  return done;
}
