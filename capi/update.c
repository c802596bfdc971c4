/* update.c: elf_update. The layer completes the headers as elfutils does, and lays the parts out
   where the program did not (handing.c). The core checks that they lie apart, derives what follows
   from them, and says where each part of the image is; it gives the bytes of the ELF header and of
   the tables. The layer writes them, and the data of the sections from where the program has it
   (parts.c, written.c). */
#include "update.h"

static _Atomic uint8_t fill_byte;

/* elf_fill: the byte of gaps, for all descriptors. */
PUBLIC void
elf_fill (int fill)
{
  fill_byte = fill;
}

/* Completes the ELF header: what an image has there whatever a program stored. */
static bool
complete_ehdr (struct update *u)
{
  Elf *elf = u->elf;
  GElf_Ehdr *e = &u->ehdr;
  gelf_getehdr (elf, e);
  memcpy (e->e_ident, ELFMAG, SELFMAG);
  e->e_ident[EI_CLASS] = elf->class;
  e->e_ident[EI_VERSION] = EV_CURRENT;
  if (e->e_ident[EI_DATA] == ELFDATANONE)
    e->e_ident[EI_DATA] = NATIVE_ORDER;
  if (e->e_version == EV_NONE)
    e->e_version = EV_CURRENT;
  e->e_ehsize = item_size (ELF_T_EHDR, elf->class);
  e->e_shnum = elf->shnum < SHN_LORESERVE ? elf->shnum : 0;
  u->end = e->e_ehsize;
  u->base = u->is_anew ? e->e_ehsize : elf->size;
  if (e->e_phnum == 0)
    e->e_phoff = 0;
  else if (!u->has_layout)
    {
      e->e_phoff = u->end;
      u->end += elf->phnum * item_size (ELF_T_PHDR, elf->class);
    }
  if (e->e_ident[EI_DATA] != ELFDATA2LSB && e->e_ident[EI_DATA] != ELFDATA2MSB)
    return false_with (E_DATA_ENCODING);
  if (e->e_version != EV_CURRENT)
    return false_with (E_UNKNOWN_VERSION);
  if (!elf->is_bare && e->e_ident[EI_DATA] != elf->order)
    return false_with (E_INVALID_DATA);
  elf->order = e->e_ident[EI_DATA];
  return put_ehdr (elf, e);
}

/* Whether a part is the table of section headers. */
static bool
is_table (const struct update *u, const struct elfkit_part *part)
{
  return part->section == 0 && u->elf->shnum > 0 && part->at == u->ehdr.e_shoff;
}

/* Puts the first of the section headers, as the core gives it, into its native form. */
static bool
take_first (struct update *u, const uint8_t *table)
{
  Elf *elf = u->elf;
  Elf64_Shdr native;
  GElf_Shdr now, old;
  const size_t size = item_size (ELF_T_SHDR, elf->class);
  Elf_Scn *first = section_at (elf, 0);
  memcpy (&native, table, size);
  if (is_foreign (elf, ELF_T_SHDR))
    translate (ELF_T_SHDR, elf->class, true, &native, &native, size);
  to_gelf (ELF_T_SHDR, elf->class, &now, &native);
  return gelf_getshdr (first, &old) != NULL
         && (memcmp (&now, &old, sizeof now) == 0 || put_shdr (first, &now));
}

/* Puts what the core derived into the native headers: the places of the tables and the sizes of
   their entries, and the numbers that the first section header has. */
static bool
take_places (struct update *u)
{
  struct elfkit_part part;
  for (uint64_t i = 0; elfkit_layout_part (&u->layout, i, &part) == REFUSED_NOT; i++)
    {
      const uint8_t *bytes = part.section == 0 ? front_of (u, i, &part) : NULL;
      if (part.section == 0 && bytes == NULL)
        return false;
      if (is_table (u, &part) && !take_first (u, bytes))
        return false;
      if (part.at > 0)
        continue;
      const struct tables t = tables_of (bytes);
      u->ehdr.e_phoff = t.phoff;
      u->ehdr.e_shoff = t.shoff;
      u->ehdr.e_phentsize = t.phentsize;
      u->ehdr.e_shentsize = t.shentsize;
    }
  return put_ehdr (u->elf, &u->ehdr);
}

static uint64_t
later (uint64_t a, uint64_t b)
{
  return a > b ? a : b;
}

/* Where the last part ends that a program laid out. */
static uint64_t
end_of_parts (struct update *u)
{
  Elf *elf = u->elf;
  uint64_t end = u->ehdr.e_ehsize;
  if (elf->phnum > 0)
    end = later (end, u->ehdr.e_phoff + elf->phnum * item_size (ELF_T_PHDR, elf->class));
  if (elf->shnum > 0)
    end = later (end, u->ehdr.e_shoff + elf->shnum * item_size (ELF_T_SHDR, elf->class));
  for (size_t i = 1; i < elf->shnum; i++)
    {
      GElf_Shdr shdr;
      if (gelf_getshdr (section_at (elf, i), &shdr) != NULL && shdr.sh_type != SHT_NOBITS)
        end = later (end, shdr.sh_offset + shdr.sh_size);
    }
  return end;
}

/* Whether the image has no more than so many bytes between its parts, and the file that it is
   written to no more behind them. */
static bool
is_dense (struct update *u, uint64_t size)
{
  Elf *elf = u->elf;
  uint64_t left = u->length;
  for (size_t i = 1; i < elf->shnum && left > MOST_FILL; i++)
    {
      GElf_Shdr shdr;
      if (gelf_getshdr (section_at (elf, i), &shdr) != NULL && has_bytes (&shdr))
        left -= shdr.sh_size < left ? shdr.sh_size : left;
    }
  return (left <= MOST_FILL && (size <= u->length || size - u->length <= MOST_FILL))
         || false_with (E_NOMEM);
}

/* Whether the file of a descriptor may be written. */
static bool
may_update (const Elf *elf)
{
  if (!is_writing (elf->cmd))
    return false_with (E_UPDATE_RO);
  if (elf->fd == -1)
    return false_with (E_FD_DISABLED);
  return elf->parent == NULL || false_with (E_UNSUPPORTED);
}

/* Lays an image out and writes it, where it is to be written; the size of the file, or -1. */
static int64_t
update (struct update *u, bool writes)
{
  Elf *elf = u->elf;
  if (!complete_ehdr (u))
    return -1;
  if (elf->is_cut || elf->lacks_phdrs)
    return negative_with (E_INVALID_ELF);
  if (!hand_over (u) || (u->is_dirty && !take_places (u)))
    return -1;
  uint64_t size = u->has_layout ? end_of_parts (u) : u->end;
  if (writes && (!may_update (elf) || !is_dense (u, size) || !write_image (u, size)))
    return -1;
  return size;
}

/* elf_update: lays the image out, and writes it unless the command is ELF_C_NULL. */
PUBLIC int64_t
elf_update (Elf *elf, Elf_Cmd cmd)
{
  if (cmd != ELF_C_NULL && cmd != ELF_C_WRITE && cmd != ELF_C_WRITE_MMAP)
    return negative_with (E_INVALID_CMD);
  if (!is_elf (elf, 0))
    return -1;
  bool has_layout = (elf->flags & ELF_F_LAYOUT) != 0;
  struct update u = { .elf = elf, .has_layout = has_layout, .fill = fill_byte,
                      .is_anew = elf->is_bare || !has_layout };
  int64_t size = update (&u, cmd != ELF_C_NULL);
  if (u.layout.ptr != NULL)
    elfkit_layout_end (&u.layout);
  free (u.ends);
  free (u.block);
  return size;
}
