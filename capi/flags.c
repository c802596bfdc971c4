/* flags.c: the flags of the parts of an object, which elf_update looks at. Data that a program says
   it wrote is read from its buffer. */
#include "object.h"

/* Sets or clears, and gives the flags as they then are. */
static unsigned int
flagged (uint8_t *flags, Elf_Cmd cmd, unsigned int which)
{
  if (cmd == ELF_C_SET)
    *flags |= which & (ELF_F_DIRTY | ELF_F_LAYOUT | ELF_F_PERMISSIVE);
  else if (cmd == ELF_C_CLR)
    *flags &= ~which;
  else
    return false_with (E_INVALID_COMMAND);
  return *flags;
}

/* elf_flagelf, elf_flagehdr, elf_flagphdr: of the object, its header, its program headers. */
PUBLIC unsigned int elf_flagelf (Elf *elf, Elf_Cmd cmd, unsigned int flags)
{ return elf == NULL ? 0 : flagged (&elf->flags, cmd, flags); }
PUBLIC unsigned int elf_flagehdr (Elf *elf, Elf_Cmd cmd, unsigned int flags)
{ return elf == NULL ? 0 : flagged (&elf->ehdr_flags, cmd, flags); }
PUBLIC unsigned int elf_flagphdr (Elf *elf, Elf_Cmd cmd, unsigned int flags)
{ return elf == NULL ? 0 : flagged (&elf->phdr_flags, cmd, flags); }

/* elf_flagscn, elf_flagshdr, elf_flagdata: of a section, its header, its data. */
PUBLIC unsigned int elf_flagscn (Elf_Scn *scn, Elf_Cmd cmd, unsigned int flags)
{ return scn == NULL ? 0 : flagged (&scn->flags, cmd, flags); }
PUBLIC unsigned int elf_flagshdr (Elf_Scn *scn, Elf_Cmd cmd, unsigned int flags)
{ return scn == NULL ? 0 : flagged (&scn->shdr_flags, cmd, flags); }

PUBLIC unsigned int
elf_flagdata (Elf_Data *data, Elf_Cmd cmd, unsigned int flags)
{
  if (data == NULL)
    return 0;
  struct elfkit_data *d = data_of (data);
  if (cmd == ELF_C_SET && (flags & ELF_F_DIRTY))
    d->from_core = false;
  return flagged (&d->flags, cmd, flags);
}
