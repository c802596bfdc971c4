/* storing.c: what is stored in memory is read again, in both classes and both orders, and the
   image of elf_memory, which the core reads, stays as it was. */
#include "check.h"
#include "image.h"

static void
store_symbols (Elf *elf)
{
  GElf_Sym sym, again;
  Elf_Data *data = elf_getdata (elf_getscn (elf, SYMBOLS), NULL);
  CHECK (gelf_getsym (data, 1, &sym) == &sym);
  sym.st_value = 0x4321;
  CHECK (gelf_update_sym (data, 1, &sym) == 1);
  CHECK (gelf_getsym (data, 1, &again) == &again && again.st_value == 0x4321);
  CHECK (again.st_size == 8 && again.st_shndx == SHN_ABS);
  CHECK (gelf_getsym (data, 2, &again) == &again && again.st_name == 7);
  CHECK (gelf_update_sym (data, 3, &sym) == 0 && elf_errno () != 0);
  CHECK (gelf_update_symshndx (data, NULL, 1, &sym, 9) == 0 && elf_errno () != 0);
  sym.st_value = (uint64_t) 1 << 32;
  CHECK (gelf_update_sym (data, 1, &sym) == (gelf_getclass (elf) == ELFCLASS64));
  elf_errno ();
}

static void
store_relocations (Elf *elf)
{
  GElf_Rela rela, again;
  Elf_Data *data = elf_getdata (elf_getscn (elf, RELOCATIONS), NULL);
  CHECK (gelf_getrela (data, 0, &rela) == &rela);
  rela.r_info = GELF_R_INFO ((GElf_Xword) 1, 8);
  rela.r_addend = -7;
  CHECK (gelf_update_rela (data, 0, &rela) == 1);
  CHECK (gelf_getrela (data, 0, &again) == &again && again.r_addend == -7);
  CHECK (GELF_R_SYM (again.r_info) == 1 && GELF_R_TYPE (again.r_info) == 8);
  CHECK (again.r_offset == 0x20);
  GElf_Rel rel = { .r_offset = 0 };
  CHECK (gelf_update_rel (data, 0, &rel) == 0 && elf_errno () != 0);
}

static void
store_headers (Elf *elf)
{
  GElf_Shdr shdr, again;
  Elf_Scn *scn = elf_getscn (elf, STRINGS);
  CHECK (gelf_getshdr (scn, &shdr) == &shdr);
  shdr.sh_addr = 0x1000;
  CHECK (gelf_update_shdr (scn, &shdr) == 1);
  CHECK (gelf_getshdr (scn, &again) == &again && again.sh_addr == 0x1000);
  CHECK (again.sh_type == SHT_STRTAB);
  CHECK (elf_flagshdr (scn, ELF_C_CLR, ELF_F_DIRTY) == 0);
  /* the names of a symbol table stay where they are */
  CHECK (strcmp (elf_strptr (elf, STRINGS, 1), "first") == 0);
  /* words whose header links to the symbols are their extended indexes */
  CHECK (elf_scnshndx (elf_getscn (elf, SYMBOLS)) == 0);
  shdr.sh_type = SHT_SYMTAB_SHNDX;
  shdr.sh_link = SYMBOLS;
  CHECK (gelf_update_shdr (scn, &shdr) == 1);
  CHECK (elf_scnshndx (elf_getscn (elf, SYMBOLS)) == STRINGS);
}

/* A move record, in the class's form, in a chunk of the image. */
static void
store_moves (Elf *elf)
{
  GElf_Move move = { .m_value = 0x1122334455667788, .m_info = 0x0708, .m_poffset = 0x99,
                     .m_repeat = 3, .m_stride = 5 }, again;
  Elf_Data *data = elf_getdata_rawchunk (elf, 0, gelf_fsize (elf, ELF_T_MOVE, 2, EV_CURRENT),
                                         ELF_T_MOVE);
  CHECK (data != NULL && gelf_update_move (data, 1, &move) == 1);
  memset (&again, 0, sizeof again);
  CHECK (gelf_getmove (data, 1, &again) == &again && again.m_value == move.m_value);
  CHECK (again.m_info == 0x0708 && again.m_poffset == 0x99 && again.m_repeat == 3);
  CHECK (again.m_stride == 5 && gelf_getmove (data, 2, &again) == NULL && elf_errno () != 0);
}

/* A program that writes into the buffer says so, and reads what it wrote. */
static void
write_buffer (Elf *elf)
{
  GElf_Sym sym;
  Elf_Data *data = elf_getdata (elf_getscn (elf, SYMBOLS), NULL);
  memset (data->d_buf, 0, data->d_size);
  CHECK (elf_flagdata (data, ELF_C_SET, ELF_F_DIRTY) == ELF_F_DIRTY);
  CHECK (gelf_getsym (data, 1, &sym) == &sym && sym.st_value == 0 && sym.st_name == 0);
}

int
main (void)
{
  elf_version (EV_CURRENT);
  for (int kind = 0; kind < 4; kind++)
    {
      struct image m, same;
      make_image (&m, kind & 1, kind >> 1);
      same = m;
      Elf *elf = elf_memory ((char *) m.bytes, m.size);
      CHECK (elf != NULL);
      store_symbols (elf);
      store_relocations (elf);
      store_headers (elf);
      store_moves (elf);
      write_buffer (elf);
      CHECK (elf_update (elf, ELF_C_NULL) == -1 && elf_errno () != 0);
      CHECK (elf_end (elf) == 0);
      CHECK (memcmp (m.bytes, same.bytes, m.size) == 0);
    }
  return ended ("storing");
}
