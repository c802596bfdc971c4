/* reading.c: every part of a small image, in both classes and both orders, is what the image has;
   and what is not there is refused with an error. */
#include "check.h"
#include "image.h"

/* The header of a section has the name, and is the one with that number. */
static Elf_Scn *
section (Elf *elf, size_t index, const char *name)
{
  GElf_Shdr shdr;
  size_t names;
  Elf_Scn *scn = elf_getscn (elf, index);
  CHECK (scn != NULL && elf_ndxscn (scn) == index);
  CHECK (elf_getshdrstrndx (elf, &names) == 0 && names == NAMES);
  CHECK (gelf_getshdr (scn, &shdr) == &shdr);
  const char *found = elf_strptr (elf, names, shdr.sh_name);
  CHECK (found != NULL && strcmp (found, name) == 0);
  return scn;
}

static void
read_symbols (Elf *elf)
{
  GElf_Sym sym;
  Elf_Scn *scn = section (elf, SYMBOLS, ".symtab");
  Elf_Data *data = elf_getdata (scn, NULL);
  CHECK (data != NULL && data->d_type == ELF_T_SYM);
  CHECK (data->d_size == 3 * gelf_fsize (elf, ELF_T_SYM, 1, EV_CURRENT));
  CHECK (elf_getdata (scn, data) == NULL);
  CHECK (gelf_getsym (data, 1, &sym) == &sym && sym.st_value == 0x1234 && sym.st_size == 8);
  CHECK (sym.st_shndx == SHN_ABS && GELF_ST_TYPE (sym.st_info) == STT_OBJECT);
  CHECK (strcmp (elf_strptr (elf, STRINGS, sym.st_name), "first") == 0);
  CHECK (gelf_getsym (data, 2, &sym) == &sym && sym.st_shndx == SHN_UNDEF);
  CHECK (strcmp (elf_strptr (elf, STRINGS, sym.st_name), "second") == 0);
  CHECK (gelf_getsym (data, 3, &sym) == NULL && elf_errno () != 0);
  CHECK (gelf_getsym (data, -1, &sym) == NULL && elf_errno () != 0);
  CHECK (elf_scnshndx (scn) == 0);
}

static void
read_others (Elf *elf)
{
  GElf_Rela rela;
  GElf_Rel rel;
  Elf_Data *data = elf_getdata (section (elf, RELOCATIONS, ".rela"), NULL);
  CHECK (data != NULL && data->d_type == ELF_T_RELA);
  CHECK (gelf_getrela (data, 0, &rela) == &rela && rela.r_offset == 0x20 && rela.r_addend == -5);
  CHECK (GELF_R_SYM (rela.r_info) == 2 && GELF_R_TYPE (rela.r_info) == 9);
  CHECK (gelf_getrela (data, 1, &rela) == NULL && elf_errno () != 0);
  CHECK (gelf_getrel (data, 0, &rel) == NULL && elf_errno () != 0);

  GElf_Nhdr nhdr;
  size_t name, desc;
  data = elf_getdata (section (elf, NOTES, ".note"), NULL);
  CHECK (data != NULL && data->d_type == ELF_T_NHDR);
  CHECK (gelf_getnote (data, 0, &nhdr, &name, &desc) == data->d_size);
  CHECK (nhdr.n_type == 77 && nhdr.n_namesz == 4 && nhdr.n_descsz == 4);
  CHECK (memcmp ((char *) data->d_buf + name, "abc", 4) == 0 && desc == 16);
  CHECK (gelf_getnote (data, data->d_size, &nhdr, &name, &desc) == 0);
  CHECK (gelf_getnote (data, 4, &nhdr, &name, &desc) == 0 && elf_errno () != 0);
}

/* libdw goes from data to its section and from there to the descriptor without a call, by the
   places that elfutils 0.188 has them at; of a chunk of the file too. */
static void
find_descriptor (Elf *elf)
{
  const struct { Elf_Data d; char *section; } *data[2] = {
    (void *) elf_getdata (elf_getscn (elf, SYMBOLS), NULL),
    (void *) elf_getdata_rawchunk (elf, 0, 8, ELF_T_BYTE)
  };
  for (int i = 0; i < 2; i++)
    {
      Elf *found = NULL;
      CHECK (data[i] != NULL && data[i]->section != NULL);
      memcpy (&found, data[i]->section + 0x88, sizeof found);
      CHECK (found == elf);
    }
}

static void
read_image (const struct image *m)
{
  char *copy = malloc (m->size);
  memcpy (copy, m->bytes, m->size);
  Elf *elf = elf_memory (copy, m->size);
  GElf_Ehdr ehdr;
  GElf_Phdr phdr;
  size_t count;
  CHECK (elf != NULL && elf_kind (elf) == ELF_K_ELF);
  CHECK (gelf_getclass (elf) == (m->is64 ? ELFCLASS64 : ELFCLASS32));
  CHECK (gelf_getehdr (elf, &ehdr) == &ehdr && ehdr.e_type == ET_REL && ehdr.e_shnum == 6);
  CHECK (memcmp (ehdr.e_ident, m->bytes, EI_NIDENT) == 0);
  CHECK ((elf64_getehdr (elf) != NULL) == m->is64 && (elf32_getehdr (elf) != NULL) != m->is64);
  CHECK (elf_getshdrnum (elf, &count) == 0 && count == IMAGE_SECTIONS);
  CHECK (elf_getphdrnum (elf, &count) == 0 && count == 0);
  CHECK (gelf_getphdr (elf, 0, &phdr) == NULL && elf_errno () != 0);
  CHECK (elf_getscn (elf, IMAGE_SECTIONS) == NULL && elf_errno () != 0);
  CHECK (elf_strptr (elf, STRINGS, 14) == NULL && elf_errno () != 0);
  CHECK (elf_strptr (elf, SYMBOLS, 1) == NULL && elf_errno () != 0);
  CHECK (elf_rawfile (elf, &count) == copy && count == m->size);
  count = 0;
  for (Elf_Scn *scn = NULL; (scn = elf_nextscn (elf, scn)) != NULL;)
    CHECK (elf_ndxscn (scn) == ++count && elf_rawdata (scn, NULL) != NULL);
  CHECK (count == IMAGE_SECTIONS - 1);
  read_symbols (elf);
  read_others (elf);
  find_descriptor (elf);
  CHECK (elf_getscn (elf, 0) != NULL && elf_ndxscn (elf_getscn (elf, 0)) == 0);
  CHECK (elf_begin (-1, ELF_C_READ, elf) == elf && elf_end (elf) == 1);
  CHECK (elf_end (elf) == 0);
  free (copy);
}

/* An image whose tables do not lie in it is read as far as it goes, and its header as it stands. */
static void
read_cut (struct image *m)
{
  GElf_Ehdr ehdr;
  GElf_Phdr phdr;
  size_t count;
  Elf *elf = elf_memory ((char *) m->bytes, m->size - 1);
  CHECK (elf != NULL && elf_kind (elf) == ELF_K_ELF);
  CHECK (gelf_getehdr (elf, &ehdr) == &ehdr && ehdr.e_shnum == IMAGE_SECTIONS);
  CHECK (ehdr.e_shoff != 0 && ehdr.e_shstrndx == NAMES);
  CHECK (elf_getshdrnum (elf, &count) == 0 && count == 0);
  CHECK (elf_getscn (elf, 1) == NULL && elf_errno () != 0 && elf_nextscn (elf, NULL) == NULL);
  CHECK (elf_getdata_rawchunk (elf, 0, m->size - 1, ELF_T_BYTE) != NULL);
  CHECK (elf_getdata_rawchunk (elf, 0, m->size, ELF_T_BYTE) == NULL && elf_errno () != 0);
  CHECK (elf_end (elf) == 0);

  /* two program headers, of which the image has the first alone, and another version */
  size_t segment = m->is64 ? 56 : 32, header = m->is64 ? 64 : 52;
  put (m, 20, 4, 7);
  put (m, m->is64 ? 32 : 28, m->is64 ? 8 : 4, header);
  put (m, m->is64 ? 56 : 44, 2, 2);
  put (m, header, 4, PT_NOTE);
  elf = elf_memory ((char *) m->bytes, header + segment + 3);
  CHECK (elf != NULL && gelf_getehdr (elf, &ehdr) == &ehdr);
  CHECK (ehdr.e_version == 7 && ehdr.e_phnum == 2);
  CHECK (elf_getphdrnum (elf, &count) == 0 && count == 1);
  CHECK (gelf_getphdr (elf, 0, &phdr) == &phdr && phdr.p_type == PT_NOTE);
  CHECK (gelf_getphdr (elf, 1, &phdr) == NULL && elf_errno () != 0);
  CHECK (elf_end (elf) == 0);
  elf = elf_memory ((char *) m->bytes, header - 1);
  CHECK (elf != NULL && elf_kind (elf) == ELF_K_NONE && elf_end (elf) == 0);
}

/* The messages of the numbers have the texts that elfutils' library has. */
static void
check_messages (void)
{
  CHECK (strcmp (elf_errmsg (15), "invalid fmag field in archive header") == 0);
  CHECK (strcmp (elf_errmsg (25), "invalid command") == 0);
  CHECK (strcmp (elf_errmsg (39), "no such file") == 0);
  CHECK (strcmp (elf_errmsg (41), "program header only allowed in executables, shared objects, "
                                  "and core files") == 0);
  CHECK (strcmp (elf_errmsg (43), "invalid offset") == 0);
  CHECK (strcmp (elf_errmsg (50), "cannot decompress data") == 0);
  CHECK (strcmp (elf_errmsg (1000), "unknown error") == 0);
}

int
main (void)
{
  struct image m;
  check_messages ();
  Elf *none = elf_memory ((char *) &m, 0);
  CHECK (none != NULL && elf_kind (none) == ELF_K_NONE && elf_end (none) == 0);
  CHECK (elf_begin (0, ELF_C_READ, NULL) == NULL && elf_errno () != 0);
  CHECK (elf_version (77) == EV_NONE && elf_version (EV_CURRENT) == EV_CURRENT);
  CHECK (elf_errmsg (-1) != NULL && elf_end (NULL) == 0 && elf_kind (NULL) == ELF_K_NONE);
  CHECK (elf_getscn (NULL, 0) == NULL && elf_getdata (NULL, NULL) == NULL);
  CHECK (elf_memory (NULL, 0) == NULL && elf_begin (-1, ELF_C_READ, NULL) == NULL);
  for (int is64 = 0; is64 < 2; is64++)
    for (int msb = 0; msb < 2; msb++)
      {
        make_image (&m, is64, msb);
        read_image (&m);
        read_cut (&m);
      }
  CHECK (elf_hash ("printf") == 0x77905a6 && elf_gnu_hash ("printf") == 0x156b2bb8);
  return ended ("reading");
}
