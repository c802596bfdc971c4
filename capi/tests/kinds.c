/* kinds.c: items of each kind are stored in sections that a program makes, written, read again from
   the file, from a chunk of it and from memory, and changed there, in both classes and both orders.
   What does not fit class 32 is refused there. */
#define _GNU_SOURCE
#include "check.h"
#include "file.h"

typedef void *get_call (Elf_Data *data, int ndx, void *dst);
typedef int put_call (Elf_Data *data, int ndx, void *src);

/* A kind of items: two of them, and one with a number that class 32 has no room for. */
struct kind
{
  Elf_Type type;
  GElf_Word section;
  get_call *get;
  put_call *put;
  size_t size;
  const void *items[2], *wide;
};

#define KIND(type, section, call, record, first, second, too_wide) \
  { type, section, (get_call *) gelf_get##call, (put_call *) gelf_update_##call, sizeof (record), \
    { &(const record) first, &(const record) second }, too_wide }
#define ITEM(...) { __VA_ARGS__ }
#define WIDE(record, ...) &(const record) { __VA_ARGS__ }

static const uint64_t big = (uint64_t) 1 << 32;

/* elfutils' library has other sizes of ELF_T_MOVE, so this kind is the last. */
static const struct kind kinds[] = {
  KIND (ELF_T_SYM, SHT_SYMTAB, sym, GElf_Sym, ITEM (1, 0x12, 2, 3, 0x11223344, 8),
        ITEM (5, 6, 0, SHN_ABS, 7, 8), WIDE (GElf_Sym, 1, 2, 3, 4, 1ull << 32, 6)),
  KIND (ELF_T_REL, SHT_REL, rel, GElf_Rel, ITEM (0x30, GELF_R_INFO (2ull, 7)),
        ITEM (0x40, GELF_R_INFO (0xffffffull, 0xff)),
        WIDE (GElf_Rel, 1, GELF_R_INFO (1ull << 24, 0))),
  KIND (ELF_T_RELA, SHT_RELA, rela, GElf_Rela, ITEM (0x50, GELF_R_INFO (3ull, 9), -5),
        ITEM (0x60, 0, INT32_MIN), WIDE (GElf_Rela, 1, 0, (int64_t) INT32_MAX + 1)),
  KIND (ELF_T_DYN, SHT_DYNAMIC, dyn, GElf_Dyn, ITEM (DT_NEEDED, { 0x70 }), ITEM (-2, { 0x80 }),
        WIDE (GElf_Dyn, (int64_t) INT32_MAX + 1, { 0 })),
  KIND (ELF_T_HALF, SHT_GNU_versym, versym, GElf_Versym, ITEM (0x8002), ITEM (0x1234), NULL),
  KIND (ELF_T_SYMINFO, SHT_SUNW_syminfo, syminfo, GElf_Syminfo, ITEM (1, 2), ITEM (3, 0xff), NULL),
  KIND (ELF_T_LIB, SHT_GNU_LIBLIST, lib, GElf_Lib, ITEM (1, 2, 3, 4, 5), ITEM (6, 7, 8, 9, 10),
        NULL),
  KIND (ELF_T_MOVE, SHT_SUNW_move, move, GElf_Move, ITEM (0x1122334455667788, 0x501, 3, 4, 5),
        ITEM (1, 2, 3, 4, 5), WIDE (GElf_Move, 1, 1ull << 32, 3, 4, 5)),
};

enum { KINDS = sizeof kinds / sizeof kinds[0], FIRST = 1 };

static int is64;

/* The items are these, and there are no others; an item of another kind is not to be had. */
static void
look (const struct kind *k, Elf_Data *data, const void *first, const void *second)
{
  uint64_t item[8];
  Elf32_Word other;
  CHECK (data != NULL && data->d_type == k->type);
  CHECK (k->get (data, 0, item) == item && memcmp (item, first, k->size) == 0);
  CHECK (k->get (data, 1, item) == item && memcmp (item, second, k->size) == 0);
  CHECK (k->get (data, 2, item) == NULL && elf_errno () == 22);
  CHECK (k->get (data, -1, item) == NULL && elf_errno () == 22);
  CHECK (k->get (NULL, 0, item) == NULL);
  CHECK (gelf_getauxv (data, 0, (GElf_auxv_t *) item) == NULL && elf_errno () == 4);
  CHECK (gelf_getsymshndx (data, data, 0, (GElf_Sym *) item, &other) == NULL && elf_errno () == 4);
}

/* Both items are stored, and one that does not fit is not. */
static void
store (const struct kind *k, Elf_Data *data, const void *first, const void *second)
{
  if (k->wide != NULL)
    CHECK (k->put (data, 0, (void *) k->wide) == is64 && (is64 || elf_errno () == 33));
  CHECK (k->put (data, 0, (void *) first) == 1);
  CHECK (k->put (data, 1, (void *) second) == 1);
  CHECK (k->put (data, 2, (void *) first) == 0 && elf_errno () == 22);
  CHECK (k->put (NULL, 0, (void *) first) == 0);
  CHECK (gelf_update_auxv (data, 0, (GElf_auxv_t *) first) == 0 && elf_errno () == 31);
  look (k, data, first, second);
}

static Elf_Data *
add_section (Elf *elf, GElf_Word type, Elf_Type kind, size_t size)
{
  GElf_Shdr shdr;
  Elf_Scn *scn = elf_newscn (elf);
  Elf_Data *data = elf_newdata (scn);
  CHECK (gelf_getshdr (scn, &shdr) == &shdr);
  shdr.sh_type = type;
  CHECK (gelf_update_shdr (scn, &shdr) == 1);
  data->d_buf = calloc (1, size);
  data->d_size = size;
  data->d_type = kind;
  data->d_align = 8;
  return data;
}

/* A definition with two names, and a need of a file with two versions. */
static const GElf_Verdef verdef = { 1, 2, 3, 2, 5, 20, 0 };
static const GElf_Verdaux verdaux[2] = { { 6, 8 }, { 7, 0 } };
static const GElf_Verneed verneed = { 1, 2, 3, 16, 0 };
static const GElf_Vernaux vernaux[2] = { { 4, 5, 6, 7, 16 }, { 8, 9, 10, 11, 0 } };

enum { DEFINED = 36, NEEDED = 48 };

static void
store_versions (Elf_Data *defined, Elf_Data *needed)
{
  CHECK (gelf_update_verdef (defined, 0, (GElf_Verdef *) &verdef) == 1);
  CHECK (gelf_update_verdaux (defined, 20, (GElf_Verdaux *) &verdaux[0]) == 1);
  CHECK (gelf_update_verdaux (defined, 28, (GElf_Verdaux *) &verdaux[1]) == 1);
  CHECK (gelf_update_verdef (defined, 20, (GElf_Verdef *) &verdef) == 0 && elf_errno () != 0);
  CHECK (gelf_update_verdef (needed, 0, (GElf_Verdef *) &verdef) == 0 && elf_errno () == 31);
  CHECK (gelf_update_verneed (needed, 0, (GElf_Verneed *) &verneed) == 1);
  CHECK (gelf_update_vernaux (needed, 16, (GElf_Vernaux *) &vernaux[0]) == 1);
  CHECK (gelf_update_vernaux (needed, 32, (GElf_Vernaux *) &vernaux[1]) == 1);
  CHECK (gelf_update_vernaux (needed, 36, (GElf_Vernaux *) &vernaux[1]) == 0 && elf_errno () != 0);
}

static void
look_at_versions (Elf_Data *defined, Elf_Data *needed)
{
  GElf_Verdef def;
  GElf_Verdaux name;
  GElf_Verneed need;
  GElf_Vernaux version;
  CHECK (defined != NULL && defined->d_size == DEFINED && defined->d_type == ELF_T_VDEF);
  CHECK (gelf_getverdef (defined, 0, &def) == &def && memcmp (&def, &verdef, sizeof def) == 0);
  for (int i = 0; i < 2; i++)
    CHECK (gelf_getverdaux (defined, 20 + 8 * i, &name) == &name
           && memcmp (&name, &verdaux[i], sizeof name) == 0);
  CHECK (gelf_getverdef (defined, DEFINED - 4, &def) == NULL && elf_errno () != 0);
  CHECK (gelf_getverdef (needed, 0, &def) == NULL && elf_errno () == 4);
  CHECK (needed != NULL && needed->d_size == NEEDED && needed->d_type == ELF_T_VNEED);
  CHECK (gelf_getverneed (needed, 0, &need) == &need
         && memcmp (&need, &verneed, sizeof need) == 0);
  for (int i = 0; i < 2; i++)
    CHECK (gelf_getvernaux (needed, 16 + 16 * i, &version) == &version
           && memcmp (&version, &vernaux[i], sizeof version) == 0);
  CHECK (gelf_getvernaux (needed, -1, &version) == NULL && elf_errno () != 0);
}

/* Makes the sections, and writes them. */
static void
make (int fd, int msb, int count)
{
  GElf_Ehdr ehdr;
  Elf *elf = elf_begin (fd, ELF_C_WRITE, NULL);
  CHECK (gelf_newehdr (elf, is64 ? ELFCLASS64 : ELFCLASS32) != NULL);
  CHECK (gelf_getehdr (elf, &ehdr) == &ehdr);
  ehdr.e_ident[EI_DATA] = msb ? ELFDATA2MSB : ELFDATA2LSB;
  ehdr.e_type = ET_REL;
  CHECK (gelf_update_ehdr (elf, &ehdr) == 1);
  for (int i = 0; i < count; i++)
    {
      const struct kind *k = &kinds[i];
      size_t size = gelf_fsize (elf, k->type, 2, EV_CURRENT);
      store (k, add_section (elf, k->section, k->type, size), k->items[0], k->items[1]);
    }
  Elf_Data *defined = add_section (elf, SHT_GNU_verdef, ELF_T_VDEF, DEFINED);
  store_versions (defined, add_section (elf, SHT_GNU_verneed, ELF_T_VNEED, NEEDED));
  CHECK (elf_update (elf, ELF_C_WRITE) > 0);
  for (Elf_Scn *scn = NULL; (scn = elf_nextscn (elf, scn)) != NULL;)
    free (elf_getdata (scn, NULL)->d_buf);
  CHECK (elf_end (elf) == 0);
}

/* Reads them as sections and as chunks of the file, and then changes them in memory. */
static void
read_again (Elf *elf, int count)
{
  GElf_Shdr shdr;
  for (int i = 0; i < count; i++)
    {
      const struct kind *k = &kinds[i];
      Elf_Scn *scn = elf_getscn (elf, FIRST + i);
      look (k, elf_getdata (scn, NULL), k->items[0], k->items[1]);
      CHECK (gelf_getshdr (scn, &shdr) == &shdr && shdr.sh_type == k->section);
      Elf_Data *chunk = elf_getdata_rawchunk (elf, shdr.sh_offset, shdr.sh_size, k->type);
      look (k, chunk, k->items[0], k->items[1]);
      CHECK (elf_getdata_rawchunk (elf, shdr.sh_offset, shdr.sh_size, k->type) == chunk);
      store (k, elf_getdata (scn, NULL), k->items[1], k->items[0]);
    }
  Elf_Data *defined = elf_getdata (elf_getscn (elf, FIRST + count), NULL);
  Elf_Data *needed = elf_getdata (elf_getscn (elf, FIRST + count + 1), NULL);
  look_at_versions (defined, needed);
  CHECK (gelf_getshdr (elf_getscn (elf, FIRST + count), &shdr) == &shdr);
  defined = elf_getdata_rawchunk (elf, shdr.sh_offset, shdr.sh_size, ELF_T_VDEF);
  CHECK (gelf_getshdr (elf_getscn (elf, FIRST + count + 1), &shdr) == &shdr);
  needed = elf_getdata_rawchunk (elf, shdr.sh_offset, shdr.sh_size, ELF_T_VNEED);
  look_at_versions (defined, needed);
  store_versions (elf_getdata (elf_getscn (elf, FIRST + count), NULL),
                  elf_getdata (elf_getscn (elf, FIRST + count + 1), NULL));
}

/* An auxiliary vector is in no section; a program has it in data of its own. */
static void
store_auxv (Elf *elf)
{
  uint64_t bytes[4] = { 0 };
  GElf_auxv_t x = { 3, { 0x40 } }, again;
  Elf_Data *data = elf_newdata (elf_newscn (elf));
  data->d_buf = bytes;
  data->d_size = gelf_fsize (elf, ELF_T_AUXV, 2, EV_CURRENT);
  data->d_type = ELF_T_AUXV;
  CHECK (gelf_update_auxv (data, 1, &x) == 1 && gelf_update_auxv (data, 2, &x) == 0);
  CHECK (gelf_getauxv (data, 1, &again) == &again && memcmp (&x, &again, sizeof x) == 0);
  x.a_un.a_val = big;
  CHECK (gelf_update_auxv (data, 0, &x) == is64);
}

/* A symbol and its extended index, which is in a table of words. */
static void
store_indexes (Elf *elf)
{
  uint64_t bytes[6] = { 0 };
  Elf32_Word words[2] = { 0 }, index = 77;
  GElf_Sym sym = { .st_shndx = SHN_XINDEX, .st_value = 5 }, again;
  Elf_Data *data = elf_newdata (elf_newscn (elf)), *table = elf_newdata (elf_newscn (elf));
  data->d_buf = bytes;
  data->d_size = gelf_fsize (elf, ELF_T_SYM, 2, EV_CURRENT);
  data->d_type = ELF_T_SYM;
  table->d_buf = words;
  table->d_size = sizeof words;
  table->d_type = ELF_T_WORD;
  CHECK (gelf_update_symshndx (data, table, 1, &sym, 70000) == 1 && words[1] == 70000);
  CHECK (gelf_getsymshndx (data, table, 1, &again, &index) == &again && index == 70000);
  CHECK (memcmp (&sym, &again, sizeof sym) == 0);
  CHECK (gelf_getsymshndx (data, NULL, 1, &again, &index) == &again && index == 0);
  CHECK (gelf_getsymshndx (data, table, 1, &again, NULL) == &again);
  CHECK (gelf_update_symshndx (data, table, 2, &sym, 1) == 0 && elf_errno () == 22);
  CHECK (gelf_update_symshndx (data, NULL, 1, &sym, 0) == 1);
  CHECK (gelf_update_symshndx (data, NULL, 1, &sym, 1) == 0 && elf_errno () == 22);
  CHECK (gelf_getsymshndx (data, data, 0, &again, &index) == NULL && elf_errno () == 4);
  CHECK (gelf_getsymshndx (NULL, table, 0, &again, &index) == NULL);
}

/* usage: kinds [KINDS] */
int
main (int argc, char **argv)
{
  static const Elf_Cmd cmds[] = { ELF_C_READ, ELF_C_READ_MMAP, ELF_C_RDWR };
  int count = argc > 1 ? atoi (argv[1]) : KINDS;
  elf_version (EV_CURRENT);
  for (int kind = 0; kind < 4; kind++)
    {
      is64 = kind & 1;
      int fd = file_of ("", 0);
      make (fd, kind >> 1, count);
      for (int i = 0; i < 3; i++)
        {
          Elf *elf = elf_begin (fd, cmds[i], NULL);
          CHECK (elf != NULL);
          read_again (elf, count);
          store_auxv (elf);
          store_indexes (elf);
          CHECK (elf_end (elf) == 0);
        }
      close (fd);
    }
  return ended ("kinds");
}
