/* translation.c: what stands in the file with the greatest byte first comes into memory as the C
   records have it, and goes back as it stood; in one buffer and in two. What is no whole item or
   has no room is refused with an error. */
#define _GNU_SOURCE
#include "check.h"
#include "file.h"

/* Puts numbers of the given widths, the greatest byte first. */
static size_t
put_numbers (uint8_t *to, const char *widths, const uint64_t *numbers)
{
  size_t at = 0;
  for (; *widths != '\0'; widths++, numbers++)
    for (int i = *widths - '0'; i > 0; i--)
      to[at++] = *numbers >> (8 * (i - 1));
  return at;
}

typedef Elf_Data *xlate (Elf_Data *dest, const Elf_Data *src, unsigned int encode);

/* Bytes of a type are translated to what is expected, and back. */
static void
check_both (int is64, Elf_Type type, const uint8_t *bytes, const void *expected, size_t size)
{
  xlate *tom = is64 ? elf64_xlatetom : elf32_xlatetom;
  xlate *tof = is64 ? elf64_xlatetof : elf32_xlatetof;
  uint8_t *file = malloc (size), *memory = malloc (size + 1);
  memcpy (file, bytes, size);
  Elf_Data from = { .d_buf = file, .d_type = type, .d_version = EV_CURRENT, .d_size = size };
  Elf_Data to = { .d_buf = memory, .d_version = EV_CURRENT, .d_size = size + 1 };
  CHECK (tom (&to, &from, ELFDATA2MSB) == &to && to.d_size == size && to.d_type == type);
  CHECK (memcmp (memory, expected, size) == 0);
  CHECK (tof (&from, &to, ELFDATA2MSB) == &from && memcmp (file, bytes, size) == 0);
  CHECK (tom (&from, &from, ELFDATA2MSB) == &from && memcmp (file, expected, size) == 0);
  CHECK (tof (&from, &from, ELFDATA2MSB) == &from && memcmp (file, bytes, size) == 0);
  CHECK (tom (&to, &from, ELFDATA2LSB) == &to && memcmp (memory, bytes, size) == 0);
  free (file);
  free (memory);
}

static void
check_records (void)
{
  uint8_t bytes[256];
  size_t size = put_numbers (bytes, "411288444112",
                             (uint64_t[]) { 1, 2, 3, 4, 0x1122334455667788, 6, 7, 8, 9, 10, 11,
                                            12 });
  Elf64_Sym sym64 = { 1, 2, 3, 4, 0x1122334455667788, 6 };
  Elf32_Sym sym32 = { 7, 8, 9, 10, 11, 12 };
  CHECK (size == sizeof sym64 + sizeof sym32);
  check_both (1, ELF_T_SYM, bytes, &sym64, sizeof sym64);
  check_both (0, ELF_T_SYM, bytes + sizeof sym64, &sym32, sizeof sym32);

  Elf64_Rela rela64[2] = { { 1, 2, -3 }, { 4, 5, 6 } };
  Elf32_Rela rela32 = { 7, 8, -9 };
  put_numbers (bytes, "888888444", (uint64_t[]) { 1, 2, -3, 4, 5, 6, 7, 8, -9 });
  check_both (1, ELF_T_RELA, bytes, rela64, sizeof rela64);
  check_both (0, ELF_T_RELA, bytes + sizeof rela64, &rela32, sizeof rela32);

  Elf64_Dyn dyn64 = { -1, { 2 } };
  Elf32_Rel rel32 = { 3, 0x456 };
  put_numbers (bytes, "8844", (uint64_t[]) { -1, 2, 3, 0x456 });
  check_both (1, ELF_T_DYN, bytes, &dyn64, sizeof dyn64);
  check_both (0, ELF_T_REL, bytes + sizeof dyn64, &rel32, sizeof rel32);

  Elf64_Shdr shdr64 = { 1, 2, 3, 4, 5, 6, 7, 8, 9, 10 };
  Elf32_Phdr phdr32 = { 1, 2, 3, 4, 5, 6, 7, 8 };
  put_numbers (bytes, "4488884488", (uint64_t[]) { 1, 2, 3, 4, 5, 6, 7, 8, 9, 10 });
  check_both (1, ELF_T_SHDR, bytes, &shdr64, sizeof shdr64);
  put_numbers (bytes, "44444444", (uint64_t[]) { 1, 2, 3, 4, 5, 6, 7, 8 });
  check_both (0, ELF_T_PHDR, bytes, &phdr32, sizeof phdr32);

  Elf64_Ehdr ehdr = { "0123456789abcde", 1, 2, 3, 4, 5, 6, 7, 8, 9, 10, 11, 12, 13 };
  memcpy (bytes, ehdr.e_ident, EI_NIDENT);
  put_numbers (bytes + EI_NIDENT, "2248884222222",
               (uint64_t[]) { 1, 2, 3, 4, 5, 6, 7, 8, 9, 10, 11, 12, 13 });
  check_both (1, ELF_T_EHDR, bytes, &ehdr, sizeof ehdr);

  uint64_t number = 0x0102030405060708;
  uint16_t halves[] = { 0x102, 0x304, 0x506, 0x708 };
  uint32_t words[] = { 0x1020304, 0x5060708 };
  put_numbers (bytes, "8", &number);
  check_both (0, ELF_T_XWORD, bytes, &number, 8);
  check_both (1, ELF_T_ADDR, bytes, &number, 8);
  check_both (0, ELF_T_OFF, bytes, words, 8);
  check_both (1, ELF_T_WORD, bytes, words, 8);
  check_both (0, ELF_T_HALF, bytes, halves, 8);
  check_both (1, ELF_T_BYTE, bytes, bytes, 8);
}

/* Records that lead from one to another. */
static void
check_lists (void)
{
  uint8_t bytes[128];
  struct
  {
    Elf64_Verneed need;
    Elf64_Vernaux aux[2];
    Elf64_Verneed last;
    Elf64_Vernaux its;
  } needs = { { 1, 2, 3, 16, 48 }, { { 4, 5, 6, 7, 16 }, { 8, 9, 10, 11, 0 } }, { 1, 1, 3, 16, 0 },
              { 12, 13, 14, 15, 0 } };
  size_t size = put_numbers (bytes, "22444" "42244" "42244" "22444" "42244",
                             (uint64_t[]) { 1, 2, 3, 16, 48, 4, 5, 6, 7, 16, 8, 9, 10, 11, 0, 1, 1,
                                            3, 16, 0, 12, 13, 14, 15, 0 });
  CHECK (size == sizeof needs);
  check_both (1, ELF_T_VNEED, bytes, &needs, sizeof needs);

  struct
  {
    Elf64_Verdef def;
    Elf64_Verdaux aux[2];
  } defs = { { 1, 2, 3, 2, 5, 20, 0 }, { { 6, 8 }, { 7, 0 } } };
  size = put_numbers (bytes, "2222444" "44" "44",
                      (uint64_t[]) { 1, 2, 3, 2, 5, 20, 0, 6, 8, 7, 0 });
  CHECK (size == sizeof defs);
  check_both (0, ELF_T_VDEF, bytes, &defs, sizeof defs);

  struct
  {
    Elf64_Nhdr first;
    char name[4], desc[8];
    Elf64_Nhdr second;
  } notes = { { 4, 5, 77 }, "abc", "12345", { 0, 0, 78 } };
  memcpy (bytes, &notes, sizeof notes);
  put_numbers (bytes, "444", (uint64_t[]) { 4, 5, 77 });
  put_numbers (bytes + 24, "444", (uint64_t[]) { 0, 0, 78 });
  check_both (1, ELF_T_NHDR, bytes, &notes, sizeof notes);

  struct
  {
    uint32_t counts[4];
    uint64_t bloom[2];
    uint32_t words[3];
  } hash = { { 1, 2, 2, 4 }, { 5, 6 }, { 7, 8, 9 } };
  size = put_numbers (bytes, "444488444", (uint64_t[]) { 1, 2, 2, 4, 5, 6, 7, 8, 9 });
  check_both (1, ELF_T_GNUHASH, bytes, &hash, size);
}

/* Records of the other kinds, in both classes. */
static void
check_others (void)
{
  uint8_t bytes[64];
  Elf32_Chdr chdr32 = { 1, 2, 3 };
  Elf64_Chdr chdr64 = { 1, 0, 2, 3 };
  put_numbers (bytes, "444", (uint64_t[]) { 1, 2, 3 });
  check_both (0, ELF_T_CHDR, bytes, &chdr32, sizeof chdr32);
  put_numbers (bytes, "4488", (uint64_t[]) { 1, 0, 2, 3 });
  check_both (1, ELF_T_CHDR, bytes, &chdr64, sizeof chdr64);
  check_both (1, ELF_T_CHDR, bytes, bytes, 5);          /* less than a header stays */

  Elf32_Verdaux verdaux = { 1, 2 };
  Elf32_Vernaux vernaux = { 1, 2, 3, 4, 5 };
  Elf32_Lib lib = { 1, 2, 3, 4, 5 };
  Elf32_Syminfo syminfo = { 1, 2 };
  Elf32_auxv_t auxv = { 1, { 2 } };
  put_numbers (bytes, "44", (uint64_t[]) { 1, 2 });
  check_both (0, ELF_T_VDAUX, bytes, &verdaux, sizeof verdaux);
  check_both (0, ELF_T_AUXV, bytes, &auxv, sizeof auxv);
  put_numbers (bytes, "42244", (uint64_t[]) { 1, 2, 3, 4, 5 });
  check_both (0, ELF_T_VNAUX, bytes, &vernaux, sizeof vernaux);
  put_numbers (bytes, "44444", (uint64_t[]) { 1, 2, 3, 4, 5 });
  check_both (0, ELF_T_LIB, bytes, &lib, sizeof lib);
  put_numbers (bytes, "22", (uint64_t[]) { 1, 2 });
  check_both (0, ELF_T_SYMINFO, bytes, &syminfo, sizeof syminfo);
}

/* Lists that end early: a record that does not lie in the bytes is left as it is. */
static void
check_ends (void)
{
  uint8_t bytes[64];
  struct
  {
    Elf64_Nhdr first;
    char name[4], desc[16];
    Elf64_Nhdr second;
  } notes = { { 1, 5, 77 }, "a", "12345", { 100, 0, 78 } };
  memcpy (bytes, &notes, sizeof notes);
  put_numbers (bytes, "444", (uint64_t[]) { 1, 5, 77 });
  put_numbers (bytes + 24, "444", (uint64_t[]) { 0, 0, 0 });
  check_both (1, ELF_T_NHDR8, bytes, &notes, 24);
  notes.first.n_descsz = 100;
  put_numbers (bytes, "444", (uint64_t[]) { 1, 100, 77 });
  check_both (1, ELF_T_NHDR, bytes, &notes, 24);
  notes.first.n_namesz = 100;
  put_numbers (bytes, "444", (uint64_t[]) { 100, 100, 77 });
  check_both (1, ELF_T_NHDR, bytes, &notes, 24);

  uint32_t words[5] = { 1, 2, 100, 4, 5 };
  put_numbers (bytes, "44444", (uint64_t[]) { 1, 2, 100, 4, 5 });
  check_both (0, ELF_T_GNUHASH, bytes, words, sizeof words);
  check_both (1, ELF_T_GNUHASH, bytes, words, 8);
  words[4] = 0;
  put_numbers (bytes + 16, "4", (uint64_t[]) { 0 });
  check_both (1, ELF_T_GNUHASH, bytes, words, sizeof words);

  Elf64_Verdef def = { 1, 2, 3, 2, 5, 100, 0 };
  put_numbers (bytes, "2222444", (uint64_t[]) { 1, 2, 3, 2, 5, 100, 0 });
  check_both (1, ELF_T_VDEF, bytes, &def, sizeof def);
}

/* More than a page of symbols. */
static void
check_many (void)
{
  enum { COUNT = 10000 };
  uint8_t *bytes = malloc (COUNT * sizeof (Elf64_Sym));
  Elf64_Sym *syms = calloc (COUNT, sizeof *syms);
  for (uint64_t i = 0; i < COUNT; i++)
    {
      syms[i] = (Elf64_Sym) { i, i & 255, 1, 2, i << 32, i };
      put_numbers (bytes + i * sizeof *syms, "411288",
                   (uint64_t[]) { i, i & 255, 1, 2, i << 32, i });
    }
  check_both (1, ELF_T_SYM, bytes, syms, COUNT * sizeof *syms);
  free (bytes);
  free (syms);
}

static void
check_refused (void)
{
  uint8_t bytes[32] = { 0 };
  Elf_Data from = { .d_buf = bytes, .d_type = ELF_T_SYM, .d_version = EV_CURRENT, .d_size = 25 };
  Elf_Data to = { .d_buf = bytes, .d_version = EV_CURRENT, .d_size = 24 };
  CHECK (elf64_xlatetom (&to, &from, ELFDATA2MSB) == NULL && elf_errno () != 0);
  from.d_size = 24;
  to.d_size = 23;
  CHECK (elf64_xlatetom (&to, &from, ELFDATA2MSB) == NULL && elf_errno () != 0);
  to.d_size = 24;
  CHECK (elf64_xlatetom (&to, &from, ELFDATANONE) == NULL && elf_errno () != 0);
  CHECK (elf64_xlatetom (NULL, &from, ELFDATA2MSB) == NULL);
  CHECK (elf64_xlatetof (&to, NULL, ELFDATA2MSB) == NULL);
  CHECK (gelf_xlatetom (NULL, &to, &from, ELFDATA2MSB) == NULL);
  CHECK (gelf_xlatetof (NULL, &to, &from, ELFDATA2MSB) == NULL);
  from.d_type = ELF_T_NUM;
  CHECK (elf32_xlatetof (&to, &from, ELFDATA2MSB) == NULL && elf_errno () != 0);
}

/* The class is that of a descriptor. */
static void
check_class (void)
{
  uint8_t bytes[8] = { 1, 2, 3, 4, 5, 6, 7, 8 };
  int fd = file_of ("", 0);
  Elf *elf = elf_begin (fd, ELF_C_WRITE, NULL);
  CHECK (elf32_newehdr (elf) != NULL);
  Elf_Data data = { .d_buf = bytes, .d_type = ELF_T_ADDR, .d_version = EV_CURRENT, .d_size = 8 };
  CHECK (gelf_xlatetom (elf, &data, &data, ELFDATA2MSB) == &data && bytes[0] == 4);
  CHECK (gelf_xlatetof (elf, &data, &data, ELFDATA2MSB) == &data && bytes[0] == 1);
  CHECK (elf_end (elf) == 0 && close (fd) == 0);
}

int
main (void)
{
  elf_version (EV_CURRENT);
  check_records ();
  check_lists ();
  check_others ();
  check_ends ();
  check_many ();
  check_refused ();
  check_class ();
  return ended ("translation");
}
