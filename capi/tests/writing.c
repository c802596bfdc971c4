/* writing.c: images that are made anew, and images that are changed in place, in both classes and
   both orders: they are laid out, written, and read again. */
#define _GNU_SOURCE
#include "check.h"
#include "file.h"
#include "image.h"

enum { TEXT = 1, TABLE = 2, LIST = 3 };

static const char strings[] = "\0.text\0.shstrtab\0.symtab";

static Elf_Data *
add_data (Elf_Scn *scn, Elf_Type type, void *bytes, size_t size, size_t align)
{
  Elf_Data *data = elf_newdata (scn);
  CHECK (data != NULL && data->d_version == EV_CURRENT && data->d_size == 0);
  data->d_buf = bytes;
  data->d_size = size;
  data->d_type = type;
  data->d_align = align;
  return data;
}

static void
set_header (Elf_Scn *scn, GElf_Word name, GElf_Word type, GElf_Word link)
{
  GElf_Shdr shdr;
  CHECK (gelf_getshdr (scn, &shdr) == &shdr && shdr.sh_type == SHT_NULL);
  shdr.sh_name = name;
  shdr.sh_type = type;
  shdr.sh_link = link;
  CHECK (gelf_update_shdr (scn, &shdr) == 1);
}

/* Makes the headers and the sections. */
static void
make (Elf *elf, int is64, int msb, char *text, char *symbols)
{
  GElf_Ehdr ehdr;
  CHECK (gelf_getehdr (elf, &ehdr) == NULL && elf_errno () != 0);
  CHECK (gelf_newehdr (elf, is64 ? ELFCLASS64 : ELFCLASS32) != NULL);
  CHECK (gelf_newehdr (elf, is64 ? ELFCLASS32 : ELFCLASS64) == NULL && elf_errno () != 0);
  CHECK (gelf_getehdr (elf, &ehdr) == &ehdr && ehdr.e_type == ET_NONE);
  ehdr.e_ident[EI_DATA] = msb ? ELFDATA2MSB : ELFDATA2LSB;
  ehdr.e_type = ET_EXEC;
  ehdr.e_machine = is64 ? EM_X86_64 : EM_386;
  ehdr.e_version = EV_CURRENT;
  ehdr.e_entry = 0x1234;
  ehdr.e_shstrndx = TABLE;
  CHECK (gelf_update_ehdr (elf, &ehdr) == 1);
  CHECK (gelf_newphdr (elf, 1) != NULL);
  GElf_Phdr phdr = { .p_type = PT_LOAD, .p_vaddr = 0x1000, .p_filesz = 0x10, .p_memsz = 0x20 };
  CHECK (gelf_update_phdr (elf, 0, &phdr) == 1);
  CHECK (gelf_update_phdr (elf, 1, &phdr) == 0 && elf_errno () != 0);
  Elf_Scn *scn = elf_newscn (elf);
  CHECK (elf_ndxscn (scn) == TEXT);
  set_header (scn, 1, SHT_PROGBITS, 0);
  add_data (scn, ELF_T_BYTE, text, 3, 1);
  add_data (scn, ELF_T_BYTE, text, 5, 16);
  scn = elf_newscn (elf);
  CHECK (elf_ndxscn (scn) == TABLE);
  set_header (scn, 7, SHT_STRTAB, 0);
  add_data (scn, ELF_T_BYTE, (char *) strings, sizeof strings, 1);
  scn = elf_newscn (elf);
  set_header (scn, 17, SHT_SYMTAB, TABLE);
  Elf_Data *data = add_data (scn, ELF_T_SYM, symbols, gelf_fsize (elf, ELF_T_SYM, 2, EV_CURRENT),
                             8);
  GElf_Sym sym = { .st_name = 1, .st_value = 0x11223344, .st_size = 7, .st_shndx = TEXT };
  CHECK (gelf_update_sym (data, 1, &sym) == 1);
  CHECK (gelf_update_sym (data, 2, &sym) == 0 && elf_errno () != 0);
  CHECK (elf_newdata (elf_getscn (elf, 0)) == NULL && elf_errno () != 0);
}

/* What was made is there. */
static void
look (Elf *elf, int is64, int msb)
{
  GElf_Ehdr ehdr;
  GElf_Phdr phdr;
  GElf_Shdr shdr;
  GElf_Sym sym;
  size_t count;
  CHECK (gelf_getclass (elf) == (is64 ? ELFCLASS64 : ELFCLASS32));
  CHECK (gelf_getehdr (elf, &ehdr) == &ehdr && ehdr.e_type == ET_EXEC && ehdr.e_entry == 0x1234);
  CHECK (ehdr.e_ident[EI_DATA] == (msb ? ELFDATA2MSB : ELFDATA2LSB) && ehdr.e_shnum == 4);
  CHECK (ehdr.e_ehsize == (is64 ? 64 : 52) && ehdr.e_phoff == ehdr.e_ehsize && ehdr.e_phnum == 1);
  CHECK (elf_getphdrnum (elf, &count) == 0 && count == 1);
  CHECK (gelf_getphdr (elf, 0, &phdr) == &phdr && phdr.p_vaddr == 0x1000 && phdr.p_memsz == 0x20);
  CHECK (elf_getshdrnum (elf, &count) == 0 && count == 4);
  CHECK (elf_getshdrstrndx (elf, &count) == 0 && count == TABLE);
  CHECK (gelf_getshdr (elf_getscn (elf, TEXT), &shdr) == &shdr && shdr.sh_size == 21);
  CHECK (shdr.sh_addralign == 16 && shdr.sh_offset % 16 == 0);
  CHECK (strcmp (elf_strptr (elf, TABLE, shdr.sh_name), ".text") == 0);
  CHECK (gelf_getshdr (elf_getscn (elf, LIST), &shdr) == &shdr);
  CHECK (shdr.sh_entsize == (is64 ? 24 : 16) && shdr.sh_size == 2 * shdr.sh_entsize);
  CHECK (ehdr.e_shoff >= shdr.sh_offset + shdr.sh_size && ehdr.e_shoff % (is64 ? 8 : 4) == 0);
  Elf_Data *data = elf_getdata (elf_getscn (elf, LIST), NULL);
  CHECK (gelf_getsym (data, 1, &sym) == &sym && sym.st_value == 0x11223344 && sym.st_size == 7);
  CHECK (gelf_getsym (data, 0, &sym) == &sym && sym.st_value == 0 && sym.st_shndx == 0);
}

/* An image is made, laid out, written and read again. */
static void
write_anew (int is64, int msb)
{
  int fd = file_of ("", 0);
  char text[] = "abcdefgh", symbols[2 * sizeof (Elf64_Sym)] = { 0 };
  elf_fill (0x5a);
  Elf *elf = elf_begin (fd, ELF_C_WRITE, NULL);
  CHECK (elf != NULL && elf_kind (elf) == ELF_K_ELF && gelf_getclass (elf) == ELFCLASSNONE);
  CHECK (elf_update (elf, ELF_C_NULL) == -1 && elf_errno () != 0);
  make (elf, is64, msb, text, symbols);
  int64_t size = elf_update (elf, ELF_C_NULL);
  CHECK (size > 0 && lseek (fd, 0, SEEK_END) == 0);
  look (elf, is64, msb);
  CHECK (elf_update (elf, ELF_C_WRITE) == size && lseek (fd, 0, SEEK_END) == size);
  CHECK (elf_update (elf, ELF_C_READ) == -1 && elf_errno () != 0);
  look (elf, is64, msb);
  CHECK (elf_end (elf) == 0);
  elf_fill (0);
  elf = elf_begin (fd, ELF_C_READ, NULL);
  look (elf, is64, msb);
  Elf_Data *data = elf_getdata (elf_getscn (elf, TEXT), NULL);
  CHECK (data != NULL && data->d_size == 21);
  CHECK (memcmp (data->d_buf, "abcZZZZZZZZZZZZZabcde", 21) == 0);
  CHECK (elf_update (elf, ELF_C_WRITE) == -1 && elf_errno () != 0);
  CHECK (elf_end (elf) == 0);
  close (fd);
}

/* One symbol of an image is changed, with its layout: nothing else of the file is another. */
static void
change_in_place (struct image *m)
{
  int fd = file_of (m->bytes, m->size);
  GElf_Sym sym;
  Elf *elf = elf_begin (fd, ELF_C_RDWR, NULL);
  CHECK (elf_flagelf (elf, ELF_C_SET, ELF_F_LAYOUT) == ELF_F_LAYOUT);
  Elf_Data *data = elf_getdata (elf_getscn (elf, SYMBOLS), NULL);
  CHECK (gelf_getsym (data, 1, &sym) == &sym && sym.st_size == 8);
  sym.st_size = 9;
  CHECK (gelf_update_sym (data, 1, &sym) == 1);
  CHECK (elf_update (elf, ELF_C_WRITE) == (int64_t) m->size);
  CHECK (gelf_getsym (data, 1, &sym) == &sym && sym.st_size == 9);
  CHECK (elf_end (elf) == 0);
  uint8_t now[sizeof m->bytes];
  CHECK (pread (fd, now, sizeof now, 0) == (ssize_t) m->size);
  size_t differ = 0;
  for (size_t i = 0; i < m->size; i++)
    differ += now[i] != m->bytes[i];
  CHECK (differ == 1);
  close (fd);
}

/* A section is added and one made longer, with a layout anew; the descriptor is then over what was
   written, and data that was asked for before is still there. */
static void
grow_in_place (struct image *m)
{
  static char more[] = "more";
  int fd = file_of (m->bytes, m->size);
  GElf_Ehdr ehdr;
  GElf_Shdr shdr;
  GElf_Sym sym;
  Elf *elf = elf_begin (fd, ELF_C_RDWR, NULL);
  Elf_Scn *scn = elf_getscn (elf, STRINGS);
  Elf_Data *data = elf_getdata (scn, NULL);
  Elf_Data *symbols = elf_getdata (elf_getscn (elf, SYMBOLS), NULL);
  size_t size = data->d_size;
  add_data (scn, ELF_T_BYTE, more, sizeof more, 1);
  CHECK (elf_getdata (scn, data) != NULL && elf_getdata (scn, elf_getdata (scn, data)) == NULL);
  Elf_Scn *added = elf_newscn (elf);
  CHECK (elf_ndxscn (added) == IMAGE_SECTIONS);
  set_header (added, 1, SHT_PROGBITS, 0);
  add_data (added, ELF_T_BYTE, more, 4, 1);
  CHECK (strcmp (elf_strptr (elf, STRINGS, 7), "second") == 0);
  CHECK (elf_strptr (elf, IMAGE_SECTIONS, 1) == NULL && elf_errno () != 0);
  CHECK (gelf_getehdr (elf, &ehdr) == &ehdr);
  ehdr.e_flags = 3;
  CHECK (gelf_update_ehdr (elf, &ehdr) == 1);
  int64_t length = elf_update (elf, ELF_C_WRITE);
  CHECK (length > 0 && lseek (fd, 0, SEEK_END) == length);
  for (int again = 0; again < 2; again++)
    {
      CHECK (gelf_getehdr (elf, &ehdr) == &ehdr && ehdr.e_flags == 3
             && ehdr.e_shnum == IMAGE_SECTIONS + 1);
      CHECK (gelf_getshdr (elf_getscn (elf, STRINGS), &shdr) == &shdr
             && shdr.sh_size == size + sizeof more);
      CHECK (strcmp (elf_strptr (elf, STRINGS, 1), "first") == 0);
      CHECK (strcmp (elf_strptr (elf, STRINGS, size), "more") == 0);
      CHECK (gelf_getsym (symbols, 1, &sym) == &sym && sym.st_value == 0x1234);
      data = elf_getdata (elf_getscn (elf, IMAGE_SECTIONS), NULL);
      CHECK (data->d_size == 4 && memcmp (data->d_buf, more, 4) == 0);
      if (again == 0)
        {
          CHECK (elf_update (elf, ELF_C_WRITE) == length);
          CHECK (elf_end (elf) == 0);
          elf = elf_begin (fd, ELF_C_RDWR, NULL);
          symbols = elf_getdata (elf_getscn (elf, SYMBOLS), NULL);
        }
    }
  CHECK (elf_end (elf) == 0);
  close (fd);
}

/* Sets the section of the names, whose number does not fit the ELF header. */
static void
set_names (Elf *elf, GElf_Word index)
{
  GElf_Ehdr ehdr;
  GElf_Shdr first;
  CHECK (gelf_getshdr (elf_getscn (elf, 0), &first) == &first);
  first.sh_link = index;
  CHECK (gelf_update_shdr (elf_getscn (elf, 0), &first) == 1);
  CHECK (gelf_getehdr (elf, &ehdr) == &ehdr);
  ehdr.e_shstrndx = SHN_XINDEX;
  CHECK (gelf_update_ehdr (elf, &ehdr) == 1);
}

/* Adds so many sections, with no data. */
static void
add_sections (Elf *elf, GElf_Word type, size_t count)
{
  for (size_t i = 0; i < count; i++)
    set_header (elf_newscn (elf), 0, type, 0);
}

/* An image has more sections than its ELF header can tell; the numbers are in section 0, which is
   there before any other is made. Another section of names is chosen in place. */
static void
number_many (int is64, int msb)
{
  enum { MANY = SHN_LORESERVE + 7 };
  int fd = file_of ("", 0);
  GElf_Ehdr ehdr;
  size_t index, count;
  Elf *elf = elf_begin (fd, ELF_C_WRITE, NULL);
  CHECK (gelf_newehdr (elf, is64 ? ELFCLASS64 : ELFCLASS32) != NULL);
  CHECK (gelf_getehdr (elf, &ehdr) == &ehdr);
  ehdr.e_ident[EI_DATA] = msb ? ELFDATA2MSB : ELFDATA2LSB;
  ehdr.e_shstrndx = SHN_XINDEX;
  CHECK (gelf_update_ehdr (elf, &ehdr) == 1);
  CHECK (elf_getshdrstrndx (elf, &index) == -1 && elf_errno () != 0);
  set_names (elf, MANY - 1);
  CHECK (elf_getshdrnum (elf, &count) == 0 && count == 1);
  add_sections (elf, SHT_STRTAB, MANY - 1);
  CHECK (elf_getshdrstrndx (elf, &index) == 0 && index == MANY - 1);
  CHECK (elf_update (elf, ELF_C_WRITE) > 0 && elf_end (elf) == 0);
  for (size_t names = MANY - 1; names < MANY + 1; names++)
    {
      elf = elf_begin (fd, ELF_C_RDWR, NULL);
      CHECK (gelf_getehdr (elf, &ehdr) == &ehdr && ehdr.e_shnum == 0);
      CHECK (ehdr.e_shstrndx == SHN_XINDEX);
      CHECK (elf_getshdrstrndx (elf, &index) == 0 && index == names);
      CHECK (elf_getshdrnum (elf, &count) == 0 && count == names + 1);
      CHECK (gelf_update_ehdr (elf, &ehdr) == 1);
      CHECK (elf_getshdrstrndx (elf, &index) == 0 && index == names);
      add_sections (elf, SHT_STRTAB, 1);
      set_names (elf, names + 1);
      CHECK (elf_getshdrstrndx (elf, &index) == 0 && index == names + 1);
      CHECK (elf_update (elf, ELF_C_WRITE) > 0);
      CHECK (elf_getshdrstrndx (elf, &index) == 0 && index == names + 1);
      CHECK (elf_end (elf) == 0);
    }
  close (fd);
}

/* A clone makes the file anew, of what the other descriptor still has. */
static void
clone_in_place (struct image *m)
{
  int fd = file_of (m->bytes, m->size);
  GElf_Ehdr ehdr;
  Elf *elf = elf_begin (fd, ELF_C_RDWR, NULL);
  CHECK (elf_clone (elf, ELF_C_READ) == NULL);
  Elf *clone = elf_clone (elf, ELF_C_EMPTY);
  CHECK (clone != NULL && gelf_getclass (clone) == gelf_getclass (elf));
  CHECK (gelf_newehdr (clone, gelf_getclass (elf)) != NULL);
  CHECK (gelf_getehdr (elf, &ehdr) == &ehdr);
  ehdr.e_shstrndx = 0;
  CHECK (gelf_update_ehdr (clone, &ehdr) == 1);
  Elf_Data *data = elf_getdata (elf_getscn (elf, STRINGS), NULL);
  Elf_Scn *scn = elf_newscn (clone);
  set_header (scn, 0, SHT_STRTAB, 0);
  add_data (scn, ELF_T_BYTE, data->d_buf, data->d_size, 1);
  int64_t size = elf_update (clone, ELF_C_WRITE);
  CHECK (size > 0 && size < (int64_t) m->size && lseek (fd, 0, SEEK_END) == size);
  CHECK (memcmp (data->d_buf, "\0first", 7) == 0);
  CHECK (strcmp (elf_strptr (elf, NAMES, 1), ".shstrtab") == 0);
  CHECK (elf_end (clone) == 0 && elf_end (elf) == 0);
  elf = elf_begin (fd, ELF_C_READ, NULL);
  CHECK (strcmp (elf_strptr (elf, 1, 7), "second") == 0);
  CHECK (elf_end (elf) == 0);
  close (fd);
}

/* What programs saw of an image that was written stays where a clone then writes the file. */
static void
clone_written (struct image *m)
{
  int fd = file_of (m->bytes, m->size);
  Elf *elf = elf_begin (fd, ELF_C_RDWR, NULL);
  size_t size;
  uint8_t before[4096];
  CHECK (elf_update (elf, ELF_C_WRITE) > 0);
  char *raw = elf_rawfile (elf, &size);
  CHECK (raw != NULL && size <= sizeof before);
  memcpy (before, raw, size);
  Elf *clone = elf_clone (elf, ELF_C_EMPTY);
  CHECK (gelf_newehdr (clone, gelf_getclass (elf)) != NULL && elf_update (clone, ELF_C_WRITE) > 0);
  CHECK (memcmp (raw, before, size) == 0);
  CHECK (elf_end (clone) == 0 && elf_end (elf) == 0);
  close (fd);
}

/* What programs saw of a file stays where the file gets shorter by some pages, whether a clone
   writes it or the descriptor itself. */
static void
shorten_in_place (struct image *m, int by_clone)
{
  enum { SIZE = 20000 };
  static char bytes[SIZE];
  int fd = file_of (m->bytes, m->size);
  CHECK (ftruncate (fd, SIZE) == 0 && pwrite (fd, "last", 4, SIZE - 4) == 4);
  Elf *elf = elf_begin (fd, ELF_C_RDWR, NULL), *clone = NULL;
  char *raw = elf_rawfile (elf, NULL);
  CHECK (raw != NULL);
  if (by_clone)
    {
      clone = elf_clone (elf, ELF_C_EMPTY);
      CHECK (gelf_newehdr (clone, gelf_getclass (elf)) != NULL);
    }
  CHECK (elf_update (by_clone ? clone : elf, ELF_C_WRITE) < 4096);
  CHECK (lseek (fd, 0, SEEK_END) < 4096);
  memcpy (bytes, raw, SIZE);
  CHECK (memcmp (bytes + SIZE - 4, "last", 4) == 0);
  CHECK (memcmp (bytes, m->bytes, m->size) == 0);
  CHECK (elf_end (clone) == 0 && elf_end (elf) == 0);
  close (fd);
}

/* What an image cannot be is refused, and the file stays. */
static void
refuse (struct image *m)
{
  int fd = file_of (m->bytes, m->size);
  GElf_Shdr shdr, good;
  Elf *elf = elf_begin (fd, ELF_C_RDWR, NULL);
  Elf_Scn *scn = elf_getscn (elf, SYMBOLS);
  CHECK (gelf_getshdr (scn, &good) == &good);
  shdr = good;
  shdr.sh_addralign = 3;
  CHECK (gelf_update_shdr (scn, &shdr) == 1);
  CHECK (elf_update (elf, ELF_C_WRITE) == -1 && elf_errno () != 0);
  CHECK (gelf_update_shdr (scn, &good) == 1);
  elf_flagelf (elf, ELF_C_SET, ELF_F_LAYOUT);
  elf_getdata (scn, NULL);
  shdr = good;
  shdr.sh_size -= 1;
  CHECK (gelf_update_shdr (scn, &shdr) == 1);
  CHECK (elf_update (elf, ELF_C_WRITE) == -1 && elf_errno () != 0);
  shdr.sh_size = good.sh_size + 1;
  CHECK (gelf_update_shdr (scn, &shdr) == 1);
  CHECK (elf_update (elf, ELF_C_NULL) == -1 && elf_errno () != 0);
  CHECK (elf_flagelf (elf, ELF_C_CLR, ELF_F_LAYOUT) == 0);
  CHECK (gelf_update_shdr (scn, &good) == 1);
  CHECK (elf_cntl (elf, ELF_C_FDDONE) == 0);
  CHECK (elf_update (elf, ELF_C_WRITE) == -1 && elf_errno () != 0);
  CHECK (elf_end (elf) == 0);
  uint8_t now[sizeof m->bytes];
  CHECK (pread (fd, now, sizeof now, 0) == (ssize_t) m->size);
  CHECK (memcmp (now, m->bytes, m->size) == 0);
  close (fd);
}

int
main (void)
{
  elf_version (EV_CURRENT);
  for (int kind = 0; kind < 4; kind++)
    {
      struct image m;
      make_image (&m, kind & 1, kind >> 1);
      write_anew (kind & 1, kind >> 1);
      number_many (kind & 1, kind >> 1);
      change_in_place (&m);
      grow_in_place (&m);
      clone_in_place (&m);
      clone_written (&m);
      shorten_in_place (&m, 0);
      shorten_in_place (&m, 1);
      refuse (&m);
    }
  return ended ("writing");
}
