/* calls.c: what libFuzzer runs: a sequence of calls on an image or an archive. The input is a byte
   for how it is opened, one for the length of the sequence, the sequence, and the image. What is
   asked for is refused or given; nothing else is looked for but what the sanitizers say, and what
   the layer compares with the core (ELFKIT_CHECK). */
#define _GNU_SOURCE
#include <gelf.h>
#include <nlist.h>
#include <stdbool.h>
#include <string.h>

#include "../tests/file.h"

/* The bytes of the sequence that are left. */
static const uint8_t *at;
static size_t left;

static uint8_t
byte (void)
{
  if (left == 0)
    return 0;
  left--;
  return *at++;
}

/* A number: mostly a small one, now and then one at a bound. */
static uint64_t
number (void)
{
  static const uint64_t bounds[] = { UINT64_MAX, INT64_MAX, UINT32_MAX, INT32_MAX, 1ull << 32,
                                     0xffff, 0xff00, 0x8000 };
  uint8_t x = byte ();
  if (x >= 0xf8)
    return bounds[x - 0xf8];
  return x < 0xc0 ? x : (uint64_t) (x - 0xc0) << 8 | byte ();
}

/* The descriptors that are open: that of the file, and members of archives on it. */
enum { MOST = 4, PIECES = 64, PIECE = 300 };
static Elf *open_ones[MOST];
static int depth;
static Elf *elf;
static Elf_Scn *scn;
static Elf_Data *data;
static int fd;
static bool is_writable;

/* The buffers of data that the sequence made, which live as long as the descriptor. */
static uint8_t pieces[PIECES][PIECE];
static size_t piece_count;

static volatile uint8_t seen;

/* Looks at the ends of bytes. */
static void
look (const void *bytes, size_t size)
{
  if (bytes != NULL && size > 0)
    seen = ((const uint8_t *) bytes)[0] ^ ((const uint8_t *) bytes)[size - 1];
}

static void
take_data (Elf_Data *d)
{
  data = d;
  if (d != NULL)
    look (d->d_buf, d->d_size);
}

static void
look_at_string (const char *string)
{
  if (string != NULL)
    look (string, strlen (string) + 1);
}

/* Sections and their data. */
static void
get_section (void)
{
  scn = elf_getscn (elf, number ());
  data = NULL;
}

static void
next_section (void)
{
  scn = elf_nextscn (elf, scn);
  data = NULL;
}

static void
new_section (void)
{
  Elf_Scn *made = elf_newscn (elf);
  if (made != NULL)
    scn = made;
  data = NULL;
}

static void
get_data (void)
{
  take_data (elf_getdata (scn, NULL));
}

static void
next_data (void)
{
  take_data (elf_getdata (scn, data));
}

static void
raw_data (void)
{
  take_data (elf_rawdata (scn, NULL));
}

static void
new_data (void)
{
  Elf_Data *d = piece_count < PIECES ? elf_newdata (scn) : NULL;
  if (d == NULL)
    return;
  uint8_t *buffer = pieces[piece_count++];
  uint64_t size = number ();
  memset (buffer, byte (), PIECE);
  *d = (Elf_Data) { .d_buf = buffer, .d_size = size < PIECE ? size : PIECE,
                    .d_type = byte () % (ELF_T_NUM + 1), .d_version = EV_CURRENT };
  d->d_off = number ();
  d->d_align = byte () % 8 == 0 ? number () : 1u << byte () % 8;
  data = d;
}

static void
get_chunk (void)
{
  uint64_t place = number (), size = number ();
  take_data (elf_getdata_rawchunk (elf, place, size, byte () % (ELF_T_NUM + 2)));
}

static void
write_data (void)
{
  if (!is_writable || data == NULL || data->d_buf == NULL || data->d_size == 0)
    return;
  uint64_t place = number () % data->d_size;
  ((uint8_t *) data->d_buf)[place] = byte ();
  elf_flagdata (data, ELF_C_SET, ELF_F_DIRTY);
}

static void
get_string (void)
{
  size_t section = number ();
  look_at_string (elf_strptr (elf, section, number ()));
}

/* Items: each is asked for, and stored again with a byte changed. */
union item
{
  GElf_Sym sym;
  GElf_Rel rel;
  GElf_Rela rela;
  GElf_Dyn dyn;
  GElf_Versym versym;
  GElf_Syminfo syminfo;
  GElf_Move move;
  GElf_Lib lib;
  GElf_auxv_t auxv;
  GElf_Verdef verdef;
  GElf_Verdaux verdaux;
  GElf_Verneed verneed;
  GElf_Vernaux vernaux;
  uint8_t bytes[64];
};

typedef void *get_call (Elf_Data *data, int ndx, void *dst);
typedef int put_call (Elf_Data *data, int ndx, void *src);

#define BOTH(name) { (get_call *) gelf_get##name, (put_call *) gelf_update_##name }
static const struct
{
  get_call *get;
  put_call *put;
} items[] = { BOTH (sym), BOTH (rel), BOTH (rela), BOTH (dyn), BOTH (versym), BOTH (syminfo),
              BOTH (move), BOTH (lib), BOTH (auxv), BOTH (verdef), BOTH (verdaux),
              BOTH (verneed), BOTH (vernaux) };

enum { ITEMS = sizeof items / sizeof items[0] };

static void
get_items (void)
{
  union item x;
  int index = (int) number ();
  for (int i = 0; i < ITEMS; i++)
    items[i].get (data, index, &x);
}

static void
put_item (void)
{
  union item x = { .bytes = { 0 } };
  int kind = byte () % ITEMS, index = (int) number ();
  items[kind].get (data, index, &x);
  x.bytes[byte () % sizeof x.bytes] = byte ();
  items[kind].put (data, index, &x);
}

static void
use_indexes (void)
{
  GElf_Sym sym = { 0 };
  Elf32_Word index;
  Elf_Data *table = elf_getdata (elf_getscn (elf, number ()), NULL);
  int i = (int) number ();
  gelf_getsymshndx (data, table, i, &sym, &index);
  gelf_update_symshndx (data, table, i, &sym, byte ());
}

static void
get_notes (void)
{
  GElf_Nhdr nhdr;
  size_t place = number (), name, desc;
  for (int i = 0; i < 10; i++)
    {
      place = gelf_getnote (data, place, &nhdr, &name, &desc);
      if (place == 0)
        break;
      look ((uint8_t *) data->d_buf + name, nhdr.n_namesz);
      look ((uint8_t *) data->d_buf + desc, nhdr.n_descsz);
    }
}

/* Headers. */
static void
get_headers (void)
{
  GElf_Chdr chdr;
  size_t count;
  elf32_getehdr (elf);
  elf64_getehdr (elf);
  elf32_getphdr (elf);
  elf64_getphdr (elf);
  elf32_getshdr (scn);
  elf64_getshdr (scn);
  elf32_getchdr (scn);
  elf64_getchdr (scn);
  gelf_getchdr (scn, &chdr);
  elf_getphdrnum (elf, &count);
  elf_getshdrnum (elf, &count);
  elf_getshdrstrndx (elf, &count);
  elf_scnshndx (scn);
  elf_ndxscn (scn);
  look (elf_getident (elf, &count), EI_NIDENT);
}

static void
put_shdr (void)
{
  GElf_Shdr x;
  if (gelf_getshdr (scn, &x) == NULL)
    return;
  uint8_t field = byte () % 10;
  uint64_t value = number ();
  if (field < 2)
    *(field == 0 ? &x.sh_name : &x.sh_type) = value;
  else if (field < 4)
    *(field == 2 ? &x.sh_link : &x.sh_info) = value;
  else
    *(GElf_Xword *[]) { &x.sh_flags, &x.sh_addr, &x.sh_offset, &x.sh_size, &x.sh_addralign,
                        &x.sh_entsize }[field - 4] = value;
  gelf_update_shdr (scn, &x);
}

static void
put_ehdr (void)
{
  GElf_Ehdr x;
  if (gelf_getehdr (elf, &x) == NULL)
    return;
  uint8_t place = byte () % sizeof x;
  ((uint8_t *) &x)[place] = byte ();
  gelf_update_ehdr (elf, &x);
}

static void
put_phdr (void)
{
  GElf_Phdr x = { 0 };
  int index = (int) number ();
  gelf_getphdr (elf, index, &x);
  uint8_t place = byte () % sizeof x;
  ((uint8_t *) &x)[place] = byte ();
  gelf_update_phdr (elf, index, &x);
}

static void
new_headers (void)
{
  uint8_t which = byte ();
  if (which & 1)
    gelf_newehdr (elf, which & 2 ? ELFCLASS32 : ELFCLASS64);
  else
    gelf_newphdr (elf, number ());
}

static void
set_flags (void)
{
  Elf_Cmd cmd = byte () % 4 == 0 ? ELF_C_CLR : ELF_C_SET;
  uint8_t which = byte ();
  unsigned int flags = byte () % 16;
  if (which % 4 == 0)
    elf_flagelf (elf, cmd, flags);
  else if (which % 4 == 1)
    elf_flagehdr (elf, cmd, flags), elf_flagphdr (elf, cmd, flags);
  else if (which % 4 == 2)
    elf_flagscn (scn, cmd, flags), elf_flagshdr (scn, cmd, flags);
  else
    elf_flagdata (data, cmd, flags);
}

/* The whole. */
static void
compress (void)
{
  uint8_t how = byte ();
  if (how & 1)
    elf_compress (scn, how & 2 ? ELFCOMPRESS_ZLIB : 0, how & 4 ? ELF_CHF_FORCE : 0);
  else
    elf_compress_gnu (scn, how & 2 ? 1 : 0, how & 4 ? ELF_CHF_FORCE : 0);
  data = NULL;
}

static void
update (void)
{
  elf_update (elf, byte () % 2 ? ELF_C_WRITE : ELF_C_NULL);
  data = NULL;
}

static void
ask_whole (void)
{
  size_t size;
  gelf_checksum (elf);
  gelf_offscn (elf, number ());
  look (elf_rawfile (elf, &size), 0);
  look_at_string (elf_errmsg (-1));
  elf_cntl (elf, byte () % 8 == 0 ? ELF_C_FDDONE : ELF_C_READ);
}

static void
clone (void)
{
  Elf *made = elf_clone (elf, ELF_C_EMPTY);
  if (made != NULL && gelf_newehdr (made, gelf_getclass (made)) != NULL)
    elf_newscn (made);
  elf_update (made, byte () % 2 ? ELF_C_WRITE : ELF_C_NULL);
  elf_end (made);
}

/* Archives. */
static void
begin_member (void)
{
  Elf *made = depth < MOST ? elf_begin (fd, ELF_C_READ, elf) : NULL;
  if (made == NULL)
    return;
  open_ones[depth++] = elf = made;
  scn = NULL;
  data = NULL;
}

static void
end_member (void)
{
  if (depth < 2)
    return;
  if (byte () % 2)
    elf_next (elf);
  elf_end (elf);
  elf = open_ones[--depth - 1];
  scn = NULL;
  data = NULL;
}

static void
ask_archive (void)
{
  size_t count = 0;
  Elf_Arsym *symbols = elf_getarsym (elf, &count);
  for (size_t i = 0; i + 1 < count; i++)
    look_at_string (symbols[i].as_name);
  Elf_Arhdr *header = elf_getarhdr (elf);
  if (header != NULL)
    {
      look_at_string (header->ar_name);
      look_at_string (header->ar_rawname);
    }
  elf_getaroff (elf);
  elf_rand (elf, count > 1 && byte () % 2 ? symbols[0].as_off : number ());
}

/* Translation, of bytes of the sequence. */
static void
translate (void)
{
  uint8_t from[PIECE], to[PIECE], how = byte (), encoding = how & 4 ? ELFDATA2LSB : ELFDATA2MSB;
  Elf_Data src = { .d_buf = from, .d_type = byte () % (ELF_T_NUM + 1), .d_version = EV_CURRENT };
  Elf_Data dest = { .d_buf = how & 8 ? from : to, .d_version = EV_CURRENT, .d_size = PIECE };
  for (src.d_size = 0; src.d_size < PIECE && left > 0; src.d_size++)
    from[src.d_size] = byte ();
  if (how & 1)
    (how & 2 ? elf32_xlatetom : elf32_xlatetof) (&dest, &src, encoding);
  else
    (how & 2 ? elf64_xlatetom : elf64_xlatetof) (&dest, &src, encoding);
}

static void (*const calls[]) (void)
  = { get_section, next_section, new_section, get_data, next_data, raw_data, new_data, get_chunk,
      write_data, get_string, get_items, put_item, use_indexes, get_notes, get_headers, put_shdr,
      put_ehdr, put_phdr, new_headers, set_flags, compress, update, ask_whole, clone, begin_member,
      end_member, ask_archive, translate };

/* Looks for symbols in the file by their names. */
static void
find_symbols (const uint8_t *image, size_t size)
{
  char name[64];
  struct nlist list[] = { { .n_name = "second" }, { .n_name = "first" }, { .n_name = NULL } };
  int file = named_file_of (image, size, name);
  nlist (name, list);
  close (file);
}

int
LLVMFuzzerTestOneInput (const uint8_t *input, size_t size)
{
  static const Elf_Cmd cmds[] = { ELF_C_READ, ELF_C_READ_MMAP, ELF_C_READ_MMAP_PRIVATE, ELF_C_RDWR,
                                  ELF_C_RDWR_MMAP, ELF_C_RDWR, ELF_C_WRITE };
  if (size < 2)
    return 0;
  uint8_t mode = input[0] % 9;
  at = input + 2;
  left = input[1] < size - 2 ? input[1] : size - 2;
  const uint8_t *image = at + left;
  size_t length = size - 2 - left;
  char *copy = malloc (length == 0 ? 1 : length);
  memcpy (copy, image, length);
  elf_version (EV_CURRENT);
  if (mode == 8)
    find_symbols (image, length);
  fd = mode < 7 ? file_of (image, length) : -1;
  elf = mode < 7 ? elf_begin (fd, cmds[mode], NULL) : elf_memory (copy, length);
  is_writable = mode != 1 && mode < 7;
  scn = NULL;
  data = NULL;
  piece_count = 0;
  depth = 1;
  open_ones[0] = elf;
  while (left > 0 && elf != NULL)
    calls[byte () % (sizeof calls / sizeof calls[0])] ();
  while (depth > 0)
    elf_end (open_ones[--depth]);
  if (fd != -1)
    close (fd);
  free (copy);
  return 0;
}
