/* hostile.c: images and archives with a few bytes changed, and cut short, are read by every call.
   What is asked for is refused or given; nothing else is looked for but what the sanitizers say. */
#define _GNU_SOURCE
#include <nlist.h>

#include "archive.h"
#include "check.h"
#include "file.h"

static void
read_data (Elf_Data *data)
{
  union
  {
    GElf_Sym sym;
    GElf_Rel rel;
    GElf_Rela rela;
    GElf_Dyn dyn;
    GElf_Versym versym;
    GElf_Verdef verdef;
    GElf_Verdaux verdaux;
    GElf_Verneed verneed;
    GElf_Vernaux vernaux;
    GElf_Nhdr nhdr;
  } x;
  size_t name, desc;
  Elf32_Word index;
  for (int i = -1; i < 5; i++)
    {
      gelf_getsym (data, i, &x.sym);
      gelf_getsymshndx (data, data, i, &x.sym, &index);
      gelf_getrel (data, i, &x.rel);
      gelf_getrela (data, i, &x.rela);
      gelf_getdyn (data, i, &x.dyn);
      gelf_getversym (data, i, &x.versym);
      gelf_getverdef (data, 3 * i, &x.verdef);
      gelf_getverdaux (data, 3 * i, &x.verdaux);
      gelf_getverneed (data, 3 * i, &x.verneed);
      gelf_getvernaux (data, 3 * i, &x.vernaux);
    }
  for (size_t at = 0, steps = 0; data != NULL && steps < 100; steps++)
    if ((at = gelf_getnote (data, at, &x.nhdr, &name, &desc)) == 0)
      break;
}

static void
read_object (Elf *elf, size_t size)
{
  GElf_Ehdr ehdr;
  GElf_Shdr shdr;
  GElf_Phdr phdr;
  GElf_Chdr chdr;
  size_t count = 0;
  gelf_getehdr (elf, &ehdr);
  elf_getphdrnum (elf, &count);
  for (size_t i = 0; i <= count && i < 10; i++)
    gelf_getphdr (elf, i, &phdr);
  elf32_getphdr (elf);
  elf64_getphdr (elf);
  for (Elf_Scn *scn = elf_getscn (elf, 0); scn != NULL; scn = elf_nextscn (elf, scn))
    {
      gelf_getshdr (scn, &shdr);
      elf32_getshdr (scn);
      elf64_getshdr (scn);
      gelf_getchdr (scn, &chdr);
      elf_scnshndx (scn);
      for (size_t offset = 0; offset < 20; offset++)
        {
          const char *text = elf_strptr (elf, elf_ndxscn (scn), offset);
          if (text != NULL && strlen (text) > size)
            abort ();
        }
      Elf_Data *data = elf_getdata (scn, NULL);
      if (data != NULL && data->d_buf != NULL && data->d_size > 0)
        count += ((unsigned char *) data->d_buf)[data->d_size - 1];
      read_data (data);
      read_data (elf_rawdata (scn, NULL));
    }
  for (int type = -1; type <= ELF_T_NUM; type++)
    read_data (elf_getdata_rawchunk (elf, random_below (300), random_below (300), type));
  gelf_offscn (elf, 64);
  gelf_checksum (elf);
}

static void read_open (Elf *elf, size_t size);

/* Reads the members, and goes back to some of them. */
static void
read_archive (Elf *ar)
{
  size_t size, count;
  Elf *elf;
  Elf_Cmd cmd = ELF_C_READ;
  while ((elf = elf_begin (-1, cmd, ar)) != NULL)
    {
      Elf_Arhdr *header = elf_getarhdr (elf);
      if (strlen (header->ar_name) + strlen (header->ar_rawname) > sizeof (struct archive))
        abort ();
      const char *bytes = elf_rawfile (elf, &size);
      if (size > 0 && bytes[size - 1] == 1 && elf_getaroff (elf) < 0)
        abort ();
      read_open (elf, size);
      cmd = elf_next (elf);
      elf_end (elf);
    }
  Elf_Arsym *table = elf_getarsym (ar, &count);
  for (size_t i = 0; i < count && table[i].as_name != NULL; i++)
    if (elf_rand (ar, table[i].as_off) != 0 && strlen (table[i].as_name) < sizeof (struct archive))
      elf_end (elf_begin (-1, ELF_C_READ, ar));
  elf_rand (ar, random_below (3000));
}

static void
read_open (Elf *elf, size_t size)
{
  if (elf_kind (elf) == ELF_K_AR)
    read_archive (elf);
  else
    read_object (elf, size);
}

/* Reads a copy that ends where it ends, so that a read past it is seen. */
static void
read_copy (const void *bytes, size_t size)
{
  char *copy = malloc (size == 0 ? 1 : size);
  memcpy (copy, bytes, size);
  Elf *elf = elf_memory (copy, size);
  read_open (elf, size);
  elf_end (elf);
  free (copy);
}

/* Looks for symbols in a file with these bytes. */
static void
read_file (const void *bytes, size_t size)
{
  char name[64];
  struct nlist list[] = { { .n_name = "second" }, { .n_name = "first" }, { .n_name = NULL } };
  int fd = named_file_of (bytes, size, name);
  nlist (name, list);
  close (fd);
}

/* Has the strings of an image compressed. */
static void
pack (struct image *m)
{
  int fd = file_of (m->bytes, m->size);
  Elf *elf = elf_begin (fd, ELF_C_RDWR, NULL);
  elf_compress (elf_getscn (elf, STRINGS), ELFCOMPRESS_ZLIB, ELF_CHF_FORCE);
  elf_update (elf, ELF_C_WRITE);
  elf_end (elf);
  ssize_t size = pread (fd, m->bytes, sizeof m->bytes, 0);
  if (size <= 0)
    exit (2);
  m->size = size;
  close (fd);
}

/* Gives the table of symbols of an archive places of eight bytes, where their numbers happen to. */
static void
widen (struct archive *a)
{
  char *table = a->bytes + SYMBOL_TABLE;
  memcpy (table, "/SYM64/ ", 8);
  memmove (table + sizeof (struct ar_hdr) + 8, table + sizeof (struct ar_hdr) + 12, 13);
  memset (table + sizeof (struct ar_hdr), 0, 8);
  table[sizeof (struct ar_hdr) + 7] = random_below (3);
}

/* Changes a few bytes, and gives where to cut. */
static size_t
change (uint8_t *bytes, size_t size)
{
  for (uint32_t n = random_below (4); n > 0; n--)
    bytes[random_below (size)] = random_below (3) == 0 ? 0xff : random_below (256);
  return random_below (3) == 0 ? random_below (size + 1) : size;
}

int
main (int argc, char **argv)
{
  struct image m;
  struct archive a;
  long images = argc > 1 ? atol (argv[1]) : 2000;
  elf_version (EV_CURRENT);
  for (long i = 0; i < images; i++)
    {
      make_image (&m, i & 1, (i >> 1) & 1);
      if (random_below (4) == 0)
        pack (&m);
      size_t size = change (m.bytes, m.size);
      read_copy (m.bytes, size);
      if (random_below (16) == 0)
        read_file (m.bytes, size);
      make_archive (&a);
      if (random_below (4) == 0)
        widen (&a);
      for (uint32_t n = random_below (3); n > 0; n--)   /* what tells members apart, more often */
        a.bytes[a.at[random_below (MEMBERS)] + random_below (sizeof (struct ar_hdr))]
            = random_below (2) == 0 ? '0' + random_below (10) : random_below (256);
      read_copy (a.bytes, change ((uint8_t *) a.bytes, a.size));
    }
  return ended ("hostile");
}
