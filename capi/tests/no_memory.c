/* no_memory.c: each allocation fails in turn. What is asked for is then refused, with "out of
   memory", and the descriptor can be ended. */
#define _GNU_SOURCE
#include <nlist.h>

#include "archive.h"
#include "check.h"
#include "file.h"

extern void *__libc_malloc (size_t size);
extern void *__libc_calloc (size_t count, size_t size);

static long left = -1;

static int
fails (void)
{
  return left >= 0 && left-- == 0;
}

void *
malloc (size_t size)
{
  return fails () ? NULL : __libc_malloc (size);
}

void *
calloc (size_t count, size_t size)
{
  return fails () ? NULL : __libc_calloc (count, size);
}

/* Opens the image, reads a symbol and a string; whether all of it was there. */
static int
read_once (struct image *m)
{
  GElf_Sym sym;
  Elf *elf = elf_memory ((char *) m->bytes, m->size);
  Elf_Scn *scn = elf_getscn (elf, SYMBOLS);
  Elf_Data *data = elf_getdata (scn, NULL);
  int whole = gelf_getsym (data, 1, &sym) != NULL && elf_strptr (elf, STRINGS, 1) != NULL
              && (m->is64 ? (void *) elf64_getshdr (scn) : (void *) elf32_getshdr (scn)) != NULL;
  elf_end (elf);
  return whole;
}

/* Opens the archive, reads its table and goes over its members; whether all of it was there. */
static int
walk_once (struct archive *a)
{
  size_t count = 0;
  int members = 0;
  Elf *ar = elf_memory (a->bytes, a->size), *elf;
  int whole = elf_getarsym (ar, &count) != NULL && count == 3;
  Elf_Cmd cmd = ELF_C_READ;
  while (whole && (elf = elf_begin (-1, cmd, ar)) != NULL)
    {
      members += elf_getarhdr (elf)->ar_name[0] != '/';
      cmd = elf_next (elf);
      whole = cmd == ELF_C_READ || members == MEMBERS;
      elf_end (elf);
    }
  elf_end (ar);
  return whole && members == MEMBERS;
}

/* Changes the image of a file and adds a section, with a new layout; whether all of it was done. */
static int
write_once (struct image *m)
{
  GElf_Sym sym;
  GElf_Shdr shdr;
  int fd = file_of (m->bytes, m->size);
  Elf *elf = elf_begin (fd, ELF_C_RDWR, NULL);
  Elf_Data *data = elf_getdata (elf_getscn (elf, SYMBOLS), NULL), *added = NULL;
  Elf_Scn *scn = NULL;
  int whole = gelf_getsym (data, 1, &sym) != NULL && gelf_update_sym (data, 1, &sym) == 1
              && (scn = elf_newscn (elf)) != NULL && gelf_getshdr (scn, &shdr) != NULL;
  shdr.sh_type = SHT_PROGBITS;
  if (whole && gelf_update_shdr (scn, &shdr) == 1 && (added = elf_newdata (scn)) != NULL)
    {
      added->d_buf = "more";
      added->d_size = 4;
    }
  whole = added != NULL && elf_update (elf, ELF_C_WRITE) > 0;
  elf_end (elf);
  close (fd);
  return whole;
}

/* Looks for a symbol in the file of an image, and for a string of a compressed section; whether
   both were there. */
static int
find_once (struct image *m)
{
  char name[64];
  struct nlist list[] = { { .n_name = "first" }, { .n_name = NULL } };
  int fd = named_file_of (m->bytes, m->size, name);
  int whole = nlist (name, list) == 0 && list[0].n_value == 0x1234;
  Elf *elf = whole ? elf_begin (fd, ELF_C_READ, NULL) : NULL;
  if (whole)
    whole = elf_compress (elf_getscn (elf, STRINGS), ELFCOMPRESS_ZLIB, ELF_CHF_FORCE) == 1
            && elf_strptr (elf, STRINGS, 1) != NULL;
  elf_end (elf);
  close (fd);
  return whole;
}

/* Opens the file of an image, and asks for a section's extended indexes, a string, and what programs
   see of the image; whether all of it was there. */
static int
look_once (struct image *m)
{
  size_t size = 0;
  int fd = file_of (m->bytes, m->size);
  Elf *elf = elf_begin (fd, ELF_C_READ, NULL);
  int whole = elf_scnshndx (elf_getscn (elf, SYMBOLS)) == 0
              && elf_strptr (elf, STRINGS, 1) != NULL && elf_rawfile (elf, &size) != NULL
              && elf_getdata_rawchunk (elf, 0, 16, ELF_T_BYTE) != NULL;
  CHECK (size == m->size || (size == 0 && !whole));
  elf_end (elf);
  close (fd);
  return whole;
}

enum what { READ, WRITE, FIND, LOOK };

/* Does once what is asked for, with the archive where there is one. */
static int
do_once (struct image *m, struct archive *a, enum what what)
{
  return a != NULL ? walk_once (a)
         : what == READ ? read_once (m)
         : what == WRITE ? write_once (m) : what == FIND ? find_once (m) : look_once (m);
}

/* What reads the image or the archive or writes the image, each allocation failing in turn. A write
   and what opens a file may do without some of them, and zlib says in its own way what it lacks. */
static void
fail_each (struct image *m, struct archive *a, enum what what)
{
  long n = 0;
  for (;; n++)
    {
      left = n;
      int whole = do_once (m, a, what);
      int all_made = left >= 0;
      left = -1;
      if (all_made)
        {
          CHECK (whole);
          break;
        }
      CHECK (!whole || what != READ);
      CHECK (whole || what == FIND || strcmp (elf_errmsg (-1), "out of memory") == 0);
      elf_errno ();
    }
  CHECK (n > 3);
}

int
main (void)
{
  struct image m;
  struct archive a;
  elf_version (EV_CURRENT);
  for (int kind = 0; kind < 4; kind++)
    {
      make_image (&m, kind & 1, kind >> 1);
      for (enum what what = READ; what <= LOOK; what++)
        fail_each (&m, NULL, what);
    }
  make_archive (&a);
  fail_each (NULL, &a, READ);
  return ended ("no_memory");
}
