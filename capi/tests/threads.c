/* threads.c: threads that have their own descriptors read, write and compress at the same time, and
   the number of an error is the thread's own. */
#define _GNU_SOURCE
#include <pthread.h>

#include "archive.h"
#include "check.h"
#include "file.h"

enum { THREADS = 4, ROUNDS = 50 };

/* Whether a symbol and a string of an image are what they should be. */
static int
is_read (struct image *m)
{
  GElf_Sym sym;
  Elf *elf = elf_memory ((char *) m->bytes, m->size);
  Elf_Data *data = elf_getdata (elf_getscn (elf, SYMBOLS), NULL);
  const char *name = elf_strptr (elf, STRINGS, 1);
  int is_right = gelf_getsym (data, 1, &sym) != NULL && sym.st_value == 0x1234 && name != NULL
                 && strcmp (name, "first") == 0;
  return elf_end (elf) == 0 && is_right;
}

/* Whether the image is written with its strings compressed, and read again. */
static int
is_written (const struct image *m)
{
  GElf_Chdr chdr;
  int fd = file_of (m->bytes, m->size);
  Elf *elf = elf_begin (fd, ELF_C_RDWR, NULL);
  int is_right = elf_compress (elf_getscn (elf, STRINGS), ELFCOMPRESS_ZLIB, ELF_CHF_FORCE) == 1
                 && elf_update (elf, ELF_C_WRITE) > 0 && elf_end (elf) == 0;
  elf = elf_begin (fd, ELF_C_READ, NULL);
  const char *name = elf_strptr (elf, STRINGS, 7);
  is_right = is_right && gelf_getchdr (elf_getscn (elf, STRINGS), &chdr) != NULL && name != NULL
             && strcmp (name, "second") == 0 && elf_end (elf) == 0;
  close (fd);
  return is_right;
}

/* Whether the members of an archive are all there. */
static int
is_walked (struct archive *a)
{
  int members = 0;
  size_t count = 0;
  Elf_Cmd cmd = ELF_C_READ;
  Elf *ar = elf_memory (a->bytes, a->size), *elf;
  while ((elf = elf_begin (-1, cmd, ar)) != NULL)
    {
      members += elf_getarhdr (elf)->ar_name[0] != '/';
      cmd = elf_next (elf);
      elf_end (elf);
    }
  int is_right = elf_getarsym (ar, &count) != NULL && count == 3 && members == MEMBERS;
  return elf_end (ar) == 0 && is_right;
}

/* Whether a thread sees its own error, whatever the others do. */
static int
has_own_error (int number)
{
  elf_errno ();
  int is_right = 1;
  if (number % 2 == 0)
    is_right = elf_memory (NULL, 0) == NULL;
  return (elf_errno () != 0) == (number % 2 == 0) && is_right;
}

static void *
work (void *number)
{
  struct image m;
  struct archive a;
  int kind = (int) (intptr_t) number;
  long wrong = 0;
  elf_version (EV_CURRENT);
  make_image (&m, kind & 1, kind >> 1);
  make_archive (&a);
  for (int round = 0; round < ROUNDS; round++)
    {
      wrong += !is_read (&m);
      wrong += !is_written (&m);
      wrong += !is_walked (&a);
      wrong += !has_own_error (kind);
    }
  return (void *) wrong;
}

int
main (void)
{
  pthread_t threads[THREADS];
  for (intptr_t i = 0; i < THREADS; i++)
    CHECK (pthread_create (&threads[i], NULL, work, (void *) i) == 0);
  for (int i = 0; i < THREADS; i++)
    {
      void *wrong;
      CHECK (pthread_join (threads[i], &wrong) == 0 && wrong == NULL);
    }
  return ended ("threads");
}
