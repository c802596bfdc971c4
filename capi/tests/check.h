/* check.h: what the tests of the C library share. */
#ifndef CHECK_H
#define CHECK_H 1

#include <gelf.h>
#include <stdio.h>
#include <stdlib.h>
#include <string.h>

static int failures;

/* Says what is not as it should be, and goes on. */
#define CHECK(what) \
  ((what) ? (void) 0 \
   : (void) (failures++, fprintf (stderr, "%s:%d: %s\n", __FILE__, __LINE__, #what)))

/* The bytes of a file, and their number. */
static inline char *
bytes_of (const char *name, size_t *size)
{
  FILE *file = fopen (name, "rb");
  if (file == NULL || fseek (file, 0, SEEK_END) != 0)
    exit (2);
  *size = ftell (file);
  rewind (file);
  char *bytes = malloc (*size);
  if (bytes == NULL || fread (bytes, 1, *size, file) != *size)
    exit (2);
  fclose (file);
  return bytes;
}

static inline int
ended (const char *name)
{
  if (failures == 0)
    printf ("%s: passed\n", name);
  return failures != 0;
}

#endif /* check.h */
