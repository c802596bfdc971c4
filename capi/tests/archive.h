/* archive.h: a small archive that the tests make: a table of two symbols, a table of long names,
   and three members, of which two are images. */
#ifndef ARCHIVE_H
#define ARCHIVE_H 1

#include "image.h"
#include <ar.h>
#include <stdio.h>

enum { MEMBERS = 3, SYMBOL_TABLE = 8 };

static const char *const member_names[MEMBERS] = { "a_name_of_more_than_15_bytes.o", "short.o",
                                                   "notes.txt" };

struct archive
{
  size_t size;
  size_t at[MEMBERS];           /* where the members' headers are */
  char bytes[8192];
};

/* A header, and its body; the next header is at an even place. */
static inline size_t
put_member (struct archive *a, const char *name, const void *body, size_t size)
{
  char header[sizeof (struct ar_hdr) + 1];
  size_t at = a->size;
  snprintf (header, sizeof header, "%-16s%-12d%-6d%-6d%-8o%-10zu`\n", name, 1234, 56, 78, 0644,
            size);
  memcpy (a->bytes + at, header, sizeof (struct ar_hdr));
  memcpy (a->bytes + at + sizeof (struct ar_hdr), body, size);
  a->size = at + sizeof (struct ar_hdr) + size;
  if (a->size % 2 != 0)
    a->bytes[a->size++] = '\n';
  return at;
}

static inline void
put_place (char *to, size_t at)
{
  for (int i = 0; i < 4; i++)
    to[i] = at >> (8 * (3 - i));
}

static inline void
make_archive (struct archive *a)
{
  char table[4 + 2 * 4 + 13] = "\0\0\0\2........first\0second";
  struct image first, second;
  make_image (&first, 1, 0);
  make_image (&second, 0, 1);
  memset (a, 0, sizeof *a);
  memcpy (a->bytes, ARMAG, SARMAG);
  a->size = SARMAG;
  put_member (a, "/", table, sizeof table);
  put_member (a, "//", "a_name_of_more_than_15_bytes.o/\n", 32);
  a->at[0] = put_member (a, "/0", first.bytes, first.size);
  a->at[1] = put_member (a, "short.o/", second.bytes, second.size);
  a->at[2] = put_member (a, "notes.txt/", "odd", 3);
  put_place (a->bytes + SARMAG + sizeof (struct ar_hdr) + 4, a->at[0]);
  put_place (a->bytes + SARMAG + sizeof (struct ar_hdr) + 8, a->at[1]);
}

#endif /* archive.h */
