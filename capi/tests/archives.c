/* archives.c: the members of an archive come one after another with their headers, each is read as
   an image by itself, and a program may come back to one; its table of symbols is as it stands.
   What is no member is refused with an error. */
#include "archive.h"
#include "check.h"

/* The member that the archive stands at, past the tables. */
static Elf *
open_member (Elf *ar, int fd)
{
  Elf *elf;
  Elf_Cmd cmd = ELF_C_READ;
  while ((elf = elf_begin (fd, cmd, ar)) != NULL && elf_getarhdr (elf)->ar_name[0] == '/')
    {
      cmd = elf_next (elf);
      elf_end (elf);
    }
  return elf;
}

/* The two tables are shown as members. */
static void
check_tables (Elf *ar, int fd)
{
  CHECK (elf_rand (ar, SYMBOL_TABLE) == SYMBOL_TABLE);
  Elf *elf = elf_begin (fd, ELF_C_READ, ar);
  CHECK (strcmp (elf_getarhdr (elf)->ar_name, "/") == 0 && elf_getaroff (elf) == SYMBOL_TABLE);
  CHECK (elf_getarhdr (elf)->ar_size == 25 && elf_kind (elf) == ELF_K_NONE);
  CHECK (elf_next (elf) == ELF_C_READ && elf_end (elf) == 0);
  elf = elf_begin (fd, ELF_C_READ, ar);
  CHECK (strcmp (elf_getarhdr (elf)->ar_name, "//") == 0 && elf_getarhdr (elf)->ar_size == 32);
  CHECK (elf_end (elf) == 0 && elf_rand (ar, SYMBOL_TABLE) == SYMBOL_TABLE);
}

static void
check_symbols (Elf *elf, int is64)
{
  GElf_Sym sym;
  Elf_Data *data = elf_getdata (elf_getscn (elf, SYMBOLS), NULL);
  CHECK (gelf_getclass (elf) == (is64 ? ELFCLASS64 : ELFCLASS32));
  CHECK (gelf_getsym (data, 1, &sym) == &sym && sym.st_value == 0x1234);
  CHECK (strcmp (elf_strptr (elf, STRINGS, sym.st_name), "first") == 0);
}

/* One member, with all that is told of it. */
static void
check_member (const struct archive *a, Elf *elf, int i)
{
  size_t size;
  Elf_Arhdr *header = elf_getarhdr (elf);
  CHECK (header != NULL && strcmp (header->ar_name, member_names[i]) == 0);
  CHECK (header->ar_date == 1234 && header->ar_uid == 56 && header->ar_gid == 78);
  CHECK (header->ar_mode == 0644 && header->ar_size > 0);
  CHECK (memcmp (header->ar_rawname, a->bytes + a->at[i], 7) == 0);
  CHECK (elf_getaroff (elf) == (int64_t) a->at[i]);
  CHECK (elf_getbase (elf) == (int64_t) (a->at[i] + sizeof (struct ar_hdr)));
  const char *bytes = elf_rawfile (elf, &size);
  CHECK (size == (size_t) header->ar_size);
  CHECK (memcmp (bytes, a->bytes + a->at[i] + sizeof (struct ar_hdr), size) == 0);
  CHECK (elf_kind (elf) == (i == 2 ? ELF_K_NONE : ELF_K_ELF));
  if (i < 2)
    check_symbols (elf, i == 0);
}

static void
check_walk (const struct archive *a, Elf *ar, int fd)
{
  Elf_Cmd cmd = ELF_C_READ;
  for (int i = 0; i < MEMBERS; i++)
    {
      Elf *elf = open_member (ar, fd);
      CHECK (elf != NULL && cmd == ELF_C_READ);
      check_member (a, elf, i);
      cmd = elf_next (elf);
      CHECK (elf_end (elf) == 0);
    }
  CHECK (cmd == ELF_C_NULL && elf_begin (fd, cmd, ar) == NULL);
  CHECK (elf_begin (fd, ELF_C_READ, ar) == NULL && elf_errno () != 0);
}

/* A program may go to a member by its place, and have one open twice. */
static void
check_places (const struct archive *a, Elf *ar, int fd)
{
  for (int i = MEMBERS - 1; i >= 0; i--)
    {
      CHECK (elf_rand (ar, a->at[i]) == a->at[i]);
      Elf *one = elf_begin (fd, ELF_C_READ, ar), *other = elf_begin (fd, ELF_C_READ, ar);
      check_member (a, one, i);
      check_member (a, other, i);
      CHECK (elf_end (one) == 0);
      check_member (a, other, i);
      CHECK (elf_end (other) == 0);
    }
  CHECK (elf_rand (ar, a->at[1] + 2) == 0 && elf_errno () != 0);
  CHECK (elf_begin (fd, ELF_C_READ, ar) == NULL);
  CHECK (elf_rand (ar, a->size + 100) == 0 && elf_errno () != 0);
  CHECK (elf_rand (ar, SYMBOL_TABLE) == SYMBOL_TABLE);
  check_walk (a, ar, fd);
}

static void
check_table (const struct archive *a, Elf *ar)
{
  size_t count = 0;
  Elf_Arsym *table = elf_getarsym (ar, &count);
  CHECK (table != NULL && count == 3);
  CHECK (table[0].as_off == a->at[0] && strcmp (table[0].as_name, "first") == 0);
  CHECK (table[1].as_off == a->at[1] && strcmp (table[1].as_name, "second") == 0);
  CHECK (table[1].as_hash == elf_hash ("second"));
  CHECK (table[2].as_name == NULL && table[2].as_off == 0 && table[2].as_hash == ~0ul);
  CHECK (elf_getarsym (ar, NULL) == table);
}

/* A number of eight bytes at a place of an archive. */
static void
put_wide (struct archive *a, size_t at, uint64_t number)
{
  for (int i = 0; i < 8; i++)
    a->bytes[at + i] = number >> (56 - 8 * i);
}

/* A table of symbols whose places have eight bytes; one that does not lie in its member, or has a
   name without an end, is none. */
static void
check_wide (void)
{
  enum { BODY = SARMAG + sizeof (struct ar_hdr), SIZE = 8 + 2 * 8 + 13 };
  static const char names[] = "first\0second";
  struct archive a = { .size = SARMAG, .bytes = ARMAG };
  size_t count = 77;
  char table[SIZE] = { 0 };
  memcpy (table + 24, names, sizeof names);
  put_member (&a, "/SYM64/", table, sizeof table);
  put_wide (&a, BODY, 2);
  put_wide (&a, BODY + 8, 0x1122334455);
  put_wide (&a, BODY + 16, 77);
  size_t member = put_member (&a, "odd/", "odd", 3);
  Elf *ar = elf_memory (a.bytes, a.size);
  Elf_Arsym *symbols = elf_getarsym (ar, &count);
  CHECK (symbols != NULL && count == 3 && elf_getarsym (ar, NULL) == symbols);
  CHECK (strcmp (symbols[0].as_name, "first") == 0 && symbols[0].as_off == 0x1122334455);
  CHECK (strcmp (symbols[1].as_name, "second") == 0 && symbols[1].as_off == 77);
  CHECK (symbols[1].as_hash == elf_hash ("second"));
  CHECK (symbols[2].as_name == NULL && symbols[2].as_hash == ~0ul);
  CHECK (elf_rand (ar, member) == member);
  Elf *elf = elf_begin (-1, ELF_C_READ, ar);
  CHECK (elf != NULL && strcmp (elf_getarhdr (elf)->ar_name, "odd") == 0);
  CHECK (elf_end (elf) == 0 && elf_end (ar) == 0);
  const uint64_t bad[] = { 3, 5, 1ull << 60, ~0ull };
  for (size_t i = 0; i < sizeof bad / sizeof bad[0]; i++)
    {
      put_wide (&a, BODY, bad[i]);
      ar = elf_memory (a.bytes, a.size);
      CHECK (elf_getarsym (ar, &count) == NULL && count == 0 && elf_errno () != 0);
      CHECK (elf_end (ar) == 0);
    }
  put_wide (&a, BODY, 2);
  a.bytes[BODY + SIZE - 1] = 'x';
  ar = elf_memory (a.bytes, a.size);
  CHECK (elf_getarsym (ar, &count) == NULL && count == 0 && elf_errno () != 0);
  CHECK (elf_end (ar) == 0);
}

/* The archive may be ended before its members. */
static void
check_end (const struct archive *a, Elf *ar, int fd)
{
  CHECK (elf_rand (ar, a->at[0]) == a->at[0]);
  Elf *elf = elf_begin (fd, ELF_C_READ, ar);
  CHECK (elf_end (ar) == 0);
  check_symbols (elf, 1);
  CHECK (elf_begin (fd, ELF_C_READ, elf) == elf && elf_end (elf) == 1 && elf_end (elf) == 0);
}

/* An archive in an archive is walked over as another is. */
static void
check_nested (const struct archive *a)
{
  struct archive outer = { .size = SARMAG, .bytes = ARMAG };
  put_member (&outer, "inner.a/", a->bytes, a->size);
  Elf *ar = elf_memory (outer.bytes, outer.size);
  Elf *inner = elf_begin (-1, ELF_C_READ, ar);
  CHECK (elf_kind (inner) == ELF_K_AR);
  CHECK (strcmp (elf_getarhdr (inner)->ar_name, "inner.a") == 0);
  Elf *elf = open_member (inner, -1);
  check_symbols (elf, 1);
  CHECK (elf_getaroff (elf) == (int64_t) a->at[0]);
  CHECK (elf_end (elf) == 0 && elf_end (inner) == 0 && elf_end (ar) == 0);
}

/* What stands before a bad header is there, and the walk ends at it. */
static void
check_bad (const struct archive *a)
{
  struct archive bad = *a;
  bad.bytes[bad.at[1] + sizeof (struct ar_hdr) - 1] = '?';
  Elf *ar = elf_memory (bad.bytes, bad.size);
  Elf *elf = open_member (ar, -1);
  check_member (a, elf, 0);
  CHECK (elf_next (elf) == ELF_C_NULL && elf_errno () != 0);
  CHECK (elf_begin (-1, ELF_C_READ, ar) == NULL && elf_errno () != 0);
  CHECK (elf_end (elf) == 0 && elf_end (ar) == 0);
}

/* A clone would write over what is lent of an archive. */
static void
check_clone (const struct archive *a)
{
  FILE *file = tmpfile ();
  CHECK (file != NULL && fwrite (a->bytes, 1, a->size, file) == a->size && fflush (file) == 0);
  Elf *ar = elf_begin (fileno (file), ELF_C_RDWR, NULL);
  CHECK (elf_clone (ar, ELF_C_EMPTY) == NULL && elf_errno () == 51);
  CHECK (elf_rand (ar, a->at[0]) == a->at[0]);
  Elf *elf = elf_begin (fileno (file), ELF_C_RDWR, ar);
  CHECK (elf_clone (elf, ELF_C_EMPTY) == NULL && elf_errno () == 51);
  check_member (a, elf, 0);
  CHECK (elf_end (elf) == 0 && elf_end (ar) == 0 && fclose (file) == 0);
}

static void
check_others (void)
{
  struct image m;
  size_t count = 77;
  make_image (&m, 1, 0);
  Elf *elf = elf_memory ((char *) m.bytes, m.size);
  CHECK (elf_next (elf) == ELF_C_NULL && elf_rand (elf, SYMBOL_TABLE) == 0);
  CHECK (elf_getarhdr (elf) == NULL && elf_errno () != 0 && elf_getaroff (elf) == 0);
  CHECK (elf_getarsym (elf, &count) == NULL && count == 0 && elf_errno () != 0);
  CHECK (elf_end (elf) == 0);
  CHECK (elf_next (NULL) == ELF_C_NULL && elf_rand (NULL, SYMBOL_TABLE) == 0);
  CHECK (elf_getarhdr (NULL) == NULL && elf_getaroff (NULL) == 0);
  CHECK (elf_getarsym (NULL, &count) == NULL && count == 0);
}

static void
check_all (const struct archive *a, Elf *ar, int fd)
{
  CHECK (elf_kind (ar) == ELF_K_AR && elf_getarhdr (ar) == NULL && elf_errno () != 0);
  check_walk (a, ar, fd);
  check_tables (ar, fd);
  check_places (a, ar, fd);
  check_table (a, ar);
  check_end (a, ar, fd);
}

int
main (void)
{
  struct archive a;
  elf_version (EV_CURRENT);
  make_archive (&a);
  check_others ();

  FILE *file = tmpfile ();
  CHECK (file != NULL && fwrite (a.bytes, 1, a.size, file) == a.size && fflush (file) == 0);
  check_all (&a, elf_begin (fileno (file), ELF_C_READ, NULL), fileno (file));
  check_all (&a, elf_begin (fileno (file), ELF_C_READ_MMAP, NULL), fileno (file));
  fclose (file);

  check_all (&a, elf_memory (a.bytes, a.size), -1);
  check_nested (&a);
  check_wide ();
  check_bad (&a);
  check_clone (&a);
  return ended ("archives");
}
