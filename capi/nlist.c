/* nlist.c: the values of symbols by name. Of several symbols with one name the last is taken, since
   global symbols stand behind local ones. The names that are looked for are sorted, so that a file
   with many symbols is gone over once. */
#include <fcntl.h>
#include <nlist.h>
#include <unistd.h>

#include "object.h"

/* The entries of a list, in the order of their names. */
struct wanted
{
  struct nlist **entries;
  size_t count;
};

static bool
has_name (const struct nlist *entry)
{
  return entry->n_name != NULL && entry->n_name[0] != '\0';
}

static void
set_entry (struct nlist *entry, long int value, short int section, unsigned short int type)
{
  *entry = (struct nlist) { .n_name = entry->n_name, .n_value = value, .n_scnum = section,
                            .n_type = type };
}

static int
compare_names (const void *left, const void *right)
{
  const struct nlist *a = *(struct nlist *const *) left, *b = *(struct nlist *const *) right;
  return strcmp (a->n_name, b->n_name);
}

/* Sets all entries of a list to zeros, and sorts them; false and an error where there is no
   memory. */
static bool
sort_list (struct nlist *list, struct wanted *w)
{
  w->count = 0;
  for (struct nlist *entry = list; has_name (entry); entry++, w->count++)
    set_entry (entry, 0, 0, 0);
  w->entries = new_bytes (w->count * sizeof *w->entries);
  if (w->entries == NULL)
    return false;
  for (size_t i = 0; i < w->count; i++)
    w->entries[i] = &list[i];
  qsort (w->entries, w->count, sizeof *w->entries, compare_names);
  return true;
}

/* Sets the entries with a name, which stand side by side. */
static void
fill_entries (const struct wanted *w, const char *name, const GElf_Sym *sym)
{
  const struct nlist key = { .n_name = (char *) name }, *at = &key;
  struct nlist **found = bsearch (&at, w->entries, w->count, sizeof *w->entries, compare_names);
  while (found != NULL && found > w->entries && compare_names (found - 1, &at) == 0)
    found--;
  for (; found != NULL && found < w->entries + w->count && compare_names (found, &at) == 0; found++)
    set_entry (*found, (long int) sym->st_value, (short int) sym->st_shndx,
               GELF_ST_TYPE (sym->st_info));
}

/* The first symbol table of an image, or else its last one of dynamic symbols; NULL where there is
   neither. */
static Elf_Scn *
find_symbols (Elf *elf, GElf_Shdr *shdr)
{
  GElf_Shdr other;
  Elf_Scn *found = NULL;
  for (Elf_Scn *scn = NULL; (scn = elf_nextscn (elf, scn)) != NULL;)
    {
      if (gelf_getshdr (scn, &other) == NULL)
        return NULL;
      if (other.sh_type != SHT_SYMTAB && other.sh_type != SHT_DYNSYM)
        continue;
      found = scn;
      *shdr = other;
      if (other.sh_type == SHT_SYMTAB)
        break;
    }
  return found;
}

/* Fills in the entries whose names the symbols of an image have; false where there are none, or one
   without a name to be read. */
static bool
fill_list (Elf *elf, const struct wanted *w)
{
  GElf_Shdr shdr;
  GElf_Sym sym;
  Elf_Scn *scn = find_symbols (elf, &shdr);
  Elf_Data *data = scn == NULL ? NULL : elf_getdata (scn, NULL);
  if (data == NULL)
    return false;
  size_t count = shdr.sh_size / item_size (ELF_T_SYM, elf->class);
  for (size_t i = 0; i < count; i++)
    {
      const char *name = gelf_getsym (data, (int) i, &sym) == NULL
                         ? NULL : elf_strptr (elf, shdr.sh_link, sym.st_name);
      if (name == NULL)
        return false;
      if (name[0] != '\0')
        fill_entries (w, name, &sym);
    }
  return true;
}

/* nlist: the values of the symbols of a list, by a file's table of symbols. */
PUBLIC int
nlist (const char *filename, struct nlist *list)
{
  struct wanted w;
  if (!sort_list (list, &w))
    return -1;
  bool done = false;
  int fd = open (filename, O_RDONLY);
  if (fd == -1)
    set_error (E_NO_FILE);
  else
    {
      elf_version (EV_CURRENT);
      Elf *elf = elf_begin (fd, ELF_C_READ_MMAP, NULL);
      done = elf != NULL && fill_list (elf, &w);
      for (size_t i = 0; !done && i < w.count; i++)
        set_entry (w.entries[i], 0, 0, 0);
      elf_end (elf);
      close (fd);
    }
  free (w.entries);
  return done ? 0 : -1;
}
