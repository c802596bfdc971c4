/* sections.c: the example of docs/C-LIBRARY.md. It shows the sections of a file, with their sizes.
    */
#include <fcntl.h>
#include <gelf.h>
#include <stdio.h>

int
main (int argc, char **argv)
{
  size_t names;
  if (argc != 2 || elf_version (EV_CURRENT) == EV_NONE)
    return 2;
  Elf *elf = elf_begin (open (argv[1], O_RDONLY), ELF_C_READ_MMAP, NULL);
  if (elf == NULL || elf_getshdrstrndx (elf, &names) != 0)
    {
      fprintf (stderr, "%s: %s\n", argv[1], elf_errmsg (-1));
      return 1;
    }
  for (Elf_Scn *scn = NULL; (scn = elf_nextscn (elf, scn)) != NULL;)
    {
      GElf_Shdr shdr;
      if (gelf_getshdr (scn, &shdr) == NULL)
        continue;
      const char *name = elf_strptr (elf, names, shdr.sh_name);
      printf ("%zu %s %lu\n", elf_ndxscn (scn), name == NULL ? "?" : name,
              (unsigned long) shdr.sh_size);
    }
  return elf_end (elf);
}
