/* tell.c: says what each call that reads answers for a file, line by line, so that two libraries
   can be compared. usage: tell FILE */
#include <fcntl.h>
#include <gelf.h>
#include <stdio.h>
#include <string.h>

/* A number that tells two runs of bytes apart. */
static unsigned long
sum (const void *bytes, size_t size)
{
  unsigned long sum = 5381;
  for (size_t i = 0; i < size; i++)
    sum = sum * 33 + ((const unsigned char *) bytes)[i];
  return sum;
}

/* Says a value of so many bytes by its sum, or the error. */
static void
say (const char *what, const void *value, size_t size)
{
  int error = elf_errno ();
  if (value != NULL)
    printf ("  %s %lx\n", what, sum (value, size));
  else
    printf ("  %s: %s\n", what, error == 0 ? "none" : elf_errmsg (error));
}

/* Says the items of data, of whatever type they are. */
static void
tell_items (Elf_Data *data)
{
  GElf_Sym sym;
  GElf_Rel rel;
  GElf_Rela rela;
  GElf_Dyn dyn;
  GElf_Versym versym;
  Elf32_Word index;
  for (int i = 0; i < 3000; i++)
    {
      int found = 0;
      if (gelf_getsymshndx (data, NULL, i, &sym, &index) != NULL && ++found)
        printf ("   %d: sym %lx %u\n", i, sum (&sym, sizeof sym), index);
      if (gelf_getrel (data, i, &rel) != NULL && ++found)
        printf ("   %d: rel %lx\n", i, sum (&rel, sizeof rel));
      if (gelf_getrela (data, i, &rela) != NULL && ++found)
        printf ("   %d: rela %lx\n", i, sum (&rela, sizeof rela));
      if (gelf_getdyn (data, i, &dyn) != NULL && ++found)
        printf ("   %d: dyn %lx\n", i, sum (&dyn, sizeof dyn));
      if (gelf_getversym (data, i, &versym) != NULL && ++found)
        printf ("   %d: versym %u\n", i, versym);
      if (!found)
        break;
    }
  elf_errno ();
}

/* Says the version definitions and needs of data, each with its names. */
static void
tell_versions (Elf_Data *data)
{
  GElf_Verdef def;
  GElf_Verdaux name;
  GElf_Verneed need;
  GElf_Vernaux version;
  int at = 0;
  for (int i = 0; i < 100 && gelf_getverdef (data, at, &def) != NULL; i++, at += def.vd_next)
    {
      printf ("   %d: verdef %lx\n", at, sum (&def, sizeof def));
      int aux = at + def.vd_aux;
      for (int j = 0; j < def.vd_cnt && gelf_getverdaux (data, aux, &name) != NULL; j++)
        {
          printf ("    %d: %lx\n", aux, sum (&name, sizeof name));
          aux += name.vda_next;
        }
      if (def.vd_next == 0)
        break;
    }
  at = 0;
  for (int i = 0; i < 100 && gelf_getverneed (data, at, &need) != NULL; i++, at += need.vn_next)
    {
      printf ("   %d: verneed %lx\n", at, sum (&need, sizeof need));
      int aux = at + need.vn_aux;
      for (int j = 0; j < need.vn_cnt && gelf_getvernaux (data, aux, &version) != NULL; j++)
        {
          printf ("    %d: %lx\n", aux, sum (&version, sizeof version));
          aux += version.vna_next;
        }
      if (need.vn_next == 0)
        break;
    }
  elf_errno ();
}

/* Says what data there is, and what is in it. */
static void
tell_data (const char *what, Elf_Data *data)
{
  int error = elf_errno ();
  if (data == NULL)
    {
      printf ("  %s: %s\n", what, error == 0 ? "none" : elf_errmsg (error));
      return;
    }
  printf ("  %s: type %d, %zu bytes, offset %ld, align %zu, version %u, %lx\n", what, data->d_type,
          data->d_size, (long) data->d_off, data->d_align, data->d_version,
          data->d_buf == NULL ? 0 : sum (data->d_buf, data->d_size));
  tell_items (data);
  tell_versions (data);
  GElf_Nhdr note;
  size_t at = 0, next, name, desc;
  for (int i = 0; i < 100 && (next = gelf_getnote (data, at, &note, &name, &desc)) > 0; i++)
    {
      printf ("   %zu: note %lx, name %zu, desc %zu, next %zu\n", at,
              sum (&note, sizeof note), name, desc, next);
      at = next;
    }
  elf_errno ();
}

static void
tell_segments (Elf *elf)
{
  GElf_Phdr phdr;
  size_t count = 0;
  if (elf_getphdrnum (elf, &count) != 0)
    say ("phdrnum", NULL, 0);
  printf ("phdrnum %zu\n", count);
  for (size_t i = 0; i <= count && i < 100; i++)
    say ("phdr", gelf_getphdr (elf, i, &phdr), sizeof phdr);
  if (gelf_getclass (elf) == ELFCLASS64)
    say ("phdrs", elf64_getphdr (elf), count * sizeof (Elf64_Phdr));
  else
    say ("phdrs", elf32_getphdr (elf), count * sizeof (Elf32_Phdr));
}

static void
tell_section (Elf *elf, Elf_Scn *scn, size_t names)
{
  GElf_Shdr shdr;
  GElf_Chdr chdr;
  if (gelf_getshdr (scn, &shdr) == NULL)
    {
      say ("shdr", NULL, 0);
      return;
    }
  const char *name = elf_strptr (elf, names, shdr.sh_name);
  printf ("section %zu %s %lx\n", elf_ndxscn (scn), name == NULL ? elf_errmsg (-1) : name,
          sum (&shdr, sizeof shdr));
  say ("shdr 64", elf64_getshdr (scn), sizeof (Elf64_Shdr));
  say ("shdr 32", elf32_getshdr (scn), sizeof (Elf32_Shdr));
  say ("chdr", gelf_getchdr (scn, &chdr), sizeof chdr);
  printf ("  extended indexes %d\n", elf_scnshndx (scn) > 0 ? elf_scnshndx (scn) : 0);
  tell_data ("raw", elf_rawdata (scn, NULL));
  tell_data ("data", elf_getdata (scn, NULL));
  for (size_t offset = 0; offset < 70; offset++)
    {
      const char *text = elf_strptr (elf, elf_ndxscn (scn), offset);
      if (text != NULL)
        printf ("  %zu: %s\n", offset, text);
    }
  say ("past the end", elf_strptr (elf, elf_ndxscn (scn), shdr.sh_size), 1);
}

/* Says two items of each type at the start of the file, aligned and not. The sizes of ELF_T_MOVE
   differ, and what is no chain of version records is translated as each library likes. */
static void
tell_chunks (Elf *elf)
{
  for (int type = 0; type < ELF_T_NUM + 2; type++)
    {
      if (type == ELF_T_MOVE || (type >= ELF_T_VDEF && type <= ELF_T_NHDR)
          || type == ELF_T_GNUHASH)
        continue;
      size_t size = gelf_fsize (elf, type, 1, EV_CURRENT);
      printf ("type %d: %zu %zu %zu\n", type, size, elf32_fsize (type, 3, EV_CURRENT),
              elf64_fsize (type, 3, EV_CURRENT));
      for (int at = 0; at < 4; at += 3)
        {
          Elf_Data *data = elf_getdata_rawchunk (elf, at, 2 * size, type);
          say ("chunk", data == NULL ? NULL : data->d_buf, 2 * size);
        }
    }
  say ("far", elf_getdata_rawchunk (elf, (int64_t) 1 << 40, 64, ELF_T_BYTE), 0);
  say ("before", elf_getdata_rawchunk (elf, -1, 64, ELF_T_BYTE), 0);
}

int
main (int argc, char **argv)
{
  if (argc != 2)
    return 2;
  elf_version (EV_CURRENT);
  Elf *elf = elf_begin (open (argv[1], O_RDONLY), ELF_C_READ_MMAP, NULL);
  if (elf == NULL)
    {
      say ("begin", NULL, 0);
      return 1;
    }
  GElf_Ehdr ehdr;
  size_t count = 0, names = 0;
  printf ("kind %d, class %d, base %ld\n", elf_kind (elf), gelf_getclass (elf),
          (long) elf_getbase (elf));
  say ("ident", elf_getident (elf, &count), count);
  if (elf_kind (elf) == ELF_K_ELF)
    {
      say ("ehdr", gelf_getehdr (elf, &ehdr), sizeof ehdr);
      tell_segments (elf);
      if (elf_getshdrnum (elf, &count) != 0 || elf_getshdrstrndx (elf, &names) != 0)
        say ("sections", NULL, 0);
      printf ("shdrnum %zu, names in %zu\n", count, names);
      for (size_t i = 0; i < count; i++)
        tell_section (elf, elf_getscn (elf, i), names);
      say ("no such section", elf_getscn (elf, count + 1), 0);
      tell_chunks (elf);
      for (size_t at = 0; at < 0x1000; at++)
        {
          Elf_Scn *scn = gelf_offscn (elf, at);
          if (scn != NULL)
            printf ("at %zx: section %zu\n", at, elf_ndxscn (scn));
        }
    }
  printf ("end %d\n", elf_end (elf));
  return 0;
}
