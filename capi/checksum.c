/* checksum.c: the checksum of what eu-strip leaves of an image: CRC-32 (ISO 3309) over the bytes of
   its sections, as they stand in the file. */
#include <zlib.h>

#include "object.h"

/* Whether a section stays when an image is stripped: one that is loaded, notes, and program data of
   which the name is a warning's or is not to be read. */
static bool
stays (Elf *elf, size_t names, const GElf_Shdr *shdr)
{
  static const char warning[] = ".gnu.warning.";
  if ((shdr->sh_flags & SHF_ALLOC) || shdr->sh_type == SHT_NOTE)
    return true;
  if (shdr->sh_type != SHT_PROGBITS)
    return false;
  const char *name = elf_strptr (elf, names, shdr->sh_name);
  return name == NULL || strncmp (name, warning, sizeof warning - 1) == 0;
}

/* gelf_checksum, elf32_checksum, elf64_checksum: the checksum, or -1. Data that a program added is
   not counted, as elfutils' library does not count it. */
PUBLIC long int
gelf_checksum (Elf *elf)
{
  size_t names;
  unsigned long sum = 0;
  if (elf == NULL)
    return -1;
  if (elf_getshdrstrndx (elf, &names) != 0)
    return negative_with (E_INVALID_HANDLE);
  for (Elf_Scn *scn = NULL; (scn = elf_nextscn (elf, scn)) != NULL;)
    {
      GElf_Shdr shdr;
      if (gelf_getshdr (scn, &shdr) == NULL)
        return -1;
      if (shdr.sh_type == SHT_NOBITS || !stays (elf, names, &shdr))
        continue;
      const Elf_Data *data = elf_rawdata (scn, NULL);
      if (data != NULL && data->d_buf != NULL)
        sum = crc32_z (sum, data->d_buf, data->d_size);
    }
  return (long int) sum;
}

PUBLIC long int elf32_checksum (Elf *elf) { return gelf_checksum (elf); }
PUBLIC long int elf64_checksum (Elf *elf) { return gelf_checksum (elf); }
