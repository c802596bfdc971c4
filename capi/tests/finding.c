/* finding.c: the values of symbols by name, and the checksum of what stays of an image when it is
   stripped, in both classes and both orders. */
#define _GNU_SOURCE
#include <nlist.h>

#include "check.h"
#include "file.h"
#include "image.h"

/* Whether an entry is one of zeros. */
static int
is_none (const struct nlist *entry)
{
  return entry->n_value == 0 && entry->n_scnum == 0 && entry->n_type == 0 && entry->n_sclass == 0
         && entry->n_numaux == 0;
}

static void
find_symbols (const struct image *m)
{
  char name[64];
  int fd = named_file_of (m->bytes, m->size, name);
  struct nlist list[] = { { .n_name = "second", .n_value = 7 }, { .n_name = "none", .n_type = 7 },
                          { .n_name = "first", .n_sclass = 7 }, { .n_name = "second" },
                          { .n_name = "first" }, { .n_name = NULL, .n_value = 7 } };
  CHECK (nlist (name, list) == 0);
  CHECK (list[2].n_value == 0x1234 && list[2].n_scnum == (short int) SHN_ABS);
  CHECK (list[2].n_type == STT_OBJECT && list[2].n_sclass == 0);
  CHECK (list[4].n_value == 0x1234 && list[4].n_type == STT_OBJECT);
  CHECK (list[0].n_value == 0 && list[0].n_type == STT_FUNC && list[3].n_type == STT_FUNC);
  CHECK (is_none (&list[1]) && list[5].n_value == 7);
  struct nlist empty[] = { { .n_name = "", .n_value = 7 } };
  CHECK (nlist (name, empty) == 0 && empty[0].n_value == 7);
  close (fd);
}

/* A file that is not there, one that is no image, and a symbol without a name to be read. */
static void
find_nothing (struct image *m)
{
  char name[64];
  struct nlist list[] = { { .n_name = "first", .n_value = 7 }, { .n_name = NULL } };
  CHECK (nlist ("/nowhere/at/all", list) == -1 && is_none (&list[0]) && elf_errno () == 39);
  list[0].n_value = 7;
  CHECK (nlist ("/dev/null", list) == -1 && is_none (&list[0]));
  const size_t symbol = m->is64 ? 24 : 16, at = (m->is64 ? 64 : 52) + 64 + 16 + 2 * symbol;
  put (m, at, 4, 1000);
  int fd = named_file_of (m->bytes, m->size, name);
  list[0].n_value = 7;
  CHECK (nlist (name, list) == -1 && is_none (&list[0]));
  put (m, at, 4, 7);
  close (fd);
}

/* CRC-32 of ISO 3309, bit by bit. */
static uint32_t
sum_of (const uint8_t *bytes, size_t size)
{
  uint32_t sum = ~0u;
  for (size_t i = 0; i < 8 * size; i++)
    {
      uint32_t bit = (sum ^ bytes[i / 8] >> i % 8) & 1;
      sum = sum >> 1 ^ (bit ? 0xedb88320 : 0);
    }
  return ~sum;
}

/* The note stays alone, and with it a section that is loaded. */
static void
check_sums (const struct image *m)
{
  GElf_Shdr shdr;
  uint8_t bytes[64];
  Elf *elf = elf_memory ((char *) m->bytes, m->size);
  Elf_Data *strings = elf_rawdata (elf_getscn (elf, STRINGS), NULL);
  Elf_Data *notes = elf_rawdata (elf_getscn (elf, NOTES), NULL);
  CHECK (gelf_checksum (elf) == (long int) sum_of (notes->d_buf, notes->d_size));
  CHECK (elf32_checksum (elf) == gelf_checksum (elf));
  CHECK (elf64_checksum (elf) == gelf_checksum (elf));
  CHECK (gelf_getshdr (elf_getscn (elf, STRINGS), &shdr) == &shdr);
  shdr.sh_flags = SHF_ALLOC;
  CHECK (gelf_update_shdr (elf_getscn (elf, STRINGS), &shdr) == 1);
  memcpy (bytes, strings->d_buf, strings->d_size);
  memcpy (bytes + strings->d_size, notes->d_buf, notes->d_size);
  CHECK (gelf_checksum (elf) == (long int) sum_of (bytes, strings->d_size + notes->d_size));
  shdr.sh_flags = 0;
  shdr.sh_type = SHT_PROGBITS;
  CHECK (gelf_update_shdr (elf_getscn (elf, STRINGS), &shdr) == 1);
  CHECK (gelf_checksum (elf) == (long int) sum_of (notes->d_buf, notes->d_size));
  shdr.sh_name = 10000;
  CHECK (gelf_update_shdr (elf_getscn (elf, STRINGS), &shdr) == 1);
  CHECK (gelf_checksum (elf) == (long int) sum_of (bytes, strings->d_size + notes->d_size));
  CHECK (elf_end (elf) == 0);
  CHECK (gelf_checksum (NULL) == -1);
  elf = elf_memory ("no image", 8);
  CHECK (gelf_checksum (elf) == -1 && elf_errno () != 0 && elf_end (elf) == 0);
}

int
main (void)
{
  elf_version (EV_CURRENT);
  for (int kind = 0; kind < 4; kind++)
    {
      struct image m;
      make_image (&m, kind & 1, kind >> 1);
      find_symbols (&m);
      find_nothing (&m);
      check_sums (&m);
    }
  return ended ("finding");
}
