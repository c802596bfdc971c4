/* rewriting.c: images with a few bytes changed, and cut short, are changed by a program, laid out
   and written over their files. What is asked for is refused or done; what was written is opened
   again with as many sections, and nothing else is looked for but what the sanitizers say.

   usage: rewriting [IMAGES] */
#define _GNU_SOURCE
#include "check.h"
#include "file.h"
#include "image.h"

static char bytes[] = "abcdefgh";

/* Changes a section in one of some ways, or leaves it. */
static void
change_section (Elf_Scn *scn)
{
  GElf_Shdr shdr;
  Elf_Data *data = random_below (2) == 0 ? elf_getdata (scn, NULL) : NULL, *added;
  switch (random_below (4))
    {
    case 0:
      if (data != NULL && data->d_buf != NULL && data->d_size > 0)
        ((char *) data->d_buf)[0] ^= 1;
      elf_flagdata (data, ELF_C_SET, ELF_F_DIRTY);
      break;
    case 1:
      added = elf_newdata (scn);
      if (added == NULL)
        break;
      added->d_buf = bytes;
      added->d_size = random_below (sizeof bytes);
      added->d_type = random_below (8);
      added->d_align = 1 << random_below (4);
      added->d_off = data == NULL ? 0 : data->d_size;
      break;
    case 2:
      if (gelf_getshdr (scn, &shdr) == NULL)
        break;
      shdr.sh_size += random_below (3) - 1;
      gelf_update_shdr (scn, &shdr);
      break;
    default:
      break;
    }
}

/* Adds a section. */
static void
add_section (Elf *elf, size_t at)
{
  GElf_Shdr shdr;
  Elf_Scn *scn = elf_newscn (elf);
  if (scn == NULL || gelf_getshdr (scn, &shdr) == NULL)
    return;
  shdr.sh_type = random_below (12);
  shdr.sh_offset = at;
  shdr.sh_size = random_below (20);
  gelf_update_shdr (scn, &shdr);
  change_section (scn);
}

/* Asks for the data of each section, and for a string. */
static void
look (Elf *elf)
{
  for (Elf_Scn *scn = elf_getscn (elf, 0); scn != NULL; scn = elf_nextscn (elf, scn))
    {
      volatile char last;
      GElf_Shdr shdr;
      gelf_getshdr (scn, &shdr);
      for (Elf_Data *data = NULL; (data = elf_getdata (scn, data)) != NULL;)
        if (data->d_buf != NULL && data->d_size > 0)
          last = ((char *) data->d_buf)[data->d_size - 1];
      (void) last;
      elf_strptr (elf, elf_ndxscn (scn), 1);
    }
}

/* An image that was written is one, with as many sections. */
static void
open_again (int fd, size_t count)
{
  size_t found = 0;
  Elf *elf = elf_begin (fd, ELF_C_READ, NULL);
  CHECK (elf != NULL && elf_kind (elf) == ELF_K_ELF);
  CHECK (elf_getshdrnum (elf, &found) == 0 && found == count);
  look (elf);
  elf_end (elf);
}

/* Changes the image of a file in some ways, lays it out and writes it; whether it was written. */
static int
rewrite (int fd, size_t size)
{
  Elf *elf = elf_begin (fd, random_below (2) ? ELF_C_RDWR : ELF_C_RDWR_MMAP, NULL);
  if (elf == NULL || elf_kind (elf) != ELF_K_ELF)
    {
      elf_end (elf);
      return 0;
    }
  elf_flagelf (elf, ELF_C_SET, random_below (16) & ~ELF_F_DIRTY);
  for (Elf_Scn *scn = NULL; (scn = elf_nextscn (elf, scn)) != NULL;)
    if (random_below (3) == 0)
      change_section (scn);
  if (random_below (3) == 0)
    add_section (elf, size);
  if (random_below (8) == 0)
    gelf_newphdr (elf, random_below (3));
  elf_update (elf, ELF_C_NULL);
  look (elf);
  int64_t length = elf_update (elf, ELF_C_WRITE);
  size_t count = 0;
  look (elf);
  if (length > 0)
    {
      CHECK (lseek (fd, 0, SEEK_END) == length);
      CHECK (elf_getshdrnum (elf, &count) == 0);
    }
  elf_end (elf);
  if (length > 0)
    open_again (fd, count);
  return length > 0;
}

int
main (int argc, char **argv)
{
  int images = argc > 1 ? atoi (argv[1]) : 2000, written = 0;
  elf_version (EV_CURRENT);
  for (int i = 0; i < images; i++)
    {
      struct image m;
      make_image (&m, i & 1, i >> 1 & 1);
      for (uint32_t changes = random_below (5); changes > 0; changes--)
        m.bytes[random_below (m.size)] = random_below (4) == 0 ? 0xff : random_below (256);
      size_t size = random_below (10) == 0 ? random_below (m.size) : m.size;
      int fd = file_of (m.bytes, size);
      written += rewrite (fd, size);
      close (fd);
    }
  CHECK (written > images / 10);
  return ended ("rewriting");
}
