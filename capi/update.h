/* update.h: an update on its way, which update.c, handing.c, parts.c and written.c share. */
#ifndef ELFKIT_UPDATE_H
#define ELFKIT_UPDATE_H 1

#include "object.h"

struct update
{
  Elf *elf;
  bool has_layout;              /* the places are the program's */
  bool is_anew;                 /* nothing of the image that is open stays where no part is */
  bool is_dirty;                /* the image gets another than the one that is open */
  uint64_t end;                 /* where the next part may begin, where the places are not */
  uint64_t base;                /* so many bytes are not filled where no part is */
  GElf_Ehdr ehdr;
  uint32_t names;               /* the section of names */
  uint8_t fill;                 /* the byte of gaps */
  GElf_Shdr *shdrs;             /* what the core gets besides, while all is handed over */
  GElf_Phdr *phdrs;
  struct elfkit_layout layout;  /* the parts, where it is dirty */
  uint64_t length;              /* of the image that is written */
  enum { CHECK, KEEP, WRITE } step;     /* what is done with bytes that are to be written */
  bool stays;                   /* all of them are those that programs see there */
  struct gap_end *ends;         /* what gaps end at, so many */
  size_t end_count;
  uint8_t *block;               /* room for bytes in the form of the file */
  size_t room;
};

/* A file may tell any place and size: so many bytes that no part has are refused. */
enum { MOST_FILL = 1 << 30 };

/* handing.c: completes the headers and hands them to the core, which lays the image out. */
bool hand_over (struct update *u);

/* parts.c: goes over what is written of the data of a section, and over all that is written. */
bool put_section (struct update *u, Elf_Scn *scn, uint64_t at, uint64_t size);
bool put_parts (struct update *u);

/* Puts so many fill bytes, but no zeros where a file gets longer by zeros. */
bool put_fill (struct update *u, uint64_t at, uint64_t size);

/* The bytes of the ELF header or of a table, which stay until the next ones are asked for; NULL and
   an error where there is no memory. */
const uint8_t *front_of (struct update *u, uint64_t i, const struct elfkit_part *part);

/* gaps.c: fills the gaps of an image that a program laid out. */
bool fill_gaps (struct update *u);

/* written.c: writes bytes at a place of a file; and the image to a file of a length: cut, or with
   zeros behind it. */
bool write_bytes (int fd, const uint8_t *bytes, size_t size, size_t at);
bool write_image (struct update *u, uint64_t length);

/* Whether a section has data that a program asked for or made. */
static inline bool
has_pieces (const Elf_Scn *scn)
{
  return scn->is_made ? scn->last != NULL : scn->has_data == 1;
}

/* Whether a program marked the data of a section. */
static inline bool
is_marked (const Elf_Scn *scn)
{
  unsigned int flags = scn->flags | scn->elf->flags;
  for (const struct elfkit_data *d = &scn->data; d != NULL; d = d->next)
    flags |= d->flags;
  return has_pieces (scn) && (flags & ELF_F_DIRTY);
}

/* Whether a section has bytes in the file. */
static inline bool
has_bytes (const GElf_Shdr *shdr)
{
  return shdr->sh_type != SHT_NULL && shdr->sh_type != SHT_NOBITS;
}

#endif /* update.h */
