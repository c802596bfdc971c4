/* object.h: what stands behind an Elf, an Elf_Scn and an Elf_Data in the C layer. */
#ifndef ELFKIT_OBJECT_H
#define ELFKIT_OBJECT_H 1

#include "errors.h"
#include "gelf.h"

/* The layer names what programs may call; all else stays inside. */
#define PUBLIC __attribute__ ((visibility ("default")))

/* A list of pointers, which grows at its end. */
struct list
{
  void **at;
  size_t count, room;
};

/* An Elf_Data of the layer. A program sees its first member alone. */
struct elfkit_data
{
  Elf_Data d;
  Elf_Scn *scn;                 /* the section */
  Elf *elf;
  void *owned;                  /* memory to be freed with it */
  struct elfkit_data *next;     /* the next piece of the section */
  bool from_core;               /* the core's items are those of d_buf */
  bool is_64, is_native;        /* the class and the order of its image */
  bool has_form;                /* both are those of the forms of gelf(3E) */
  uint8_t flags;
};

/* A section. A chunk of the file is one by itself, which has nothing but its data. The descriptor
   stands where elfutils 0.188 has it, whose libdw goes to it from data, by the section, without a
   call. An image may have many sections, so what is short is kept short. */
struct Elf_Scn
{
  struct elfkit_data data;
  struct elfkit_extent home;    /* where its bytes are */
  uint64_t strings_end;         /* the place behind its last string, 0 where it is not known */
  void *shdr;                   /* its header in native form, once a program asked for it */
  struct elfkit_data *last;     /* its last piece, once a program added one */
  struct elfkit_data *raw;      /* its bytes as the file has them, once a program asked for them */
  uint32_t index;
  uint32_t extended;            /* its table of extended indexes, 0 for none */
  Elf *elf;
  char *unpacked;               /* its strings, where it is compressed and they were asked for */
  uint64_t unpacked_size;
  uint8_t flags, shdr_flags;
  uint8_t has_home, has_data;   /* 1: there; 2: refused */
  uint8_t home_error, data_error, raw_error;
  bool is_made;                 /* a program made it, and its data */
  bool is_new;                  /* the image that is open has no such section */
  bool has_end;                 /* where its strings end is known */
};

/* What programs saw of an image before it was written: they may look at it still. */
struct kept
{
  struct kept *next;
  uint8_t *at;
  size_t size;
  bool is_mapped;
};

/* What the ELF header says of the tables, as it stands in the image. */
struct tables
{
  uint64_t phoff, shoff;
  uint32_t version;
  uint16_t phentsize, phnum, shentsize, shnum, shstrndx;
};

/* A descriptor. The first part is laid out as elfutils 0.188 has it, whose libdw and libebl look at
   some of these places without a call. */
struct Elf
{
  uint8_t *map;                 /* the file as programs see it; the image is at start in it */
  Elf *parent;                  /* the archive that it is a member of */
  Elf *next;                    /* the next of that archive's open members */
  Elf_Kind kind;
  Elf_Cmd cmd;
  unsigned int class;
  int fd;
  int64_t start;                /* where it begins in the file */
  size_t size;                  /* the length of the image */
  unsigned int marks;           /* IS_HANDED_OVER, which libdwfl sets */
  int refs;                     /* how many calls of elf_end there will be */
  uint64_t reserved;
  void *ehdr;                   /* its ELF header in native form */
  uint64_t theirs[11];          /* libdwfl writes here to find an image in a kernel's file */

  uint8_t *shown;               /* the image as programs see it, and may change it */
  struct elfkit_handle handle;  /* the core's object, where the kind is ELF_K_ELF (has_core) */
  const uint8_t *lent;          /* the image as the core reads it */
  /* MAPPED_ONCE: programs see the lent bytes themselves; INSIDE: it lies in its archive's image;
     WRITTEN: the file may be another, and a copy is lent of what programs see of it */
  enum { MAPPED, MAPPED_ONCE, COPIED, BORROWED, INSIDE, WRITTEN, NOTHING } memory;
  uint8_t *front;               /* a copy of the image, lent with another front */
  struct tables tables;         /* where the kind is ELF_K_ELF */
  bool is_cut;                  /* its section headers do not lie in it: it is read as without */
  bool lacks_phdrs;             /* some of its program headers do not lie in it */
  unsigned int order;
  void *phdr;                   /* its program headers in native form */
  size_t phnum;
  uint32_t shstrndx;            /* the section of names that the image tells */
  Elf_Scn *sections;            /* those of the image that was opened */
  size_t opened;
  struct list added;            /* those that a program made, behind them */
  size_t shnum;                 /* how many there are of both */
  bool has_links;               /* the sections know their tables of extended indexes */
  void *chunks;                 /* the chunks of the file that were asked for, a tree */
  uint8_t flags, ehdr_flags, phdr_flags;
  bool has_parts;               /* a program asked for more of a section than its place */
  bool is_bare;                 /* an image that is made anew: there is no object of it */
  bool is_torn;                 /* the file may have other bytes than those that are lent */
  struct kept *kept;
  struct elfkit_member *member;         /* its header, where it is a member of an archive */
  struct elfkit_archive *archive;       /* its members, where the kind is ELF_K_AR */
};

/* A member of an archive that the walk came to. */
struct elfkit_member
{
  Elf_Arhdr header;
  uint64_t at, body;            /* the places of the header and of the body in the archive */
  char raw_name[17];
  char name[];
};

/* What an archive has besides: the core's walk, and the members that it came to. */
struct elfkit_archive
{
  struct elfkit_ar_handle handle;
  struct list members;
  struct elfkit_ar_member came; /* the one that the core gave and that is not among them yet */
  uint64_t place;               /* where the header after them stands */
  int end;                      /* why there are no more, E_NONE where there may be */
  size_t current;               /* the member that elf_begin opens, or NOWHERE */
  Elf *open;                    /* the members that are open, by next */
  Elf_Arsym *symbols;           /* the table of symbols, once a program asked for it */
  size_t symbol_count;
};

/* No member, and the place of the first header. */
#define NOWHERE SIZE_MAX
enum { FIRST_HEADER = 8 };

/* The image was given to elf_memory by malloc, and elf_end frees it: libdwfl says so of what it has
   decompressed. */
enum { IS_HANDED_OVER = 0x80 };

_Static_assert (offsetof (struct elfkit_data, scn) == 0x28, "the place of the section");
_Static_assert (offsetof (struct Elf_Scn, elf) == 0x88, "the place of the descriptor");
_Static_assert (offsetof (struct Elf, kind) == 0x18, "the place of the kind");
_Static_assert (offsetof (struct Elf, start) == 0x28, "the place of the start");
_Static_assert (offsetof (struct Elf, marks) == 0x38, "the place of the marks");
_Static_assert (offsetof (struct Elf, ehdr) == 0x48, "the place of the native ELF header");

/* Adds a pointer to a list; false and an error where there is no memory. */
bool add (struct list *list, void *item);

/* Whether elf_version was called, by any thread. */
extern _Atomic bool version_is_set;

/* The byte order of the machine. */
enum { NATIVE_ORDER = ELFDATA2LSB };

/* What is known of a type of data, for class 32 and class 64. */
struct type
{
  uint8_t size[2], align[2];    /* of an item in the file, and what C wants of it in memory */
  uint8_t kind;                 /* the core's kind of such items; 0 where it has bytes alone */
  bool is_list;                 /* its items are of several sizes */
};

static const struct type types[ELF_T_NUM] = {
  [ELF_T_BYTE] = { { 1, 1 }, { 1, 1 }, 0, false },
  [ELF_T_ADDR] = { { 4, 8 }, { 4, 8 }, ADDRESSES, false },
  [ELF_T_DYN] = { { 8, 16 }, { 4, 8 }, DYNS, false },
  [ELF_T_EHDR] = { { 52, 64 }, { 4, 8 }, 0, false },
  [ELF_T_HALF] = { { 2, 2 }, { 2, 2 }, HALVES, false },
  [ELF_T_OFF] = { { 4, 8 }, { 4, 8 }, 0, false },
  [ELF_T_PHDR] = { { 32, 56 }, { 4, 8 }, 0, false },
  [ELF_T_RELA] = { { 12, 24 }, { 4, 8 }, RELAS, false },
  [ELF_T_REL] = { { 8, 16 }, { 4, 8 }, RELS, false },
  [ELF_T_SHDR] = { { 40, 64 }, { 4, 8 }, 0, false },
  [ELF_T_SWORD] = { { 4, 4 }, { 4, 4 }, 0, false },
  [ELF_T_SYM] = { { 16, 24 }, { 4, 8 }, SYMBOLS, false },
  [ELF_T_WORD] = { { 4, 4 }, { 4, 4 }, WORDS, false },
  [ELF_T_XWORD] = { { 8, 8 }, { 8, 8 }, 0, false },
  [ELF_T_SXWORD] = { { 8, 8 }, { 8, 8 }, 0, false },
  [ELF_T_VDEF] = { { 20, 20 }, { 4, 4 }, 0, true },
  [ELF_T_VDAUX] = { { 8, 8 }, { 4, 4 }, 0, false },
  [ELF_T_VNEED] = { { 16, 16 }, { 4, 4 }, 0, true },
  [ELF_T_VNAUX] = { { 16, 16 }, { 4, 4 }, 0, false },
  [ELF_T_NHDR] = { { 12, 12 }, { 4, 4 }, 0, true },
  [ELF_T_SYMINFO] = { { 4, 4 }, { 2, 2 }, 0, false },
  [ELF_T_MOVE] = { { 24, 32 }, { 8, 8 }, 0, false },
  [ELF_T_LIB] = { { 20, 20 }, { 4, 4 }, 0, false },
  [ELF_T_GNUHASH] = { { 4, 4 }, { 4, 8 }, 0, true },
  [ELF_T_AUXV] = { { 8, 16 }, { 4, 8 }, 0, false },
  [ELF_T_CHDR] = { { 12, 24 }, { 4, 8 }, 0, true },
  [ELF_T_NHDR8] = { { 12, 12 }, { 8, 8 }, 0, true },
};

/* The size of an item; 0 for a type or a class that is not known. */
size_t item_size (Elf_Type type, unsigned int class);

/* The alignment that C wants of an item in memory, of a type that is known. */
static inline size_t
item_align (Elf_Type type, unsigned int class)
{
  return types[type].align[class == ELFCLASS64];
}

/* Whether a number of bytes is one of whole items; of a type with items of several sizes any is. */
static inline bool
is_whole (Elf_Type type, unsigned int class, size_t size)
{
  return types[type].is_list || size % types[type].size[class == ELFCLASS64] == 0;
}

/* The type of the data of a section with that header. */
Elf_Type section_type (const GElf_Shdr *shdr);

/* Puts a record into the form of gelf(3E), that of class 64, and back from it; false and an error
   where a number does not fit the class. */
void to_gelf (Elf_Type type, unsigned int class, void *to, const void *from);
bool from_gelf (Elf_Type type, unsigned int class, void *to, const void *from);

/* A number of so many bytes, the least first or the greatest (msb), and how it is put there. */
uint64_t number_at (const uint8_t *at, size_t width, bool msb);
void put_number (uint8_t *at, size_t width, bool msb, uint64_t number);

/* Translates so many bytes of items between the orders; the two ranges are the same or apart. */
void translate (Elf_Type type, unsigned int class, bool to_memory, void *to, const void *from,
                size_t size);

/* The same, to memory of their own; NULL and an error where there is none. */
void *translated (const Elf *elf, Elf_Type type, bool to_memory, const void *from, size_t size);

/* Whether items of an image have another form in the file than in memory. */
static inline bool
is_foreign (const Elf *elf, Elf_Type type)
{
  return elf->order != NATIVE_ORDER && type != ELF_T_BYTE;
}

/* Makes data that of an image. */
void tie (struct elfkit_data *d, Elf *elf);

/* The raw data of a section, empty where there is none yet; NULL and an error where there is no
   memory. */
struct elfkit_data *raw_of (Elf_Scn *scn);

/* Lets go of the chunks of a file, and of the data of a section. */
void free_chunks (Elf *elf);
void free_pieces (Elf_Scn *scn);

/* Whether the sections are there; false and an error where it is no ELF image, or where there is no
   memory. */
bool has_sections (Elf *elf);

/* Frees the array of the sections of the image. */
void free_array (Elf *elf);

/* Whether it is an ELF image, of that class unless it is 0, with an ELF header. */
bool is_elf (Elf *elf, unsigned int class);

/* The core's header of a section of the image that is open; false and an error where there is no
   memory. */
bool opened_shdr (const Elf_Scn *scn, GElf_Shdr *dst);

/* The native form of a section header and of the program headers; NULL and an error where there is
   none. */
void *native_shdr (Elf_Scn *scn, unsigned int class);
void *native_phdrs (Elf *elf);

/* Puts a header into its native form; false and an error where it does not fit the class. */
bool put_ehdr (Elf *elf, const GElf_Ehdr *src);
bool put_shdr (Elf_Scn *scn, const GElf_Shdr *src);

/* Takes the image of a file, by mappings or in memory; false and an error where it is not to be
   had. */
bool take_file (Elf *elf, int fd);

/* Has the bytes that are lent apart from those that programs see, where they are not in a mapping
   or the program's; false and an error where there is no memory. */
bool is_apart (Elf *elf);

/* Lets go of the image, and of what programs saw of images before. */
void let_go (Elf *elf);

/* Unmaps bytes, or frees them. */
void drop_bytes (void *at, size_t size, bool is_mapped);

/* Maps a file of a size; false where it cannot be mapped. */
bool map_file (Elf *elf, int fd, size_t size);

/* Lets go of the bytes that are lent, where programs do not see them. */
void drop_lent (Elf *elf);

/* Whether bytes are those that a mapping of the file shows at their place. */
bool is_seen (const Elf *elf, uint64_t at, const uint8_t *bytes, size_t size);

/* Has what programs see of a range of a file in memory, and what they saw before, so that a write
   of these bytes there does not change it. A mapping that shows these very bytes stays as it is. */
void keep_pages (Elf *elf, uint64_t from, uint64_t to, const uint8_t *bytes);

/* What is known of the pages of this process: so many entries of /proc/self/pagemap. */
struct pages
{
  uint64_t first, count;
  uint64_t entries[1024];
};

/* The first byte of a range of a private mapping that is in a page that was written, or in one that
   was not, which has the file's bytes; else its end. */
const uint8_t *find_page (struct pages *p, const uint8_t *at, const uint8_t *end, bool is_written);

/* The same from a place on, so that a file that is cut there does not take it away; false and an
   error where there is no memory. */
bool keep_end (Elf *elf, uint64_t from);

/* Has a copy of the image lent, so that a write of the file does not change what is lent; false and
   an error where there is no memory, and for an archive and its members. */
bool own_image (Elf *elf);

/* What the ELF header of an image says of the tables. */
struct tables tables_of (const uint8_t *image);

/* Makes an ELF header of zeros one with that identification, which tells nothing else. */
void make_front (uint8_t *image, const uint8_t *ident);

/* Whether a command opens a file to be changed in place, and one to be written in either way. */
static inline bool
changes_file (Elf_Cmd cmd)
{
  return cmd == ELF_C_RDWR || cmd == ELF_C_RDWR_MMAP;
}

static inline bool
is_writing (Elf_Cmd cmd)
{
  return changes_file (cmd) || cmd == ELF_C_WRITE || cmd == ELF_C_WRITE_MMAP;
}

/* Begins an object of the core over bytes; false and an error where it is refused. */
bool begin_over (const uint8_t *bytes, size_t size, struct elfkit_handle *h);

/* Ends an object of the core, where there is one. */
void end_object (struct elfkit_handle *h);

/* Begins over the image of a descriptor; the number of the core's refusal, or 0. */
uint32_t begin_core (Elf *elf);

/* Whether the core is sure to take the image as it is, with the counts of its ELF header, and that
   header has the native form. */
bool is_plain (const Elf *elf);

/* Whether there is the core's object of an image, which is made when it is first asked for where
   the image is plain; false and an error where there is no memory, or where another program has
   changed the file meanwhile. */
static inline bool
has_core (Elf *elf)
{
  if (elf->handle.ptr != NULL)
    return true;
  return elf->is_torn ? is_given (begin_core (elf))
                      : is_apart (elf) && begin_over (elf->lent, elf->size, &elf->handle);
}

/* That object, which is there. */
static inline struct elfkit_handle *
core_of (Elf *elf)
{
#ifdef ELFKIT_CHECK
  if (elf->handle.ptr == NULL)
    abort ();
#endif
  return &elf->handle;
}

/* Makes the archive of the image; false and an error where it is refused. */
bool begin_archive (Elf *elf);

/* Lets go of what an archive has besides. */
void end_archive (struct elfkit_archive *archive);

/* The member that an archive stands at; NULL and an error where there is none. */
struct elfkit_member *current_member (Elf *elf);

/* Whether programs may write where they see the image. */
bool may_write (const Elf *elf);

/* The bytes that a compressed section holds, as many as its compression header tells, and that
   header; NULL and an error where there are none. */
uint8_t *unpack (Elf_Scn *scn, GElf_Chdr *chdr);

/* Makes a section behind the others, with a header of zeros; NULL and an error where there is no
   memory. */
Elf_Scn *append_section (Elf *elf);

/* The section, with its home's place; false and an error where the core refuses. */
bool has_home (Elf_Scn *scn);

/* What programs saw of the strings of a section is not looked for there any more. */
void forget_strings (Elf_Scn *scn);

/* The section with a number below the count. One of the image knows its number and its descriptor
   from then on. */
static inline Elf_Scn *
section_at (Elf *elf, size_t index)
{
  if (index >= elf->opened)
    return elf->added.at[index - elf->opened];
  Elf_Scn *scn = &elf->sections[index];
  /* clang: a section below opened is asked for where there are sections (free_sections) */
  scn->elf = elf;               /* -fanalyzer: has_sections made them, where opened is not 0 */
  scn->index = index;
  return scn;
}

static inline bool
is_power (uint64_t n)
{
  return (n & (n - 1)) == 0;
}

static inline uint64_t
round_up (uint64_t n, uint64_t align)
{
  return align <= 1 ? n : (n + align - 1) & -align;
}

/* Whether the place and the length lie in a size. */
static inline bool
lies_in (uint64_t at, uint64_t len, uint64_t size)
{
  return at <= size && len <= size - at;
}

/* The data with a record of a type and a size at a place; NULL and an error where there is none. */
struct elfkit_data *record_of (Elf_Data *data, Elf_Type type, int offset, size_t size);

/* NULL, and the error of an item that is not there. */
struct elfkit_data *no_item (Elf_Data *data, Elf_Type type);

/* The layer's part of an Elf_Data. */
static inline struct elfkit_data *
data_of (Elf_Data *data)
{
  return (struct elfkit_data *) data;
}

/* The data with items of a type at an index; NULL and an error where there is none. */
static inline struct elfkit_data *
item_of (Elf_Data *data, Elf_Type type, int ndx)
{
  struct elfkit_data *d = data_of (data);
  if (d == NULL || data->d_type != type || d->elf == NULL || ndx < 0 || data->d_buf == NULL
      || ((size_t) ndx + 1) * types[type].size[d->is_64] > data->d_size)
    return no_item (data, type);
  return d;
}

/* The item in the buffer. */
static inline void *
at_index (const struct elfkit_data *d, Elf_Type type, int ndx)
{
  return (uint8_t *) d->d.d_buf + (size_t) ndx * types[type].size[d->is_64];
}

#endif /* object.h */
