/* libelf.h: the calls of elf(3E), as elfkit's libelf has them. The names, the numbers and the
   layouts are those of the interface; programs that were built with another libelf of the same
   interface run with this one. */
#ifndef _LIBELF_H
#define _LIBELF_H 1

#include <elf.h>
#include <stdint.h>
#include <sys/types.h>

/* Newer kinds of sections and headers, for C libraries that lack them. */
#ifndef SHF_COMPRESSED
# define SHF_COMPRESSED (1 << 11)
# define ELFCOMPRESS_ZLIB 1
#endif

/* What the data of a section consists of, d_type. */
typedef enum
{
  ELF_T_BYTE,                   /* bytes */
  ELF_T_ADDR,                   /* addresses, Elf32_Addr or Elf64_Addr */
  ELF_T_DYN,                    /* entries of the dynamic section */
  ELF_T_EHDR,                   /* an ELF header */
  ELF_T_HALF,                   /* two-byte numbers */
  ELF_T_OFF,                    /* places in a file */
  ELF_T_PHDR,                   /* program headers */
  ELF_T_RELA,                   /* relocations with an addend */
  ELF_T_REL,                    /* relocations without one */
  ELF_T_SHDR,                   /* section headers */
  ELF_T_SWORD,                  /* signed four-byte numbers */
  ELF_T_SYM,                    /* symbols */
  ELF_T_WORD,                   /* four-byte numbers */
  ELF_T_XWORD,                  /* eight-byte numbers */
  ELF_T_SXWORD,                 /* signed eight-byte numbers */
  ELF_T_VDEF,                   /* version definitions, with their names */
  ELF_T_VDAUX,                  /* names of version definitions */
  ELF_T_VNEED,                  /* needs of versions, with the versions */
  ELF_T_VNAUX,                  /* needed versions */
  ELF_T_NHDR,                   /* notes that are aligned to 4 bytes */
  ELF_T_SYMINFO,                /* Elf32_Syminfo or Elf64_Syminfo */
  ELF_T_MOVE,                   /* Elf32_Move or Elf64_Move */
  ELF_T_LIB,                    /* Elf32_Lib or Elf64_Lib */
  ELF_T_GNUHASH,                /* GNU's hash section */
  ELF_T_AUXV,                   /* the auxiliary vector */
  ELF_T_CHDR,                   /* a compression header, and the compressed bytes */
  ELF_T_NHDR8,                  /* notes that are aligned to 8 bytes */
  ELF_T_NUM                     /* the number of the kinds above */
} Elf_Type;

/* A piece of a section's data. */
typedef struct
{
  void *d_buf;                  /* the data in memory form */
  Elf_Type d_type;              /* what it consists of */
  unsigned int d_version;       /* the version, EV_CURRENT */
  size_t d_size;                /* its size in bytes */
  int64_t d_off;                /* its place in the section */
  size_t d_align;               /* its alignment in the section */
} Elf_Data;

/* What elf_begin and elf_update are to do. */
typedef enum
{
  ELF_C_NULL,                   /* nothing; elf_update computes the layout */
  ELF_C_READ,                   /* read */
  ELF_C_RDWR,                   /* read, and write in place */
  ELF_C_WRITE,                  /* write what is made anew */
  ELF_C_CLR,                    /* clear a flag */
  ELF_C_SET,                    /* set a flag */
  ELF_C_FDDONE,                 /* the file descriptor is used no more */
  ELF_C_FDREAD,                 /* read all, so that it is used no more */
  ELF_C_READ_MMAP,              /* as ELF_C_READ, by mapping the file */
  ELF_C_RDWR_MMAP,
  ELF_C_WRITE_MMAP,
  ELF_C_READ_MMAP_PRIVATE,      /* the same, privately */
  ELF_C_EMPTY,                  /* a copy has no data yet */
  ELF_C_NUM
} Elf_Cmd;

/* Flags of the parts of an object. */
enum
{
  ELF_F_DIRTY = 0x1,            /* it differs from what the image holds */
#define ELF_F_DIRTY ELF_F_DIRTY
  ELF_F_LAYOUT = 0x4,           /* the layout is the caller's */
#define ELF_F_LAYOUT ELF_F_LAYOUT
  ELF_F_PERMISSIVE = 0x8        /* some rules may be broken */
#define ELF_F_PERMISSIVE ELF_F_PERMISSIVE
};

/* Flags of elf_compress. */
enum
{
  ELF_CHF_FORCE = 0x1
#define ELF_CHF_FORCE ELF_CHF_FORCE
};

/* What a descriptor is over. */
typedef enum
{
  ELF_K_NONE,                   /* neither of the following */
  ELF_K_AR,                     /* an archive */
  ELF_K_COFF,                   /* a COFF file; none is known here */
  ELF_K_ELF,                    /* an ELF image */
  ELF_K_NUM
} Elf_Kind;

/* The header of a member of an archive. */
typedef struct
{
  char *ar_name;                /* its name */
  time_t ar_date;               /* its date */
  uid_t ar_uid;                 /* its owner */
  gid_t ar_gid;                 /* its group */
  mode_t ar_mode;               /* its mode */
  int64_t ar_size;              /* its size in bytes */
  char *ar_rawname;             /* its name as the archive has it */
} Elf_Arhdr;

/* An entry of an archive's symbol table. */
typedef struct
{
  char *as_name;                /* the symbol's name */
  size_t as_off;                /* the place of the member that defines it */
  unsigned long int as_hash;    /* the hash of the name */
} Elf_Arsym;

typedef struct Elf Elf;
typedef struct Elf_Scn Elf_Scn;

#ifdef __cplusplus
extern "C" {
#endif

/* Opening and closing. */
extern unsigned int elf_version (unsigned int version);
extern Elf *elf_begin (int fd, Elf_Cmd cmd, Elf *ref);
extern Elf *elf_memory (char *image, size_t size);
extern Elf *elf_clone (Elf *elf, Elf_Cmd cmd);
extern int elf_end (Elf *elf);
extern int elf_cntl (Elf *elf, Elf_Cmd cmd);
extern int64_t elf_update (Elf *elf, Elf_Cmd cmd);
extern Elf_Kind elf_kind (Elf *elf) __attribute__ ((__pure__));
extern int64_t elf_getbase (Elf *elf);
extern char *elf_getident (Elf *elf, size_t *size);
extern char *elf_rawfile (Elf *elf, size_t *size);

/* Errors. */
extern int elf_errno (void);
extern const char *elf_errmsg (int error);

/* Headers of a class. */
extern Elf32_Ehdr *elf32_getehdr (Elf *elf);
extern Elf64_Ehdr *elf64_getehdr (Elf *elf);
extern Elf32_Ehdr *elf32_newehdr (Elf *elf);
extern Elf64_Ehdr *elf64_newehdr (Elf *elf);
extern Elf32_Phdr *elf32_getphdr (Elf *elf);
extern Elf64_Phdr *elf64_getphdr (Elf *elf);
extern Elf32_Phdr *elf32_newphdr (Elf *elf, size_t count);
extern Elf64_Phdr *elf64_newphdr (Elf *elf, size_t count);
extern Elf32_Shdr *elf32_getshdr (Elf_Scn *scn);
extern Elf64_Shdr *elf64_getshdr (Elf_Scn *scn);
extern Elf32_Chdr *elf32_getchdr (Elf_Scn *scn);
extern Elf64_Chdr *elf64_getchdr (Elf_Scn *scn);

/* Counts. */
extern int elf_getphdrnum (Elf *elf, size_t *count);
extern int elf_getshdrnum (Elf *elf, size_t *count);
extern int elf_getshdrstrndx (Elf *elf, size_t *index);
extern int elf_getshnum (Elf *elf, size_t *count) __attribute__ ((__deprecated__));
extern int elf_getshstrndx (Elf *elf, size_t *index) __attribute__ ((__deprecated__));

/* Sections. */
extern Elf_Scn *elf32_offscn (Elf *elf, Elf32_Off offset);
extern Elf_Scn *elf64_offscn (Elf *elf, Elf64_Off offset);
extern Elf_Scn *elf_getscn (Elf *elf, size_t index);
extern Elf_Scn *elf_nextscn (Elf *elf, Elf_Scn *scn);
extern Elf_Scn *elf_newscn (Elf *elf);
extern size_t elf_ndxscn (Elf_Scn *scn);
extern int elf_scnshndx (Elf_Scn *scn);

/* Data. */
extern Elf_Data *elf_getdata (Elf_Scn *scn, Elf_Data *data);
extern Elf_Data *elf_rawdata (Elf_Scn *scn, Elf_Data *data);
extern Elf_Data *elf_newdata (Elf_Scn *scn);
extern Elf_Data *elf_getdata_rawchunk (Elf *elf, int64_t offset, size_t size, Elf_Type type);
extern char *elf_strptr (Elf *elf, size_t index, size_t offset);
extern int elf_compress (Elf_Scn *scn, int type, unsigned int flags);
extern int elf_compress_gnu (Elf_Scn *scn, int compress, unsigned int flags);

/* Flags. */
extern unsigned int elf_flagdata (Elf_Data *data, Elf_Cmd cmd, unsigned int flags);
extern unsigned int elf_flagehdr (Elf *elf, Elf_Cmd cmd, unsigned int flags);
extern unsigned int elf_flagelf (Elf *elf, Elf_Cmd cmd, unsigned int flags);
extern unsigned int elf_flagphdr (Elf *elf, Elf_Cmd cmd, unsigned int flags);
extern unsigned int elf_flagscn (Elf_Scn *scn, Elf_Cmd cmd, unsigned int flags);
extern unsigned int elf_flagshdr (Elf_Scn *scn, Elf_Cmd cmd, unsigned int flags);
extern void elf_fill (int fill);

/* Translation. */
extern size_t elf32_fsize (Elf_Type type, size_t count, unsigned int version)
     __attribute__ ((__const__));
extern size_t elf64_fsize (Elf_Type type, size_t count, unsigned int version)
     __attribute__ ((__const__));
extern Elf_Data *elf32_xlatetom (Elf_Data *dest, const Elf_Data *src, unsigned int encode);
extern Elf_Data *elf64_xlatetom (Elf_Data *dest, const Elf_Data *src, unsigned int encode);
extern Elf_Data *elf32_xlatetof (Elf_Data *dest, const Elf_Data *src, unsigned int encode);
extern Elf_Data *elf64_xlatetof (Elf_Data *dest, const Elf_Data *src, unsigned int encode);

/* Archives. */
extern Elf_Cmd elf_next (Elf *elf);
extern size_t elf_rand (Elf *elf, size_t offset);
extern Elf_Arhdr *elf_getarhdr (Elf *elf);
extern int64_t elf_getaroff (Elf *elf);
extern Elf_Arsym *elf_getarsym (Elf *elf, size_t *count);

/* Others. */
extern long int elf32_checksum (Elf *elf);
extern long int elf64_checksum (Elf *elf);
extern unsigned long int elf_hash (const char *name) __attribute__ ((__pure__));
extern unsigned long int elf_gnu_hash (const char *name) __attribute__ ((__pure__));

#ifdef __cplusplus
}
#endif

#endif /* libelf.h */
