/* gelf.h: the calls of gelf(3E), which serve both classes, as elfkit's libelf has them. */
#ifndef _GELF_H
#define _GELF_H 1

#include <libelf.h>

/* One form of each record for both classes: that of class 64. */
typedef Elf64_Half GElf_Half;
typedef Elf64_Word GElf_Word;
typedef Elf64_Sword GElf_Sword;
typedef Elf64_Xword GElf_Xword;
typedef Elf64_Sxword GElf_Sxword;
typedef Elf64_Addr GElf_Addr;
typedef Elf64_Off GElf_Off;
typedef Elf64_Ehdr GElf_Ehdr;
typedef Elf64_Shdr GElf_Shdr;
typedef Elf64_Section GElf_Section;
typedef Elf64_Sym GElf_Sym;
typedef Elf64_Syminfo GElf_Syminfo;
typedef Elf64_Rel GElf_Rel;
typedef Elf64_Rela GElf_Rela;
typedef Elf64_Phdr GElf_Phdr;
typedef Elf64_Dyn GElf_Dyn;
typedef Elf64_Verdef GElf_Verdef;
typedef Elf64_Verdaux GElf_Verdaux;
typedef Elf64_Verneed GElf_Verneed;
typedef Elf64_Vernaux GElf_Vernaux;
typedef Elf64_Versym GElf_Versym;
typedef Elf64_auxv_t GElf_auxv_t;
typedef Elf64_Nhdr GElf_Nhdr;
typedef Elf64_Move GElf_Move;
typedef Elf64_Lib GElf_Lib;
typedef Elf64_Chdr GElf_Chdr;

/* The parts of st_info, st_other and r_info. */
#define GELF_ST_BIND(val) ELF64_ST_BIND (val)
#define GELF_ST_TYPE(val) ELF64_ST_TYPE (val)
#define GELF_ST_INFO(bind, type) ELF64_ST_INFO (bind, type)
#define GELF_ST_VISIBILITY(val) ELF64_ST_VISIBILITY (val)
#define GELF_R_SYM(info) ELF64_R_SYM (info)
#define GELF_R_TYPE(info) ELF64_R_TYPE (info)
#define GELF_R_INFO(sym, type) ELF64_R_INFO (sym, type)
#define GELF_M_SYM(info) ELF64_M_SYM (info)
#define GELF_M_SIZE(info) ELF64_M_SIZE (info)
#define GELF_M_INFO(sym, size) ELF64_M_INFO (sym, size)

#ifdef __cplusplus
extern "C" {
#endif

/* Headers. */
extern int gelf_getclass (Elf *elf);
extern size_t gelf_fsize (Elf *elf, Elf_Type type, size_t count, unsigned int version);
extern GElf_Ehdr *gelf_getehdr (Elf *elf, GElf_Ehdr *dst);
extern int gelf_update_ehdr (Elf *elf, GElf_Ehdr *src);
extern void *gelf_newehdr (Elf *elf, int elfclass);
extern Elf_Scn *gelf_offscn (Elf *elf, GElf_Off offset);
extern GElf_Shdr *gelf_getshdr (Elf_Scn *scn, GElf_Shdr *dst);
extern int gelf_update_shdr (Elf_Scn *scn, GElf_Shdr *src);
extern GElf_Phdr *gelf_getphdr (Elf *elf, int ndx, GElf_Phdr *dst);
extern int gelf_update_phdr (Elf *elf, int ndx, GElf_Phdr *src);
extern void *gelf_newphdr (Elf *elf, size_t phnum);
extern GElf_Chdr *gelf_getchdr (Elf_Scn *scn, GElf_Chdr *dst);

/* Translation. */
extern Elf_Data *gelf_xlatetom (Elf *elf, Elf_Data *dest, const Elf_Data *src,
                                unsigned int encode);
extern Elf_Data *gelf_xlatetof (Elf *elf, Elf_Data *dest, const Elf_Data *src,
                                unsigned int encode);

/* Items. */
extern GElf_Sym *gelf_getsym (Elf_Data *data, int ndx, GElf_Sym *dst);
extern int gelf_update_sym (Elf_Data *data, int ndx, GElf_Sym *src);
extern GElf_Sym *gelf_getsymshndx (Elf_Data *symdata, Elf_Data *shndxdata, int ndx,
                                   GElf_Sym *sym, Elf32_Word *xshndx);
extern int gelf_update_symshndx (Elf_Data *symdata, Elf_Data *shndxdata, int ndx,
                                 GElf_Sym *sym, Elf32_Word xshndx);
extern GElf_Rel *gelf_getrel (Elf_Data *data, int ndx, GElf_Rel *dst);
extern GElf_Rela *gelf_getrela (Elf_Data *data, int ndx, GElf_Rela *dst);
extern int gelf_update_rel (Elf_Data *dst, int ndx, GElf_Rel *src);
extern int gelf_update_rela (Elf_Data *dst, int ndx, GElf_Rela *src);
extern GElf_Dyn *gelf_getdyn (Elf_Data *data, int ndx, GElf_Dyn *dst);
extern int gelf_update_dyn (Elf_Data *dst, int ndx, GElf_Dyn *src);
extern GElf_Syminfo *gelf_getsyminfo (Elf_Data *data, int ndx, GElf_Syminfo *dst);
extern int gelf_update_syminfo (Elf_Data *data, int ndx, GElf_Syminfo *src);
extern GElf_Move *gelf_getmove (Elf_Data *data, int ndx, GElf_Move *dst);
extern int gelf_update_move (Elf_Data *data, int ndx, GElf_Move *src);
extern GElf_Lib *gelf_getlib (Elf_Data *data, int ndx, GElf_Lib *dst);
extern int gelf_update_lib (Elf_Data *data, int ndx, GElf_Lib *src);
extern GElf_auxv_t *gelf_getauxv (Elf_Data *data, int ndx, GElf_auxv_t *dst);
extern int gelf_update_auxv (Elf_Data *data, int ndx, GElf_auxv_t *src);

/* Versions. */
extern GElf_Versym *gelf_getversym (Elf_Data *data, int ndx, GElf_Versym *dst);
extern int gelf_update_versym (Elf_Data *data, int ndx, GElf_Versym *src);
extern GElf_Verneed *gelf_getverneed (Elf_Data *data, int offset, GElf_Verneed *dst);
extern int gelf_update_verneed (Elf_Data *data, int offset, GElf_Verneed *src);
extern GElf_Vernaux *gelf_getvernaux (Elf_Data *data, int offset, GElf_Vernaux *dst);
extern int gelf_update_vernaux (Elf_Data *data, int offset, GElf_Vernaux *src);
extern GElf_Verdef *gelf_getverdef (Elf_Data *data, int offset, GElf_Verdef *dst);
extern int gelf_update_verdef (Elf_Data *data, int offset, GElf_Verdef *src);
extern GElf_Verdaux *gelf_getverdaux (Elf_Data *data, int offset, GElf_Verdaux *dst);
extern int gelf_update_verdaux (Elf_Data *data, int offset, GElf_Verdaux *src);

/* Notes. */
extern size_t gelf_getnote (Elf_Data *data, size_t offset, GElf_Nhdr *nhdr,
                            size_t *name_offset, size_t *desc_offset);

/* Others. */
extern long int gelf_checksum (Elf *elf);

#ifdef __cplusplus
}
#endif

#endif /* gelf.h */
