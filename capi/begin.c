/* begin.c: elf_begin, elf_memory, elf_clone, elf_end and what asks for the descriptor as a whole.
   The core reads the headers of an image and refuses what is none. An image in the machine's order
   whose ELF header says where its tables are, and which has them there, is none of these: the core
   reads its headers once a program asks for more than counts and headers. */
#include <fcntl.h>

#include "object.h"

/* What the first bytes say; an ELF image has its whole ELF header. */
static Elf_Kind
kind_of (const uint8_t *image, size_t size)
{
  if (size >= 8 && memcmp (image, "!<arch>\n", 8) == 0)
    return ELF_K_AR;
  if (size >= EI_NIDENT && memcmp (image, ELFMAG, SELFMAG) == 0
      && (image[EI_DATA] == ELFDATA2LSB || image[EI_DATA] == ELFDATA2MSB)
      && image[EI_VERSION] == EV_CURRENT && item_size (ELF_T_EHDR, image[EI_CLASS]) != 0
      && size >= item_size (ELF_T_EHDR, image[EI_CLASS]))
    return ELF_K_ELF;
  return ELF_K_NONE;
}

/* Puts the ELF header of the core's object into its native form. What it says of the tables is what
   stands in the image. */
static bool
put_core_ehdr (Elf *elf, struct elfkit_handle *h)
{
  struct elfkit_ehdr x;
  elfkit_ehdr (h, &x);
  const struct tables t = elf->tables;
  GElf_Ehdr e = { .e_type = x.etype, .e_machine = x.machine, .e_version = t.version,
                  .e_entry = x.entry, .e_phoff = t.phoff, .e_shoff = t.shoff, .e_flags = x.flags,
                  .e_ehsize = x.ehsize, .e_phentsize = t.phentsize, .e_phnum = t.phnum,
                  .e_shentsize = t.shentsize, .e_shnum = t.shnum, .e_shstrndx = t.shstrndx };
  memcpy (e.e_ident, elf->lent, EI_NIDENT);
  return put_ehdr (elf, &e);
}

#ifdef ELFKIT_CHECK
/* Compares what was taken from a plain image with the core's, of an object that is ended again, and
   the section headers that opened_shdr takes. */
static bool
check_ehdr (Elf *elf)
{
  struct elfkit_handle h = { NULL };
  GElf_Ehdr taken, core;
  GElf_Shdr shdr;
  if (!begin_over (elf->lent, elf->size, &h))
    {
      if (elf_errno () != E_NOMEM)
        abort ();
      return false_with (E_NOMEM);
    }
  gelf_getehdr (elf, &taken);
  if (!put_core_ehdr (elf, &h) || memcmp (&taken, gelf_getehdr (elf, &core), sizeof taken) != 0
      || elfkit_phnum (&h) != elf->phnum || elfkit_shnum (&h) != elf->shnum
      || elfkit_shstrndx (&h) != elf->shstrndx)
    abort ();
  const uint8_t *table = elf->lent + elf->tables.shoff;
  for (size_t i = 0; elf->class == ELFCLASS64 && i < elf->shnum; i++)
    if (elfkit_shdr (&h, i, &shdr) != REFUSED_NOT
        || memcmp (&shdr, table + i * sizeof shdr, sizeof shdr) != 0)
      abort ();
  end_object (&h);
  return true;
}
#endif

/* Takes the ELF header and the counts from an image that is plain. A library that is built with
   ELFKIT_CHECK compares them with the core's. */
static bool
take_ehdr (Elf *elf)
{
  memcpy (elf->ehdr, elf->lent, item_size (ELF_T_EHDR, elf->class));
  elf->phnum = elf->tables.phnum;
  elf->shnum = elf->opened = elf->tables.shnum;
  elf->shstrndx = elf->shnum == 0 ? SHN_UNDEF : elf->tables.shstrndx;
#ifdef ELFKIT_CHECK
  return check_ehdr (elf);
#else
  return true;
#endif
}

/* Takes them from the core, which makes the object; false and an error where it refuses the
   image. */
static bool
ask_ehdr (Elf *elf)
{
  if (!is_given (begin_core (elf)) || !put_core_ehdr (elf, core_of (elf)))
    return false;
  elf->phnum = elfkit_phnum (core_of (elf));
  elf->shnum = elf->opened = elfkit_shnum (core_of (elf));
  elf->shstrndx = elfkit_shstrndx (core_of (elf));
  return true;
}

/* Has the ELF header in native form, and the counts; false and an error where the image is
   refused. */
static bool
begin_object (Elf *elf)
{
  elf->class = elf->lent[EI_CLASS];
  elf->order = elf->lent[EI_DATA];
  elf->tables = tables_of (elf->lent);
  elf->ehdr = new_zeros (item_size (ELF_T_EHDR, elf->class));
  if (elf->ehdr == NULL || !(is_plain (elf) ? take_ehdr (elf) : ask_ehdr (elf)))
    return false;
  if (elf->tables.phoff == 0)
    elf->phnum = 0;             /* a table at place 0 is none */
  return true;
}

/* Makes what a descriptor of its kind has besides; false and an error where the image is
   refused. */
static bool
begin_kind (Elf *elf)
{
  elf->kind = kind_of (elf->lent, elf->size);
  return elf->kind == ELF_K_ELF ? begin_object (elf)
         : elf->kind == ELF_K_AR ? begin_archive (elf) : true;
}

/* Begins over the image that the descriptor has; NULL and an error where it is refused. */
static Elf *
begun (Elf *elf)
{
  elf->refs = 1;
  if (begin_kind (elf))
    return elf;
  elf_end (elf);
  return NULL;
}

/* A descriptor over the member that an archive stands at; NULL and an error where there is none.
   The member's image lies in the archive's, and is lent once more. One whose image is refused is
   shown as what is no image, so that a walk over the archive goes on. */
static Elf *
begun_member (Elf *archive, Elf_Cmd cmd)
{
  struct elfkit_member *m = current_member (archive);
  Elf *elf = m == NULL ? NULL : new_zeros (sizeof *elf);
  if (elf == NULL)
    return NULL;
  *elf = (Elf) { .map = archive->map, .parent = archive, .next = archive->archive->open,
                 .cmd = cmd, .fd = archive->fd, .start = archive->start + (int64_t) m->body,
                 .size = m->header.ar_size, .refs = 1, .shown = archive->shown + m->body,
                 .lent = archive->lent + m->body, .member = m,
                 .memory = archive->memory == BORROWED ? BORROWED : INSIDE };
  archive->archive->open = elf;
  if (begin_kind (elf))
    return elf;
  if (elf_errno () == E_NOMEM)
    {
      elf_end (elf);
      return null_with (E_NOMEM);
    }
  free (elf->ehdr);
  elf->ehdr = NULL;
  elf->kind = ELF_K_NONE;
  elf->class = ELFCLASSNONE;
  elf->order = ELFDATANONE;
  return elf;
}

/* A descriptor that makes an image anew, over nothing. */
static Elf *
begun_bare (int fd, Elf_Cmd cmd)
{
  Elf *elf = new_zeros (sizeof *elf);
  if (elf != NULL)
    *elf = (Elf) { .kind = ELF_K_ELF, .cmd = cmd, .fd = fd, .refs = 1, .memory = NOTHING,
                   .order = NATIVE_ORDER, .flags = ELF_F_DIRTY, .is_bare = true };
  return elf;
}

/* A descriptor over a file. */
static Elf *
begun_file (int fd, Elf_Cmd cmd)
{
  Elf *elf = new_zeros (sizeof *elf);
  if (elf == NULL)
    return NULL;
  elf->cmd = cmd;
  elf->fd = fd;
  if (take_file (elf, fd))
    return begun (elf);
  free (elf);
  return NULL;
}

/* A descriptor once more, or the member that it stands at. */
static Elf *
begun_again (int fd, Elf_Cmd cmd, Elf *ref)
{
  if (fd != -1 && ref->fd != -1 && fd != ref->fd)
    return null_with (E_FD_MISMATCH);
  if (ref->kind == ELF_K_AR)
    return begun_member (ref, cmd);
  ref->refs++;
  return ref;
}

/* Whether a command opens what is there, once more or for the first time: to be written only what
   was opened so, and privately the same. */
static bool
opens (Elf_Cmd cmd, const Elf *ref)
{
  switch (cmd)
    {
    case ELF_C_READ:
    case ELF_C_READ_MMAP:
      return true;
    case ELF_C_READ_MMAP_PRIVATE:
      return ref == NULL || ref->cmd == cmd;
    case ELF_C_RDWR:
    case ELF_C_RDWR_MMAP:
      return ref == NULL || is_writing (ref->cmd);
    default:
      return false;
    }
}

/* elf_begin: a descriptor over a file, once more over a descriptor, over the member that an archive
   stands at, or over nothing, for an image that is made anew. The image is read through mappings;
   what is no image and no archive has the kind ELF_K_NONE. */
PUBLIC Elf *
elf_begin (int fd, Elf_Cmd cmd, Elf *ref)
{
  if (!version_is_set)
    return null_with (E_NO_VERSION);
  if (opens (cmd, ref))
    return ref == NULL ? begun_file (fd, cmd) : begun_again (fd, cmd, ref);
  if (ref == NULL && fcntl (fd, F_GETFD) == -1)
    return null_with (E_INVALID_FILE);
  if (cmd == ELF_C_WRITE || cmd == ELF_C_WRITE_MMAP)
    return begun_bare (fd, cmd);
  return cmd == ELF_C_NULL ? NULL : null_with (E_INVALID_CMD);
}

/* elf_memory: a descriptor over an image in memory, which stays the program's. The core reads it
   where it lies, so the program must not write it until elf_end. What gelf_update_sym and its like
   store goes into a copy of the section's data, and the data of a relocatable image is a copy from
   the first, since libdwfl relocates in it. */
PUBLIC Elf *
elf_memory (char *image, size_t size)
{
  if (image == NULL)
    return null_with (E_INVALID_OPERAND);
  Elf *elf = new_zeros (sizeof *elf);
  if (elf == NULL)
    return NULL;
  elf->cmd = ELF_C_READ;
  elf->fd = -1;
  elf->lent = elf->map = elf->shown = (uint8_t *) image;
  elf->size = size;
  elf->memory = BORROWED;
  return begun (elf);
}

/* elf_clone: a descriptor that makes an image anew, for the file of another one and of its class. A
   write of that file leaves what the other one has of it. */
PUBLIC Elf *
elf_clone (Elf *elf, Elf_Cmd cmd)
{
  if (elf == NULL || cmd != ELF_C_EMPTY)
    return NULL;
  if (changes_file (elf->cmd) && !own_image (elf))
    return NULL;
  Elf *clone = begun_bare (elf->fd, elf->cmd);
  if (clone != NULL)
    clone->class = elf->class;
  return clone;
}

/* Takes a member out of the open ones of its archive. */
static void
leave_archive (Elf *elf)
{
  Elf **place = &elf->parent->archive->open;
  while (*place != NULL && *place != elf)
    place = &(*place)->next;
  if (*place == elf)
    *place = elf->next;
}

/* Frees what there is of the sections. */
static void
free_sections (Elf *elf)
{
  bool has_parts = elf->sections != NULL && elf->has_parts;
  for (size_t i = has_parts ? 0 : elf->opened; i < elf->shnum; i++)
    {
      Elf_Scn *scn = section_at (elf, i);
      free_pieces (scn);
      free (scn->raw);
      free (scn->shdr);
      if (i >= elf->opened)
        free (scn);
    }
  free (elf->added.at);
  free_array (elf);
}

/* elf_end: lets one reference go, and with the last one everything. An archive stays until its
   members are ended too. */
PUBLIC int
elf_end (Elf *elf)
{
  if (elf == NULL)
    return 0;
  if (elf->refs > 0 && --elf->refs > 0)
    return elf->refs;
  if (elf->archive != NULL && elf->archive->open != NULL)
    return 0;
  Elf *parent = elf->parent;
  if (parent != NULL)
    leave_archive (elf);
  if (elf->archive != NULL)
    end_archive (elf->archive);
  end_object (&elf->handle);
  free_sections (elf);
  free_chunks (elf);
  free (elf->phdr);
  free (elf->ehdr);
  let_go (elf);
  free (elf);
  return parent != NULL && parent->refs == 0 ? elf_end (parent) : 0;
}

/* elf_cntl: the file is not read after elf_begin, so both commands let its descriptor go. */
PUBLIC int
elf_cntl (Elf *elf, Elf_Cmd cmd)
{
  if (elf == NULL)
    return -1;
  if (elf->fd == -1)
    return negative_with (E_INVALID_HANDLE);
  if (cmd != ELF_C_FDDONE && cmd != ELF_C_FDREAD)
    return negative_with (E_INVALID_CMD);
  elf->fd = -1;
  return 0;
}

/* elf_kind: what the descriptor is over. */
PUBLIC Elf_Kind elf_kind (Elf *elf) { return elf == NULL ? ELF_K_NONE : elf->kind; }

/* elf_getbase: where it begins in the file. */
PUBLIC int64_t elf_getbase (Elf *elf) { return elf == NULL ? -1 : elf->start; }

/* elf_getident: the identification. */
PUBLIC char *
elf_getident (Elf *elf, size_t *size)
{
  bool has_ident = elf != NULL && elf->kind == ELF_K_ELF && elf->ehdr != NULL;
  if (size != NULL)
    *size = has_ident ? EI_NIDENT : 0;
  return has_ident ? (char *) ((Elf64_Ehdr *) elf->ehdr)->e_ident : NULL;
}

/* elf_rawfile: the image as programs see it. */
PUBLIC char *
elf_rawfile (Elf *elf, size_t *size)
{
  bool has_bytes = elf != NULL && is_apart (elf);
  if (size != NULL)
    *size = has_bytes ? elf->size : 0;
  if (elf == NULL)
    return null_with (E_INVALID_HANDLE);
  return has_bytes ? (char *) elf->shown : NULL;
}
