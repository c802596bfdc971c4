/* errors.h: the numbers of errors, what a call that fails gives, and memory, which a call may fail
   for. */
#ifndef ELFKIT_ERRORS_H
#define ELFKIT_ERRORS_H 1

#include <stdbool.h>
#include <stddef.h>
#include <stdint.h>
#include <stdlib.h>
#include <string.h>

#include "core.h"

/* The errors by their numbers, which are those of elfutils 0.188, since eu-readelf compares one,
   and their texts. The last one is of this library alone. */
#define ERRORS(E) \
  E (E_NONE, "no error") \
  E (E_UNKNOWN, "unknown error") \
  E (E_UNKNOWN_VERSION, "unknown version") \
  E (E_UNKNOWN_TYPE, "unknown type") \
  E (E_INVALID_HANDLE, "invalid `Elf' handle") \
  E (E_SOURCE_SIZE, "invalid size of source operand") \
  E (E_DEST_SIZE, "invalid size of destination operand") \
  E (E_INVALID_ENCODING, "invalid encoding") \
  E (E_NOMEM, "out of memory") \
  E (E_INVALID_FILE, "invalid file descriptor") \
  E (E_INVALID_ELF, "invalid ELF file data") \
  E (E_INVALID_OP, "invalid operation") \
  E (E_NO_VERSION, "ELF version not set") \
  E (E_INVALID_CMD, "invalid command") \
  E (E_RANGE, "offset out of range") \
  E (E_ARCHIVE_FMAG, "invalid fmag field in archive header") \
  E (E_INVALID_ARCHIVE, "invalid archive file") \
  E (E_NO_ARCHIVE, "descriptor is not for an archive") \
  E (E_NO_INDEX, "no index available") \
  E (E_READ_ERROR, "cannot read data from file") \
  E (E_WRITE_ERROR, "cannot write data to file") \
  E (E_INVALID_CLASS, "invalid binary class") \
  E (E_INVALID_INDEX, "invalid section index") \
  E (E_INVALID_OPERAND, "invalid operand") \
  E (E_INVALID_SECTION, "invalid section") \
  E (E_INVALID_COMMAND, "invalid command") \
  E (E_WRONG_ORDER_EHDR, "executable header not created first") \
  E (E_FD_DISABLED, "file descriptor disabled") \
  E (E_FD_MISMATCH, "archive/member file descriptor mismatch") \
  E (E_OFFSET_RANGE, "offset out of range") \
  E (E_NOT_NUL_SECTION, "cannot manipulate null section") \
  E (E_DATA_MISMATCH, "data/scn mismatch") \
  E (E_INVALID_SECTION_HEADER, "invalid section header") \
  E (E_INVALID_DATA, "invalid data") \
  E (E_DATA_ENCODING, "unknown data encoding") \
  E (E_SECTION_TOO_SMALL, "section `sh_size' too small for data") \
  E (E_INVALID_ALIGN, "invalid section alignment") \
  E (E_INVALID_SHENTSIZE, "invalid section entry size") \
  E (E_UPDATE_RO, "update() for write on read-only file") \
  E (E_NO_FILE, "no such file") \
  E (E_GROUP_NOT_REL, "only relocatable files can contain section groups") \
  E (E_INVALID_PHDR, "program header only allowed in executables, shared objects, and core files") \
  E (E_NO_PHDR, "file has no program header") \
  E (E_INVALID_OFFSET, "invalid offset") \
  E (E_INVALID_SECTION_TYPE, "invalid section type") \
  E (E_INVALID_SECTION_FLAGS, "invalid section flags") \
  E (E_NOT_COMPRESSED, "section does not contain compressed data") \
  E (E_ALREADY_COMPRESSED, "section contains compressed data") \
  E (E_UNKNOWN_COMPRESSION_TYPE, "unknown compression type") \
  E (E_COMPRESS_ERROR, "cannot compress data") \
  E (E_DECOMPRESS_ERROR, "cannot decompress data") \
  E (E_UNSUPPORTED, "not supported by this library")

#define NAME(name, text) name,
enum { ERRORS (NAME) E_COUNT };
#undef NAME

/* Sets the error number of this thread. */
void set_error (int error);

/* The same, and what a call that fails gives. */
static inline void *
null_with (int error)
{
  set_error (error);
  return NULL;
}

static inline bool
false_with (int error)
{
  set_error (error);
  return false;
}

static inline int
negative_with (int error)
{
  set_error (error);
  return -1;
}

/* The error number that stands for a refusal of the core, 0 for none. */
int error_of (uint32_t number);

/* Whether a call of the core gave a value; an error where it did not. */
static inline bool
is_given (uint32_t number)
{
  return number == REFUSED_NOT || false_with (error_of (number));
}

/* Memory of a size, of zeros, and with a copy of bytes; NULL and an error where there is none. */
static inline void *
new_bytes (size_t size)
{
  void *made = malloc (size == 0 ? 1 : size);
  return made != NULL ? made : null_with (E_NOMEM);
}

static inline void *
new_zeros (size_t size)
{
  void *made = calloc (1, size);
  return made != NULL ? made : null_with (E_NOMEM);
}

static inline void *
new_copy (const void *from, size_t size)
{
  void *made = new_bytes (size);
  return made == NULL || size == 0 ? made : memcpy (made, from, size);
}

#endif /* errors.h */
