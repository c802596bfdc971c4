/* errors.c: elf_version, elf_errno, elf_errmsg. The number of the last error is this thread's own;
   nothing of it is the core's, whose calls answer by numbers of their own. */
#include "object.h"

static __thread int last_error;

_Atomic bool version_is_set;

#define TEXT(name, text) text,
static const char *const texts[E_COUNT] = { ERRORS (TEXT) };

/* The refusals of the core, by their numbers (crates/c_records, Codes.antt). */
static const uint8_t errors[] = {
  [0] = E_NONE,
  [1] = E_NOMEM,                /* Memory */
  [2] = E_READ_ERROR,           /* Read */
  [3] = E_WRITE_ERROR,          /* Write */
  [4] = E_INVALID_ELF,          /* Short */
  [5] = E_INVALID_ELF,          /* Magic */
  [6] = E_INVALID_ELF,          /* Class */
  [7] = E_INVALID_ELF,          /* Order */
  [8] = E_INVALID_ELF,          /* Version */
  [9] = E_INVALID_ELF,          /* PhTable */
  [10] = E_INVALID_ELF,         /* ShTable */
  [11] = E_INVALID_INDEX,       /* NoSection */
  [12] = E_INVALID_INDEX,       /* NoData */
  [13] = E_INVALID_INDEX,       /* NoEntry */
  [14] = E_INVALID_DATA,        /* WrongKind */
  [15] = E_INVALID_SECTION_HEADER,      /* OutOfFile */
  [16] = E_INVALID_DATA,        /* Ragged */
  [17] = E_INVALID_DATA,        /* Unfit */
  [18] = E_INVALID_DATA,        /* Overlap */
  [19] = E_INVALID_ELF,         /* TooLarge */
  [20] = E_INVALID_ELF,         /* TooMany */
  [21] = E_INVALID_OP,          /* FlagKept */
  [22] = E_INVALID_SECTION,     /* NotStrings */
  [23] = E_OFFSET_RANGE,        /* NoString */
  [24] = E_INVALID_INDEX,       /* Unended */
  [25] = E_INVALID_ARCHIVE,     /* BadMember */
  [26] = E_OFFSET_RANGE,        /* BadChain */
  [27] = E_NOT_NUL_SECTION,     /* Reserved */
  [28] = E_INVALID_DATA,        /* BadAlign */
  [29] = E_INVALID_DATA,        /* Unsorted */
};

void
set_error (int error)
{
  last_error = error;
}

int
error_of (uint32_t number)
{
  return number < sizeof errors ? errors[number] : E_UNKNOWN;
}

/* elf_version: notes that a program knows the version. EV_NONE asks for the library's. */
PUBLIC unsigned int
elf_version (unsigned int version)
{
  if (version == EV_CURRENT)
    version_is_set = true;
  else if (version != EV_NONE)
    return false_with (E_UNKNOWN_VERSION);
  return EV_CURRENT;
}

/* elf_errno: the last error of this thread, which is forgotten. */
PUBLIC int
elf_errno (void)
{
  int error = last_error;
  last_error = E_NONE;
  return error;
}

/* elf_errmsg: the text of an error, of the last one for -1, and of the last one or NULL for 0. */
PUBLIC const char *
elf_errmsg (int error)
{
  if (error == 0 && last_error == E_NONE)
    return NULL;
  if (error == 0 || error == -1)
    error = last_error;
  return texts[error >= 0 && error < E_COUNT ? error : E_UNKNOWN];
}
