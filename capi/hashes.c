/* hashes.c: elf_hash, elf_gnu_hash, both the core's. */
#include "object.h"

PUBLIC unsigned long int elf_hash (const char *name)
{ return elfkit_hash ((const uint8_t *) name, strlen (name)); }
PUBLIC unsigned long int elf_gnu_hash (const char *name)
{ return elfkit_gnu_hash ((const uint8_t *) name, strlen (name)); }
