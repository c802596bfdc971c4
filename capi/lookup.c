/* lookup.c: what a program names of data: an item by its index, a record by its place. */
#include "object.h"

/* The layer's part of data of a type; NULL and an error where it has another one. */
static struct elfkit_data *
typed (Elf_Data *data, Elf_Type type)
{
  if (data == NULL)
    return NULL;
  struct elfkit_data *d = data_of (data);
  return data->d_type == type && d->elf != NULL ? d : null_with (E_INVALID_HANDLE);
}

struct elfkit_data *
no_item (Elf_Data *data, Elf_Type type)
{
  return typed (data, type) == NULL ? NULL : null_with (E_INVALID_INDEX);
}

struct elfkit_data *
record_of (Elf_Data *data, Elf_Type type, int offset, size_t size)
{
  struct elfkit_data *d = typed (data, type);
  if (d == NULL
      || (offset >= 0 && data->d_buf != NULL && lies_in (offset, size, data->d_size)))
    return d;
  return null_with (E_OFFSET_RANGE);
}
