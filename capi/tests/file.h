/* file.h: files in memory, and numbers by chance, the same ones in each run. A test that includes
   it defines _GNU_SOURCE. */
#ifndef FILE_H
#define FILE_H 1

#include <stdint.h>
#include <stdio.h>
#include <stdlib.h>
#include <sys/mman.h>
#include <unistd.h>

/* A file with these bytes. */
static inline int
file_of (const void *bytes, size_t size)
{
  int fd = memfd_create ("image", 0);
  if (fd < 0 || write (fd, bytes, size) != (ssize_t) size)
    exit (2);
  return fd;
}

/* The same, and its name. */
static inline int
named_file_of (const void *bytes, size_t size, char name[64])
{
  int fd = file_of (bytes, size);
  snprintf (name, 64, "/proc/self/fd/%d", fd);
  return fd;
}

/* A number below another one. */
static inline uint32_t
random_below (uint32_t n)
{
  static uint32_t state = 1;
  state = state * 1664525 + 1013904223;
  return (state >> 8) % n;
}

#endif /* file.h */
