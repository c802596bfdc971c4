/* seeds.c: writes the inputs that the fuzzer begins with into a folder: the images and the archive
   of the tests, opened in each way, with a sequence of calls by chance.

   usage: seeds FOLDER */
#define _GNU_SOURCE
#include "../tests/archive.h"
#include "../tests/file.h"

enum { MODES = 9, IMAGES = 4, CALLS = 120 };

static void
put_input (const char *folder, int mode, int kind, const void *image, size_t size)
{
  char name[4096];
  unsigned char sequence[2 + CALLS] = { mode, CALLS };
  for (int i = 0; i < CALLS; i++)
    sequence[2 + i] = random_below (256);
  snprintf (name, sizeof name, "%s/%d-%d", folder, mode, kind);
  FILE *file = fopen (name, "wb");
  if (file == NULL || fwrite (sequence, 1, sizeof sequence, file) != sizeof sequence
      || fwrite (image, 1, size, file) != size || fclose (file) != 0)
    exit (1);
}

int
main (int argc, char **argv)
{
  struct image m;
  struct archive a;
  if (argc != 2)
    return 2;
  make_archive (&a);
  for (int mode = 0; mode < MODES; mode++)
    {
      for (int kind = 0; kind < IMAGES; kind++)
        {
          make_image (&m, kind & 1, kind >> 1);
          put_input (argv[1], mode, kind, m.bytes, m.size);
        }
      put_input (argv[1], mode, IMAGES, a.bytes, a.size);
    }
  return 0;
}
