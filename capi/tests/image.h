/* image.h: a small image that the tests make, in both classes and both orders: a string table of
   names, a symbol table of three symbols, its strings, a note, and a relocation with an addend. */
#ifndef IMAGE_H
#define IMAGE_H 1

#include <elf.h>
#include <stdint.h>
#include <string.h>

enum { IMAGE_SECTIONS = 6, NAMES = 1, SYMBOLS = 2, STRINGS = 3, NOTES = 4, RELOCATIONS = 5 };

struct image
{
  int is64, msb;
  size_t size;
  uint8_t bytes[2048];
};

static inline void
put (struct image *m, size_t at, unsigned int width, uint64_t value)
{
  for (unsigned int i = 0; i < width; i++)
    m->bytes[at + (m->msb ? width - 1 - i : i)] = value >> (8 * i);
}

static inline void
put_section (struct image *m, size_t table, unsigned int index, const uint64_t fields[10])
{
  static const unsigned int widths[2][10] = { { 4, 4, 4, 4, 4, 4, 4, 4, 4, 4 },
                                              { 4, 4, 8, 8, 8, 8, 4, 4, 8, 8 } };
  size_t at = table + index * (m->is64 ? 64 : 40);
  for (int i = 0; i < 10; i++)
    {
      put (m, at, widths[m->is64][i], fields[i]);
      at += widths[m->is64][i];
    }
}

static inline void
put_symbol (struct image *m, size_t at, uint32_t name, uint8_t info, uint16_t shndx,
            uint64_t value, uint64_t size)
{
  put (m, at, 4, name);
  if (m->is64)
    {
      m->bytes[at + 4] = info;
      put (m, at + 6, 2, shndx);
      put (m, at + 8, 8, value);
      put (m, at + 16, 8, size);
    }
  else
    {
      put (m, at + 4, 4, value);
      put (m, at + 8, 4, size);
      m->bytes[at + 12] = info;
      put (m, at + 14, 2, shndx);
    }
}

/* Makes the image of a class and an order. */
static inline void
make_image (struct image *m, int is64, int msb)
{
  static const char names[] = "\0.shstrtab\0.symtab\0.strtab\0.note\0.rela";
  static const char strings[] = "\0first\0second";
  size_t header = is64 ? 64 : 52, symbol = is64 ? 24 : 16, rela = is64 ? 24 : 12;
  size_t names_at = header, strings_at = names_at + 64, symbols_at = strings_at + 16;
  size_t notes_at = symbols_at + 3 * symbol, rela_at = notes_at + 24, table = rela_at + rela;
  memset (m, 0, sizeof *m);
  m->is64 = is64;
  m->msb = msb;
  memcpy (m->bytes, ELFMAG, SELFMAG);
  m->bytes[EI_CLASS] = is64 ? ELFCLASS64 : ELFCLASS32;
  m->bytes[EI_DATA] = msb ? ELFDATA2MSB : ELFDATA2LSB;
  m->bytes[EI_VERSION] = EV_CURRENT;
  put (m, 16, 2, ET_REL);
  put (m, 18, 2, is64 ? EM_X86_64 : EM_386);
  put (m, 20, 4, EV_CURRENT);
  put (m, is64 ? 40 : 32, is64 ? 8 : 4, table);
  size_t tail = is64 ? 52 : 40;
  put (m, tail, 2, header);
  put (m, tail + 6, 2, is64 ? 64 : 40);
  put (m, tail + 8, 2, IMAGE_SECTIONS);
  put (m, tail + 10, 2, NAMES);
  memcpy (m->bytes + names_at, names, sizeof names);
  memcpy (m->bytes + strings_at, strings, sizeof strings);
  put_symbol (m, symbols_at + symbol, 1, ELF64_ST_INFO (STB_GLOBAL, STT_OBJECT), SHN_ABS, 0x1234,
              8);
  put_symbol (m, symbols_at + 2 * symbol, 7, ELF64_ST_INFO (STB_WEAK, STT_FUNC), SHN_UNDEF, 0, 0);
  put (m, notes_at, 4, 4);
  put (m, notes_at + 4, 4, 4);
  put (m, notes_at + 8, 4, 77);
  memcpy (m->bytes + notes_at + 12, "abc", 4);
  put (m, notes_at + 16, 4, 0x11223344);
  put (m, rela_at, is64 ? 8 : 4, 0x20);
  put (m, rela_at + (is64 ? 8 : 4), is64 ? 8 : 4,
       is64 ? ELF64_R_INFO (2ul, 9) : ELF32_R_INFO (2, 9));
  put (m, rela_at + (is64 ? 16 : 8), is64 ? 8 : 4, (uint64_t) -5);
  put_section (m, table, NAMES, (const uint64_t[10]) { 1, SHT_STRTAB, 0, 0, names_at, sizeof names,
                                                       0, 0, 1, 0 });
  put_section (m, table, SYMBOLS, (const uint64_t[10]) { 11, SHT_SYMTAB, 0, 0, symbols_at,
                                                         3 * symbol, STRINGS, 1, 4, symbol });
  put_section (m, table, STRINGS, (const uint64_t[10]) { 19, SHT_STRTAB, 0, 0, strings_at,
                                                         sizeof strings, 0, 0, 1, 0 });
  put_section (m, table, NOTES, (const uint64_t[10]) { 27, SHT_NOTE, 0, 0, notes_at, 20, 0, 0, 4,
                                                       0 });
  put_section (m, table, RELOCATIONS, (const uint64_t[10]) { 33, SHT_RELA, 0, 0, rela_at, rela,
                                                             SYMBOLS, NAMES, 4, rela });
  m->size = table + IMAGE_SECTIONS * (is64 ? 64 : 40);
}

#endif /* image.h */
