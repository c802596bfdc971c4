/* The least that a command does: bare loops that write the same bytes as elfkit and do no more.
 *
 * usage: limits JOB FILE
 *
 * The jobs are those of strings -a, readelf -s, -r and -S, and nm: `strings`, `symbols`,
 * `relocations` (with addends), `sections`, `nm`. Each takes an image of class 64 with the least
 * byte first that has no mistakes and no extended numbers, `strings` any file; else it ends with
 * status 1. A table is read by one pread, as elfkit reads it, and what `strings` reads goes through
 * a buffer of 64 KiB. No row takes memory, and what is written waits in a buffer of 64 KiB.
 */
#include <elf.h>
#include <emmintrin.h>
#include <fcntl.h>
#include <stdint.h>
#include <stdlib.h>
#include <string.h>
#include <sys/stat.h>
#include <unistd.h>

#define PIECE 65536
#define ROW 1024 /* is more than a row has but for its names */
#define PAD 64   /* as many bytes more may be read or written */

static int file;
static uint64_t file_size;
static char page[PIECE + ROW + PAD];

static void need(int holds) {
    if (!holds)
        _exit(1);
}

/* ---- What is read */

static void fetch(void *into, uint64_t length, uint64_t at) {
    need(pread(file, into, length, at) == (ssize_t)length);
}

/* A range of the file in memory of its own, with zeros behind it. */
static void *held(uint64_t at, uint64_t length) {
    char *bytes = malloc(length + PAD);
    need(bytes != NULL);
    fetch(bytes, length, at);
    return memset(bytes + length, 0, PAD) - length;
}

struct image {
    Elf64_Ehdr header;
    Elf64_Shdr *sections;
};

static struct image image_of(void) {
    struct image o;
    fetch(&o.header, sizeof o.header, 0);
    need(!memcmp(o.header.e_ident, "\177ELF\2\1\1", 7) && o.header.e_shnum);
    need(o.header.e_shentsize == sizeof(Elf64_Shdr));
    o.sections = held(o.header.e_shoff, o.header.e_shnum * sizeof(Elf64_Shdr));
    return o;
}

/* Strings up to the last NUL; behind them the word for a name that cannot be read. */
struct strings {
    char *bytes;
    uint64_t ended, none;
};

static struct strings strings_of(const struct image *o, uint64_t s) {
    need(s < o->header.e_shnum && o->sections[s].sh_type == SHT_STRTAB);
    uint64_t length = o->sections[s].sh_size;
    struct strings t = {held(o->sections[s].sh_offset, length), length, length + 1};
    memcpy(t.bytes + t.none, "<none>", 6);
    while (t.ended && t.bytes[t.ended - 1])
        t.ended--;
    return t;
}

/* ---- What is written */

static char *flush(char *end) {
    for (ssize_t done, at = 0; at < end - page; at += done)
        need((done = write(1, page + at, end - page - at)) > 0);
    return page;
}

static inline char *turn(char *p) {
    return __builtin_expect(p - page < PIECE, 1) ? p : flush(p);
}

#define TEXT(p, s) ((char *)memcpy(p, s, sizeof s - 1) + (sizeof s - 1))

static inline char *put_bytes(char *p, const char *from, uint64_t length) {
    for (; length > 16; length -= 16, from += 16, p = turn(p + 16))
        memcpy(p, from, 16);
    memcpy(p, from, 16);
    return p + length;
}

/* A string up to its NUL, which is there. */
static inline char *put_string(char *p, const char *from) {
    for (;; from += 16, p = turn(p + 16)) {
        __m128i bytes = _mm_loadu_si128((const __m128i *)from);
        int ends = _mm_movemask_epi8(_mm_cmpeq_epi8(bytes, _mm_setzero_si128()));
        _mm_storeu_si128((__m128i *)p, bytes);
        if (ends)
            return p + __builtin_ctz(ends);
    }
}

static char pairs[200];
static uint64_t tens[20];

static void make_tables(void) {
    for (int i = 0; i < 200; i++)
        pairs[i] = '0' + (i % 2 ? i / 2 % 10 : i / 20);
    for (uint64_t i = 1, ten = 10; i < 20; i++, ten *= 10)
        tens[i] = ten;
}

static inline char *put_decimal(char *p, uint64_t n) {
    int count = (64 - __builtin_clzll(n | 1)) * 1233 >> 12;
    count += n >= tens[count];
    char *at = p + count;
    for (; n >= 100; n /= 100)
        memcpy(at -= 2, pairs + 2 * (n % 100), 2);
    if (n >= 10)
        memcpy(at - 2, pairs + 2 * n, 2);
    else
        at[-1] = '0' + n;
    return p + count;
}

/* Sixteen hexadecimal digits. */
static inline void write_hex(char *p, uint64_t n) {
    __m128i bytes = _mm_cvtsi64_si128(__builtin_bswap64(n)), low = _mm_set1_epi8(15);
    __m128i high = _mm_and_si128(_mm_srli_epi16(bytes, 4), low);
    __m128i digits = _mm_unpacklo_epi8(high, _mm_and_si128(bytes, low));
    __m128i letters = _mm_cmpgt_epi8(digits, _mm_set1_epi8(9));
    letters = _mm_and_si128(letters, _mm_set1_epi8('a' - '0' - 10));
    digits = _mm_add_epi8(_mm_add_epi8(digits, _mm_set1_epi8('0')), letters);
    _mm_storeu_si128((__m128i *)p, digits);
}

static inline char *put_hex(char *p, uint64_t n) {
    int count = (67 - __builtin_clzll(n | 1)) / 4;
    write_hex(p, n << (64 - 4 * count));
    return p + count;
}

static char *put_name_or_hex(char *p, const char *name, uint64_t n) {
    return name ? put_string(p, name) : put_hex(TEXT(p, "0x"), n);
}

static inline char *put_bracketed(char *p, const struct strings *names, uint64_t at) {
    if (at >= names->ended)
        return TEXT(p, "<none>");
    return TEXT(put_string(TEXT(p, "["), names->bytes + at), "]");
}

static char *put_title(char *p, const char *title, const struct image *o, uint64_t s, uint64_t n) {
    struct strings names = strings_of(o, o->header.e_shstrndx);
    p = TEXT(put_decimal(put_string(p, title), s), " ");
    p = TEXT(put_bracketed(p, &names, o->sections[s].sh_name), ": ");
    return TEXT(put_decimal(p, n), "\n");
}

/* ---- strings -a */

/* The run that is open: where it begins, and whether some of it was written. */
struct run {
    const char *begin;
    int written;
};

static inline char *put_line(char *p, const char *from, uint64_t length) {
    p = put_bytes(p, from, length);
    *p = '\n';
    return turn(p + 1);
}

static inline char *end_run(char *p, struct run *run, const char *end) {
    if (end - run->begin >= 4 || run->written)
        p = put_line(p, run->begin, end - run->begin);
    *run = (struct run){NULL, 0};
    return p;
}

/* A bit for each printable one of sixteen bytes. */
static inline uint64_t printable(const char *at) {
    __m128i bytes = _mm_loadu_si128((const __m128i *)at);
    __m128i moved = _mm_sub_epi8(bytes, _mm_set1_epi8(' '));
    __m128i shown = _mm_cmpeq_epi8(_mm_min_epu8(moved, _mm_set1_epi8(0x5e)), moved);
    return _mm_movemask_epi8(_mm_or_si128(shown, _mm_cmpeq_epi8(bytes, _mm_set1_epi8('\t'))));
}

/* The runs of 64 bytes: the one that is open, those within, and the one that they leave open. */
static inline char *put_runs(char *p, struct run *run, const char *at) {
    uint64_t mask = printable(at) | printable(at + 16) << 16 | printable(at + 32) << 32
                    | printable(at + 48) << 48;
    if (mask == ~0ULL) {
        run->begin = run->begin ? run->begin : at;
        return p;
    }
    if (run->begin) {
        int front = __builtin_ctzll(~mask);
        p = end_run(p, run, at + front);
        mask = mask >> front << front;
    }
    int last = __builtin_clzll(~mask);
    uint64_t within = mask << last >> last, starts = within & within >> 1;
    for (starts &= starts >> 2; starts;) {
        int from = __builtin_ctzll(starts), length = __builtin_ctzll(~(within >> from));
        p = put_line(p, at + from, length);
        starts &= ~0ULL << from << length;
    }
    if (last)
        run->begin = at + 64 - last;
    return p;
}

static char *show_strings(char *p) {
    static char buffer[PAD + PIECE + PAD];
    char *piece = buffer + PAD;
    struct run run = {NULL, 0};
    for (uint64_t at = 0; at < file_size; at += PIECE) {
        uint64_t length = file_size - at < PIECE ? file_size - at : PIECE;
        fetch(piece, length, at);
        memset(piece + length, 0, PAD);
        for (uint64_t i = 0; i < length; i += 64)
            p = put_runs(p, &run, piece + i);
        uint64_t open = run.begin ? piece + length - run.begin : 0;
        if (open >= 4 || run.written) {
            p = put_bytes(p, run.begin, open);
            run = (struct run){piece, 1};
        } else if (open) {
            run.begin = memmove(piece - open, run.begin, open);
        }
    }
    return run.written ? end_run(p, &run, run.begin) : p;
}

/* ---- readelf -s */

/* A word by its number, if it has one. */
#define NAMED(names, n) ((n) < sizeof names / sizeof *names ? names[n] : NULL)

static const char *kinds[] = {"NOTYPE", "OBJECT", "FUNC", "SECTION", "FILE", "COMMON", "TLS",
                              [10] = "GNU_IFUNC"};
static const char *bindings[] = {"LOCAL", "GLOBAL", "WEAK", [10] = "GNU_UNIQUE"};
static const char *visibilities[] = {"DEFAULT", "INTERNAL", "HIDDEN", "PROTECTED"};

/* ` type T bind B vis V shndx `, made once for each kind of symbol, after its length. */
static inline char *put_words(char *p, const Elf64_Sym *x) {
    static char words[1024][96];
    unsigned kind = x->st_info % 16, bound = x->st_info / 16, seen = x->st_other % 4;
    char *text = words[x->st_info * 4 + seen];
    if (!*text) {
        char *end = put_name_or_hex(TEXT(text + 1, " type "), NAMED(kinds, kind), kind);
        end = put_name_or_hex(TEXT(end, " bind "), NAMED(bindings, bound), bound);
        end = put_name_or_hex(TEXT(end, " vis "), visibilities[seen], seen);
        *text = TEXT(end, " shndx ") - text - 1;
    }
    memcpy(p, text + 1, sizeof *words - 1);
    return p + *text;
}

static inline char *put_place(char *p, unsigned place) {
    if (place == SHN_UNDEF)
        return TEXT(p, "UND");
    if (place < SHN_LORESERVE)
        return put_decimal(p, place);
    if (place == SHN_ABS || place == SHN_COMMON)
        return place == SHN_ABS ? TEXT(p, "ABS") : TEXT(p, "COM");
    return place == SHN_XINDEX ? TEXT(p, "XINDEX") : put_hex(TEXT(p, "0x"), place);
}

static char *show_table(char *p, const struct image *o, uint64_t s) {
    struct strings names = strings_of(o, o->sections[s].sh_link);
    uint64_t count = o->sections[s].sh_size / sizeof(Elf64_Sym);
    const Elf64_Sym *x = held(o->sections[s].sh_offset, count * sizeof *x);
    p = put_title(p, "Symbols of section ", o, s, count);
    for (uint64_t i = 0; i < count; i++, x++) {
        p = TEXT(put_decimal(TEXT(p, "  "), i), " value 0x");
        p = TEXT(put_hex(p, x->st_value), " size ");
        p = put_words(put_decimal(p, x->st_size), x);
        p = TEXT(put_place(p, x->st_shndx), " ");
        p = turn(TEXT(put_bracketed(p, &names, x->st_name), "\n"));
    }
    return p;
}

static char *show_symbols(char *p) {
    struct image o = image_of();
    for (uint64_t s = 0; s < o.header.e_shnum; s++)
        if (o.sections[s].sh_type == SHT_SYMTAB || o.sections[s].sh_type == SHT_DYNSYM)
            p = show_table(p, &o, s);
    return p;
}

/* ---- readelf -r */

static char *show_addends(char *p, const struct image *o, uint64_t s) {
    need(o->sections[s].sh_link < o->header.e_shnum);
    const Elf64_Shdr *table = o->sections + o->sections[s].sh_link;
    struct strings names = strings_of(o, table->sh_link);
    uint64_t count = o->sections[s].sh_size / sizeof(Elf64_Rela);
    uint64_t most = table->sh_size / sizeof(Elf64_Sym);
    const Elf64_Rela *x = held(o->sections[s].sh_offset, count * sizeof *x);
    const Elf64_Sym *symbols = held(table->sh_offset, most * sizeof *symbols);
    p = put_title(p, "Relocations of section ", o, s, count);
    for (uint64_t i = 0; i < count; i++, x++) {
        uint64_t y = ELF64_R_SYM(x->r_info);
        p = TEXT(put_decimal(TEXT(p, "  "), i), " offset 0x");
        p = TEXT(put_hex(p, x->r_offset), " type ");
        p = TEXT(put_decimal(p, ELF64_R_TYPE(x->r_info)), " sym ");
        p = TEXT(put_decimal(p, y), " ");
        p = TEXT(put_bracketed(p, &names, y < most ? symbols[y].st_name : names.ended), " addend ");
        *p = '-';
        p = put_decimal(p + (x->r_addend < 0), llabs(x->r_addend));
        p = turn(TEXT(p, "\n"));
    }
    return p;
}

static char *show_relocations(char *p) {
    struct image o = image_of();
    for (uint64_t s = 0; s < o.header.e_shnum; s++)
        p = o.sections[s].sh_type == SHT_RELA ? show_addends(p, &o, s) : p;
    return p;
}

/* ---- readelf -S */

static const char *type_name(uint32_t n) {
    static const char *types[] = {
        "NULL", "PROGBITS", "SYMTAB", "STRTAB", "RELA", "HASH", "DYNAMIC", "NOTE", "NOBITS",
        "REL", "SHLIB", "DYNSYM", [14] = "INIT_ARRAY", "FINI_ARRAY", "PREINIT_ARRAY", "GROUP",
        "SYMTAB_SHNDX"};
    static const char *of_gnu[] = {"GNU_HASH", [7] = "GNU_verdef", "GNU_verneed", "GNU_versym"};
    return n < SHT_GNU_HASH ? NAMED(types, n) : NAMED(of_gnu, n - SHT_GNU_HASH);
}

static char *show_sections(char *p) {
    struct image o = image_of();
    struct strings names = strings_of(&o, o.header.e_shstrndx);
    p = TEXT(put_decimal(TEXT(p, "Section headers: "), o.header.e_shnum), "\n");
    for (uint64_t s = 0; s < o.header.e_shnum; s++) {
        const Elf64_Shdr *h = o.sections + s;
        p = TEXT(put_decimal(TEXT(p, "  "), s), " ");
        p = TEXT(put_bracketed(p, &names, h->sh_name), " ");
        p = TEXT(put_name_or_hex(p, type_name(h->sh_type), h->sh_type), " flags 0x");
        p = TEXT(put_hex(p, h->sh_flags), " addr 0x");
        p = TEXT(put_hex(p, h->sh_addr), " offset 0x");
        p = TEXT(put_hex(p, h->sh_offset), " size 0x");
        p = TEXT(put_hex(p, h->sh_size), " link ");
        p = TEXT(put_decimal(p, h->sh_link), " info ");
        p = TEXT(put_decimal(p, h->sh_info), " align ");
        p = TEXT(put_decimal(p, h->sh_addralign), " entsize ");
        p = turn(TEXT(put_decimal(p, h->sh_entsize), "\n"));
    }
    return p;
}

/* ---- nm */

/* A symbol: eight bytes of its name, the first in the highest place, its index, and its name. */
struct kept {
    uint64_t key;
    uint32_t index, name;
};

static inline uint64_t eight_at(const char *from) {
    uint64_t bytes;
    memcpy(&bytes, from, sizeof bytes);
    return bytes;
}

/* The key of eight bytes, of which none counts from the first NUL on. */
static inline uint64_t key_at(const char *name) {
    uint64_t bytes = eight_at(name), low = 0x0101010101010101;
    uint64_t ends = (bytes - low) & ~bytes & low << 7;
    return __builtin_bswap64(ends ? bytes & (((ends & -ends) >> 7) - 1) : bytes);
}

/* How many of the first `most` bytes are the same. */
static inline size_t shared_by(const char *a, const char *b, size_t most) {
    size_t i = 0;
    while (i < most && eight_at(a + i) == eight_at(b + i))
        i += 8;
    if (i < most)
        i += __builtin_ctzll(eight_at(a + i) ^ eight_at(b + i)) / 8;
    return i < most ? i : most;
}

/* Sorts by keys and leaves equal ones in their order: few by moving each to its place, and many by
 * each byte in which some differ. */
static void sort_keys(struct kept *rows, struct kept *spare, size_t n) {
    uint64_t differ = 0;
    for (size_t i = 1; i < n; i++)
        differ |= rows[i].key ^ rows[0].key;
    for (size_t i = 1; n < 32 && i < n; i++)
        for (size_t j = i; j && rows[j - 1].key > rows[j].key; j--) {
            struct kept row = rows[j];
            rows[j] = rows[j - 1];
            rows[j - 1] = row;
        }
    for (int by = 0; n >= 32 && by < 64; by += 8) {
        size_t places[256] = {0}, place = 0, count;
        if (!(differ >> by & 255))
            continue;
        for (size_t i = 0; i < n; i++)
            places[rows[i].key >> by & 255]++;
        for (int b = 0; b < 256; b++, place += count) {
            count = places[b];
            places[b] = place;
        }
        for (size_t i = 0; i < n; i++)
            spare[places[rows[i].key >> by & 255]++] = rows[i];
        memcpy(rows, spare, n * sizeof *rows);
    }
}

/* Sorts by the names from a place on, up to which they are the same. */
static void sort_names(struct kept *rows, struct kept *spare, size_t n, char *bytes, size_t place) {
    const char *first = bytes + rows[0].name + place;
    size_t shared = strlen(first);
    for (size_t i = 1; i < n; i++)
        shared = shared_by(first, bytes + rows[i].name + place, shared);
    place += shared;
    for (size_t i = 0; i < n; i++)
        rows[i].key = key_at(bytes + rows[i].name + place);
    sort_keys(rows, spare, n);
    for (size_t i = 0, end; i < n; i = end) {
        for (end = i + 1; end < n && rows[end].key == rows[i].key;)
            end++;
        if (end - i > 1 && rows[i].key & 255)
            sort_names(rows + i, spare, end - i, bytes, place + 8);
    }
}

static char letter_of(const Elf64_Sym *x, const struct image *o) {
    unsigned bound = x->st_info >> 4, kind = x->st_info & 15, s = x->st_shndx;
    if (s == SHN_UNDEF)
        return bound != STB_WEAK ? 'U' : kind == STT_OBJECT ? 'v' : 'w';
    if (bound == STB_GNU_UNIQUE || kind == STT_GNU_IFUNC)
        return bound == STB_GNU_UNIQUE ? 'u' : 'i';
    if (bound == STB_WEAK)
        return kind == STT_OBJECT ? 'V' : 'W';
    const Elf64_Shdr *h = s < o->header.e_shnum ? o->sections + s : NULL;
    char letter = !h ? s == SHN_ABS ? 'A' : s == SHN_COMMON ? 'C' : '?'
                  : h->sh_flags & SHF_EXECINSTR ? 'T' : !(h->sh_flags & SHF_ALLOC) ? 'N'
                  : h->sh_type == SHT_NOBITS ? 'B' : h->sh_flags & SHF_WRITE ? 'D' : 'R';
    return bound == STB_LOCAL && letter != '?' ? letter + 32 : letter;
}

static char *show_nm(char *p) {
    struct image o = image_of();
    uint64_t s = 0, kept = 0;
    while (s < o.header.e_shnum && o.sections[s].sh_type != SHT_SYMTAB)
        s++;
    need(s < o.header.e_shnum);
    struct strings names = strings_of(&o, o.sections[s].sh_link);
    uint64_t count = o.sections[s].sh_size / sizeof(Elf64_Sym);
    const Elf64_Sym *symbols = held(o.sections[s].sh_offset, count * sizeof *symbols);
    struct kept *rows = malloc(2 * count * sizeof *rows);
    need(rows != NULL);
    for (uint32_t i = 1; i < count; i++) {
        unsigned kind = symbols[i].st_info & 15;
        uint32_t name = symbols[i].st_name < names.ended ? symbols[i].st_name : names.none;
        if (kind != STT_SECTION && kind != STT_FILE && names.bytes[name])
            rows[kept++] = (struct kept){0, i, name};
    }
    if (kept)
        sort_names(rows, rows + count, kept, names.bytes, 0);
    for (uint64_t i = 0; i < kept; i++) {
        const Elf64_Sym *x = symbols + rows[i].index;
        write_hex(p, x->st_value);
        if (x->st_shndx == SHN_UNDEF)
            memset(p, ' ', 16);
        p[16] = p[18] = ' ';
        p[17] = letter_of(x, &o);
        p = turn(TEXT(put_string(p + 19, names.bytes + rows[i].name), "\n"));
    }
    return p;
}

int main(int argc, char **argv) {
    static const char *names[] = {"strings", "symbols", "relocations", "sections", "nm"};
    static char *(*shows[])(char *) = {show_strings, show_symbols, show_relocations,
                                       show_sections, show_nm};
    struct stat told;
    need(argc == 3 && (file = open(argv[2], O_RDONLY)) >= 0 && !fstat(file, &told));
    file_size = told.st_size;
    make_tables();
    for (int i = 0; i < 5; i++)
        if (!strcmp(argv[1], names[i]))
            return flush(shows[i](page)) != page;
    return 2;
}
