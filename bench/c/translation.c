/* The plain loops that bench/translation times crates/bench_translation against. It takes the same words,
   makes the same symbols and prints the same sum. A list is a block that is allocated at its whole size
   once a round and freed at the round's end, as elfkit's is.

   Compiled with OVER_ZEROS it is a limit: elfkit's list grows by bytes that it is given, and has none that
   nobody wrote, so so many bytes are made zeros at a time, and symbols are written over them. */
#include <stdint.h>
#include <stdio.h>
#include <stdlib.h>
#include <string.h>

#ifndef OVER_ZEROS
#define OVER_ZEROS 0
#endif

struct symbol {
    uint32_t name;
    uint8_t info, other;
    uint16_t shndx;
    uint64_t value, size;
};

#define LITTLE(bits, n) (n)
#define BIG(bits, n) __builtin_bswap##bits(n)

#define NUMBERS(order, ORDER)                                                                                \
    static inline uint16_t get16_##order(const uint8_t *p) { uint16_t n; memcpy(&n, p, 2); return ORDER(16, n); } \
    static inline uint32_t get32_##order(const uint8_t *p) { uint32_t n; memcpy(&n, p, 4); return ORDER(32, n); } \
    static inline uint64_t get64_##order(const uint8_t *p) { uint64_t n; memcpy(&n, p, 8); return ORDER(64, n); } \
    static inline void put16_##order(uint8_t *p, uint16_t n) { n = ORDER(16, n); memcpy(p, &n, 2); }              \
    static inline void put32_##order(uint8_t *p, uint32_t n) { n = ORDER(32, n); memcpy(p, &n, 4); }              \
    static inline void put64_##order(uint8_t *p, uint64_t n) { n = ORDER(64, n); memcpy(p, &n, 8); }

NUMBERS(little, LITTLE)
NUMBERS(big, BIG)

/* Each loop is a function of its own, so that no two are mixed. encode stops at the first symbol that does
   not fit its class. */
#define LOOPS(order)                                                                                        \
    __attribute__((noinline)) static void decode32_##order(const uint8_t *in, struct symbol *out, size_t count) \
    {                                                                                                       \
        for (size_t i = 0; i < count; i++, in += 16) {                                                      \
            out[i].name = get32_##order(in);                                                                \
            out[i].value = get32_##order(in + 4);                                                           \
            out[i].size = get32_##order(in + 8);                                                            \
            out[i].info = in[12];                                                                           \
            out[i].other = in[13];                                                                          \
            out[i].shndx = get16_##order(in + 14);                                                          \
        }                                                                                                   \
    }                                                                                                       \
    __attribute__((noinline)) static void decode64_##order(const uint8_t *in, struct symbol *out, size_t count) \
    {                                                                                                       \
        for (size_t i = 0; i < count; i++, in += 24) {                                                      \
            out[i].name = get32_##order(in);                                                                \
            out[i].info = in[4];                                                                            \
            out[i].other = in[5];                                                                           \
            out[i].shndx = get16_##order(in + 6);                                                           \
            out[i].value = get64_##order(in + 8);                                                           \
            out[i].size = get64_##order(in + 16);                                                           \
        }                                                                                                   \
    }                                                                                                       \
    __attribute__((noinline)) static int encode32_##order(const struct symbol *in, uint8_t *out, size_t count) \
    {                                                                                                       \
        for (size_t i = 0; i < count; i++, out += 16) {                                                     \
            if (in[i].value > UINT32_MAX || in[i].size > UINT32_MAX)                                        \
                return 0;                                                                                   \
            put32_##order(out, in[i].name);                                                                 \
            put32_##order(out + 4, in[i].value);                                                            \
            put32_##order(out + 8, in[i].size);                                                             \
            out[12] = in[i].info;                                                                           \
            out[13] = in[i].other;                                                                          \
            put16_##order(out + 14, in[i].shndx);                                                           \
        }                                                                                                   \
        return 1;                                                                                           \
    }                                                                                                       \
    __attribute__((noinline)) static int encode64_##order(const struct symbol *in, uint8_t *out, size_t count) \
    {                                                                                                       \
        for (size_t i = 0; i < count; i++, out += 24) {                                                     \
            put32_##order(out, in[i].name);                                                                 \
            out[4] = in[i].info;                                                                            \
            out[5] = in[i].other;                                                                           \
            put16_##order(out + 6, in[i].shndx);                                                            \
            put64_##order(out + 8, in[i].value);                                                            \
            put64_##order(out + 16, in[i].size);                                                            \
        }                                                                                                   \
        return 1;                                                                                           \
    }

LOOPS(little)
LOOPS(big)

static int wide, big;
static size_t count;

static size_t file_size(void) { return count * (wide ? 24 : 16); }

static void *allocated(size_t size)
{
    void *block = malloc(size ? size : 1);
    if (!block)
        exit(5);
    return block;
}

static struct symbol *decoded(const uint8_t *bytes)
{
    struct symbol *symbols = allocated(count * sizeof *symbols);
    if (wide)
        (big ? decode64_big : decode64_little)(bytes, symbols, count);
    else
        (big ? decode32_big : decode32_little)(bytes, symbols, count);
    return symbols;
}

static int encode(const struct symbol *in, uint8_t *out, size_t some)
{
    return wide ? (big ? encode64_big : encode64_little)(in, out, some)
                : (big ? encode32_big : encode32_little)(in, out, some);
}

static uint8_t *encoded(const struct symbol *symbols)
{
    uint8_t *bytes = allocated(file_size());
    size_t size = wide ? 24 : 16, most = OVER_ZEROS ? OVER_ZEROS / size : count;
    for (size_t i = 0; i < count; i += most) {
        size_t some = count - i < most ? count - i : most;
        if (OVER_ZEROS)
            memset(bytes + i * size, 0, some * size);
        if (!encode(symbols + i, bytes + i * size, some))
            exit(1);
    }
    return bytes;
}

static uint64_t with_number(uint64_t sum, uint64_t n) { return sum * 31 + n; }

static uint64_t with_symbol(uint64_t sum, const struct symbol *s)
{
    sum = with_number(sum, s->name);
    sum = with_number(sum, s->info);
    sum = with_number(sum, s->other);
    sum = with_number(sum, s->shndx);
    sum = with_number(sum, s->value);
    return with_number(sum, s->size);
}

int main(int argc, char **argv)
{
    if (argc != 6)
        return 2;
    int encodes = !strcmp(argv[1], "encode");
    wide = !strcmp(argv[2], "64");
    big = !strcmp(argv[3], "big");
    count = strtoul(argv[4], NULL, 10);
    size_t rounds = strtoul(argv[5], NULL, 10);

    uint8_t *bytes = allocated(file_size());
    uint64_t state = 1;
    for (size_t i = 0; i < file_size(); i++) {
        state = state * 6364136223846793005u + 1442695040888963407u;
        bytes[i] = state >> 56;
    }
    struct symbol *symbols = decoded(bytes);
    uint64_t sum = 0;
    if (encodes) {
        uint8_t *first = encoded(symbols);
        for (size_t i = 0; i < file_size(); i++)
            sum = with_number(sum, first[i]);
        for (size_t round = 0; round < rounds; round++) {
            uint8_t *out = encoded(symbols);
            if (round < file_size())
                sum = with_number(sum, out[round]);
            free(out);
        }
    } else {
        for (size_t i = 0; i < count; i++)
            sum = with_symbol(sum, &symbols[i]);
        for (size_t round = 0; round < rounds; round++) {
            struct symbol *out = decoded(bytes);
            if (round < count)
                sum = with_symbol(sum, &out[round]);
            free(out);
        }
    }
    printf("%llu\n", (unsigned long long)sum);
    return 0;
}
