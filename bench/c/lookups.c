/* What bench/lookups times crates/bench_lookup against: a plain loop over the first symbol table of an
   image of class 64 that was read into memory, with strcmp. It takes the same words and prints the same
   sum. */
#include <elf.h>
#include <fcntl.h>
#include <stdint.h>
#include <stdio.h>
#include <stdlib.h>
#include <string.h>
#include <sys/mman.h>
#include <sys/stat.h>
#include <unistd.h>

static void fail(const char *what)
{
    fprintf(stderr, "lookups: %s\n", what);
    exit(1);
}

/* a part of the file in memory of its own */
static char *part(int file, uint64_t at, uint64_t size)
{
    char *bytes = malloc(size ? size : 1);
    uint64_t got = 0;
    while (bytes != NULL && got < size) {
        ssize_t n = pread(file, bytes + got, size - got, (off_t)(at + got));
        if (n <= 0)
            fail("not read");
        got += (uint64_t)n;
    }
    if (bytes == NULL)
        fail("no memory");
    return bytes;
}

/* the least symbol from 1 on that is not local, is defined and has the name; 0 where none has */
static uint64_t find(const char *symbols, uint64_t count, const char *strings, const char *name)
{
    for (uint64_t i = 1; i < count; i++) {
        Elf64_Sym symbol;
        memcpy(&symbol, symbols + i * sizeof symbol, sizeof symbol);
        if (ELF64_ST_BIND(symbol.st_info) != STB_LOCAL && symbol.st_shndx != SHN_UNDEF &&
            strcmp(strings + symbol.st_name, name) == 0)
            return i;
    }
    return 0;
}

/* the sum of so many lookups and one more in a file that is opened, and read or mapped */
static uint64_t lookups(const char *path, int mapped, long rounds, const char *name)
{
    int file = open(path, O_RDONLY);
    struct stat stat;
    if (file < 0 || fstat(file, &stat) != 0)
        fail("not opened");
    char *image = NULL;
    if (mapped && (image = mmap(NULL, (size_t)stat.st_size, PROT_READ, MAP_PRIVATE, file, 0)) == MAP_FAILED)
        fail("not mapped");
    char *front = mapped ? image : part(file, 0, sizeof(Elf64_Ehdr));
    Elf64_Ehdr *header = (Elf64_Ehdr *)front;
    char *table = mapped ? image + header->e_shoff : part(file, header->e_shoff, header->e_shnum * sizeof(Elf64_Shdr));
    Elf64_Shdr *sections = (Elf64_Shdr *)table;
    int s = 0;
    while (s < header->e_shnum && sections[s].sh_type != SHT_SYMTAB)
        s++;
    if (s == header->e_shnum)
        fail("no table");
    Elf64_Shdr *at = &sections[s], *to = &sections[at->sh_link];
    char *symbols = mapped ? image + at->sh_offset : part(file, at->sh_offset, at->sh_size);
    char *strings = mapped ? image + to->sh_offset : part(file, to->sh_offset, to->sh_size);
    uint64_t sum = 0, count = at->sh_size / sizeof(Elf64_Sym);
    for (long round = 0; round <= rounds; round++)
        sum += find(symbols, count, strings, name);
    if (mapped)
        munmap(image, (size_t)stat.st_size);
    else {
        free(strings);
        free(symbols);
        free(table);
        free(front);
    }
    close(file);
    return sum;
}

int main(int count, char **words)
{
    if (count != 5)
        fail("usage: lookups open|map|linear ROUNDS FILE NAME");
    long rounds = atol(words[2]);
    uint64_t sum = 0;
    if (strcmp(words[1], "linear") == 0)
        sum = lookups(words[3], 0, rounds, words[4]);
    else
        for (; rounds > 0; rounds--)
            sum += lookups(words[3], strcmp(words[1], "map") == 0, 0, words[4]);
    printf("%llu\n", (unsigned long long)sum);
    return 0;
}
