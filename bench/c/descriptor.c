/* What bench/descriptor times crates/bench_descriptor against: the same work through libelf's read form
   (ELF_C_READ), with GElf's calls. It takes the same words and prints the same sum. */
#include <fcntl.h>
#include <gelf.h>
#include <stdint.h>
#include <stdio.h>
#include <stdlib.h>
#include <string.h>
#include <unistd.h>

static void fail(const char *what)
{
    fprintf(stderr, "descriptor: %s\n", what);
    exit(1);
}

/* the sum of the sizes of all sections */
static uint64_t headers(Elf *elf)
{
    uint64_t sum = 0;
    for (Elf_Scn *scn = NULL; (scn = elf_nextscn(elf, scn)) != NULL;) {
        GElf_Shdr header;
        if (gelf_getshdr(scn, &header) == NULL)
            fail("no section header");
        sum += header.sh_size;
    }
    return sum;
}

/* the sum of the values of the first symbol table, symbol by symbol */
static uint64_t symbols(Elf *elf)
{
    uint64_t sum = 0;
    for (Elf_Scn *scn = NULL; (scn = elf_nextscn(elf, scn)) != NULL;) {
        GElf_Shdr header;
        if (gelf_getshdr(scn, &header) == NULL)
            fail("no section header");
        if (header.sh_type != SHT_SYMTAB)
            continue;
        Elf_Data *data = elf_getdata(scn, NULL);
        if (data == NULL)
            fail("no data");
        int count = (int)(header.sh_size / header.sh_entsize);
        for (int i = 0; i < count; i++) {
            GElf_Sym symbol;
            if (gelf_getsym(data, i, &symbol) == NULL)
                fail("no symbol");
            sum += symbol.st_value;
        }
        break;
    }
    return sum;
}

int main(int count, char **words)
{
    if (count != 4)
        fail("usage: descriptor headers|symbols ROUNDS FILE");
    elf_version(EV_CURRENT);
    uint64_t sum = 0;
    for (long round = atol(words[2]); round > 0; round--) {
        int file = open(words[3], O_RDONLY);
        Elf *elf = elf_begin(file, ELF_C_READ, NULL);
        if (elf == NULL)
            fail("not opened");
        sum += strcmp(words[1], "headers") == 0 ? headers(elf) : symbols(elf);
        elf_end(elf);
        close(file);
    }
    printf("%llu\n", (unsigned long long)sum);
    return 0;
}
