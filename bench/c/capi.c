/* What bench/capi runs, once on elfkit's libelf and once on the system's: the same program with the same
   words has to print the same sum on both. */
#include <fcntl.h>
#include <gelf.h>
#include <stdint.h>
#include <stdio.h>
#include <stdlib.h>
#include <string.h>
#include <unistd.h>

static void fail(const char *what)
{
    fprintf(stderr, "capi: %s: %s\n", what, elf_errmsg(-1));
    exit(1);
}

static Elf *opened(int file, Elf_Cmd command)
{
    Elf *elf = elf_begin(file, command, NULL);
    if (elf == NULL)
        fail("not opened");
    return elf;
}

/* the first section of a type, and its header */
static Elf_Scn *section(Elf *elf, uint32_t type, GElf_Shdr *header)
{
    Elf_Scn *scn = NULL;
    do {
        scn = elf_nextscn(elf, scn);
        if (scn == NULL || gelf_getshdr(scn, header) == NULL)
            fail("no section");
    } while (header->sh_type != type);
    return scn;
}

/* its data */
static Elf_Data *data_of(Elf *elf, uint32_t type, GElf_Shdr *header)
{
    Elf_Data *data = elf_getdata(section(elf, type, header), NULL);
    if (data == NULL)
        fail("no data");
    return data;
}

/* the number of sections */
static uint64_t begin(Elf *elf)
{
    size_t sections;
    if (elf_getshdrnum(elf, &sections) != 0)
        fail("no sections");
    return sections;
}

/* the sum of the sizes of all sections */
static uint64_t headers(Elf *elf)
{
    uint64_t sum = 0;
    for (Elf_Scn *scn = NULL; (scn = elf_nextscn(elf, scn)) != NULL;) {
        GElf_Shdr header;
        if (gelf_getshdr(scn, &header) == NULL)
            fail("no section header");
        sum += header.sh_size;
    }
    return sum;
}

/* the sum of the values of the symbols of the first table */
static uint64_t symbols(Elf *elf)
{
    GElf_Shdr header;
    GElf_Sym symbol;
    uint64_t sum = 0;
    Elf_Data *data = data_of(elf, SHT_SYMTAB, &header);
    int count = (int)(header.sh_size / header.sh_entsize);
    for (int i = 0; i < count; i++) {
        if (gelf_getsym(data, i, &symbol) == NULL)
            fail("no symbol");
        sum += symbol.st_value;
    }
    return sum;
}

/* the same with the first letters of their names */
static uint64_t names(Elf *elf)
{
    GElf_Shdr header;
    GElf_Sym symbol;
    uint64_t sum = 0;
    Elf_Data *data = data_of(elf, SHT_SYMTAB, &header);
    int count = (int)(header.sh_size / header.sh_entsize);
    for (int i = 0; i < count; i++) {
        if (gelf_getsym(data, i, &symbol) == NULL)
            fail("no symbol");
        const char *name = elf_strptr(elf, header.sh_link, symbol.st_name);
        if (name == NULL)
            fail("no name");
        sum += symbol.st_value + (unsigned char)name[0];
    }
    return sum;
}

/* the sum of the addends of the first relocations */
static uint64_t relas(Elf *elf)
{
    GElf_Shdr header;
    GElf_Rela rela;
    uint64_t sum = 0;
    Elf_Data *data = data_of(elf, SHT_RELA, &header);
    int count = (int)(header.sh_size / header.sh_entsize);
    for (int i = 0; i < count; i++) {
        if (gelf_getrela(data, i, &rela) == NULL)
            fail("no relocation");
        sum += (uint64_t)rela.r_addend;
    }
    return sum;
}

/* the sum of the types and places of the first notes */
static uint64_t notes(Elf *elf)
{
    GElf_Shdr header;
    GElf_Nhdr note;
    uint64_t sum = 0;
    size_t name, desc, at = 0;
    Elf_Data *data = data_of(elf, SHT_NOTE, &header);
    while ((at = gelf_getnote(data, at, &note, &name, &desc)) > 0)
        sum += note.n_type + desc;
    return sum;
}

/* the sum of bytes of the symbols of the first table, as if they were of the other order */
static uint64_t xlate(Elf *elf)
{
    GElf_Shdr header;
    Elf_Data *data = data_of(elf, SHT_SYMTAB, &header), other = *data;
    other.d_buf = malloc(data->d_size);
    if (other.d_buf == NULL || gelf_xlatetom(elf, &other, data, ELFDATA2MSB) == NULL)
        fail("not translated");
    uint64_t sum = ((unsigned char *)other.d_buf)[other.d_size - 1];
    free(other.d_buf);
    return sum;
}

/* the sum of the sizes of the members that are images */
static uint64_t members(Elf *archive, int file)
{
    uint64_t sum = 0;
    Elf *elf;
    for (Elf_Cmd command = ELF_C_READ_MMAP; (elf = elf_begin(file, command, archive)) != NULL;) {
        Elf_Arhdr *header = elf_getarhdr(elf);
        if (header == NULL)
            fail("no header of a member");
        if (elf_kind(elf) == ELF_K_ELF)
            sum += (uint64_t)header->ar_size;
        command = elf_next(elf);
        elf_end(elf);
    }
    return sum;
}

/* the number of sections of each file of a list, which are opened and closed; the rounds of one file */
static uint64_t small(const char *list)
{
    uint64_t sum = 0;
    char name[4096];
    FILE *lines = fopen(list, "r");
    if (lines == NULL)
        fail("no list");
    while (fgets(name, sizeof name, lines) != NULL) {
        name[strcspn(name, "\n")] = '\0';
        int file = open(name, O_RDONLY);
        Elf *elf = opened(file, ELF_C_READ);
        sum += begin(elf);
        elf_end(elf);
        close(file);
    }
    fclose(lines);
    return sum;
}

/* changes one symbol of the first table in place, and gives the length of the file */
static uint64_t change(const char *path, Elf_Cmd command, long round)
{
    GElf_Shdr header;
    GElf_Sym symbol;
    int file = open(path, O_RDWR);
    Elf *elf = opened(file, command);
    elf_flagelf(elf, ELF_C_SET, ELF_F_LAYOUT);
    Elf_Data *data = data_of(elf, SHT_SYMTAB, &header);
    int i = (int)(header.sh_size / header.sh_entsize / 2);
    if (gelf_getsym(data, i, &symbol) == NULL)
        fail("no symbol");
    symbol.st_size = symbol.st_size ^ (uint64_t)round ^ 0x5a5a;
    if (gelf_update_sym(data, i, &symbol) == 0)
        fail("not changed");
    elf_flagdata(data, ELF_C_SET, ELF_F_DIRTY);
    int64_t length = elf_update(elf, ELF_C_WRITE);
    if (length < 0)
        fail("not updated");
    elf_end(elf);
    close(file);
    return (uint64_t)length;
}

/* writes the sections of an image to a new file beside it, and gives its length */
static uint64_t copy(const char *path, Elf_Cmd command)
{
    char name[4096];
    snprintf(name, sizeof name, "%s.new", path);
    int from = open(path, O_RDONLY), to = open(name, O_RDWR | O_CREAT | O_TRUNC, 0666);
    Elf *elf = opened(from, ELF_C_READ_MMAP), *made = opened(to, command);
    GElf_Ehdr header;
    if (gelf_getehdr(elf, &header) == NULL || gelf_newehdr(made, gelf_getclass(elf)) == NULL
        || gelf_update_ehdr(made, &header) == 0)
        fail("no header");
    for (Elf_Scn *scn = NULL; (scn = elf_nextscn(elf, scn)) != NULL;) {
        GElf_Shdr shdr;
        Elf_Scn *other = elf_newscn(made);
        Elf_Data *data = elf_getdata(scn, NULL), *added = elf_newdata(other);
        if (data == NULL || added == NULL || gelf_getshdr(scn, &shdr) == NULL
            || gelf_update_shdr(other, &shdr) == 0)
            fail("no section");
        *added = *data;
    }
    int64_t length = elf_update(made, ELF_C_WRITE);
    if (length < 0)
        fail("not written");
    elf_end(made);
    elf_end(elf);
    close(to);
    close(from);
    return (uint64_t)length;
}

static const struct {
    const char *name;
    uint64_t (*sum)(Elf *elf);
} measures[] = {
    {"begin", begin}, {"headers", headers}, {"symbols", symbols}, {"names", names},
    {"relas", relas}, {"notes", notes}, {"xlate", xlate},
};

/* one round of a measure */
static uint64_t one(const char *what, const char *path, int file, long round)
{
    if (strcmp(what, "small") == 0)
        return small(path);
    if (strcmp(what, "change") == 0 || strcmp(what, "mapped") == 0)
        return change(path, what[0] == 'c' ? ELF_C_RDWR : ELF_C_RDWR_MMAP, round);
    if (strcmp(what, "copy") == 0)
        return copy(path, ELF_C_WRITE);
    Elf *elf = opened(file, ELF_C_READ_MMAP);
    uint64_t sum = 0;
    if (strcmp(what, "members") == 0)
        sum = members(elf, file);
    for (size_t i = 0; i < sizeof measures / sizeof measures[0]; i++)
        if (strcmp(what, measures[i].name) == 0)
            sum = measures[i].sum(elf);
    elf_end(elf);
    return sum;
}

/* the greatest resident set of this program, in KiB; that of rusage may be its parent's */
static long peak(void)
{
    char line[256];
    long kib = 0;
    FILE *lines = fopen("/proc/self/status", "r");
    while (lines != NULL && fgets(line, sizeof line, lines) != NULL)
        if (strncmp(line, "VmHWM:", 6) == 0)
            kib = atol(line + 6);
    if (lines != NULL)
        fclose(lines);
    return kib;
}

int main(int count, char **words)
{
    if (count != 4)
        fail("usage: capi MEASURE ROUNDS FILE");
    elf_version(EV_CURRENT);
    uint64_t sum = 0;
    int file = open(words[3], O_RDONLY);
    for (long round = atol(words[2]); round > 0; round--)
        sum += one(words[1], words[3], file, round);
    printf("%llu %ld\n", (unsigned long long)sum, peak());
}
