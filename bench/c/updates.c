/* Changes symbols of an image by libelf, and writes the image to a new file or in place.

   usage: updates FILE OUT SECTION SYMBOL SIZE      the size of one symbol, to a new file
          updates -i FILE SECTION SYMBOL SIZE       the same in place
          updates -a FILE SECTION N                 N is added to the value of each symbol, in place

   The new file has the headers and the data of FILE at the same places, as a tool copies them: each section's data is handed
   to elf_update as elf_getdata gave it. In place FILE is read, and not mapped; its parts keep their places. */
#include <fcntl.h>
#include <gelf.h>
#include <libelf.h>
#include <stdio.h>
#include <stdlib.h>
#include <string.h>
#include <unistd.h>

static void check(int good, const char *what) {
    if (!good) {
        fprintf(stderr, "updates: %s: %s\n", what, elf_errmsg(-1));
        exit(1);
    }
}

/* Gives one symbol another size. */
static void set_size(Elf_Data *data, int symbol, GElf_Xword size) {
    GElf_Sym sym;
    check(gelf_getsym(data, symbol, &sym) != NULL, "symbol");
    sym.st_size = size;
    check(gelf_update_sym(data, symbol, &sym), "symbol");
}

/* Adds a number to the value of each symbol. */
static void add_to_values(Elf_Data *data, size_t count, GElf_Addr more) {
    for (size_t i = 0; i < count; i++) {
        GElf_Sym sym;
        check(gelf_getsym(data, i, &sym) != NULL, "symbol");
        sym.st_value += more;
        check(gelf_update_sym(data, i, &sym), "symbol");
    }
}

/* The sections of one image as those of another, with the size of one symbol changed. */
static void copy_sections(Elf *from, Elf *to, size_t section, int symbol, GElf_Xword size) {
    for (Elf_Scn *scn = NULL; (scn = elf_nextscn(from, scn)) != NULL;) {
        Elf_Scn *made = elf_newscn(to);
        GElf_Shdr shdr;
        check(made && gelf_getshdr(scn, &shdr) && gelf_update_shdr(made, &shdr), "section");
        Elf_Data *data = elf_getdata(scn, NULL), *copy = elf_newdata(made);
        check(data && copy, "data");
        *copy = *data;
        if (elf_ndxscn(scn) == section)
            set_size(copy, symbol, size);
    }
}

static int copy(char **argv) {
    int in = open(argv[1], O_RDONLY), out = open(argv[2], O_RDWR | O_CREAT | O_TRUNC, 0666);
    check(in >= 0 && out >= 0, "open");
    Elf *from = elf_begin(in, ELF_C_READ, NULL), *to = elf_begin(out, ELF_C_WRITE, NULL);
    GElf_Ehdr ehdr;
    check(from && to && gelf_getehdr(from, &ehdr) && gelf_newehdr(to, gelf_getclass(from)), "header");
    check(gelf_update_ehdr(to, &ehdr), "header");
    elf_flagelf(to, ELF_C_SET, ELF_F_LAYOUT);
    copy_sections(from, to, strtoul(argv[3], NULL, 10), atoi(argv[4]), strtoull(argv[5], NULL, 10));
    check(elf_update(to, ELF_C_WRITE) >= 0, "update");
    elf_end(to);
    elf_end(from);
    return close(out) != 0;
}

static int in_place(int argc, char **argv) {
    int file = open(argv[2], O_RDWR);
    check(file >= 0, "open");
    Elf *elf = elf_begin(file, ELF_C_RDWR, NULL);
    check(elf != NULL, "begin");
    elf_flagelf(elf, ELF_C_SET, ELF_F_LAYOUT);
    Elf_Scn *scn = elf_getscn(elf, strtoul(argv[3], NULL, 10));
    Elf_Data *data = elf_getdata(scn, NULL);
    GElf_Shdr shdr;
    check(data && gelf_getshdr(scn, &shdr), "data");
    if (argc == 6)
        set_size(data, atoi(argv[4]), strtoull(argv[5], NULL, 10));
    else
        add_to_values(data, shdr.sh_size / shdr.sh_entsize, strtoull(argv[4], NULL, 10));
    elf_flagdata(data, ELF_C_SET, ELF_F_DIRTY);
    check(elf_update(elf, ELF_C_WRITE) >= 0, "update");
    elf_end(elf);
    return close(file) != 0;
}

int main(int argc, char **argv) {
    elf_version(EV_CURRENT);
    if (argc == 6 && strcmp(argv[1], "-i") == 0)
        return in_place(argc, argv);
    if (argc == 5 && strcmp(argv[1], "-a") == 0)
        return in_place(argc, argv);
    return argc == 6 ? copy(argv) : 2;
}
