/* Reads ranges of a file and does nothing with them.
 *
 * usage: reads FILE RANGES
 *
 * RANGES is a file of pairs of numbers of eight bytes in the order of the machine, a place and a length. A range of at most 64 KiB
 * goes into one buffer for all, and a longer one into memory of its own that is not let go, as where a program keeps what it read.
 */
#include <fcntl.h>
#include <stdint.h>
#include <stdlib.h>
#include <unistd.h>

#define SHORT 65536

static char window[SHORT];

int main(int argc, char **argv) {
    if (argc != 3)
        return 2;
    int file = open(argv[1], O_RDONLY), listed = open(argv[2], O_RDONLY);
    if (file < 0 || listed < 0)
        return 1;
    uint64_t ranges[512];
    ssize_t got;
    while ((got = read(listed, ranges, sizeof ranges)) > 0)
        for (size_t i = 0; i + 1 < got / sizeof *ranges; i += 2) {
            uint64_t place = ranges[i], length = ranges[i + 1];
            char *into = length > SHORT ? malloc(length) : window;
            if (!into || pread(file, into, length, place) != (ssize_t)length)
                return 1;
        }
    return 0;
}
