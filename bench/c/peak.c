/* Runs a command, and tells how long it took and how much memory it held at most.
 *
 * usage: peak FILE COMMAND ..
 *
 * FILE gets the time in microseconds, the most memory in KiB, and the status. A large program that begins another one lends it
 * its own figure, so a small one does it.
 */
#include <stdio.h>
#include <sys/resource.h>
#include <sys/wait.h>
#include <time.h>
#include <unistd.h>

int main(int argc, char **argv)
{
    struct timespec begin, end;
    struct rusage usage;
    int status = 0;
    if (argc < 3)
        return 2;
    clock_gettime(CLOCK_MONOTONIC, &begin);
    pid_t child = fork();
    if (child < 0)
        return 2;
    if (child == 0) {
        execvp(argv[2], argv + 2);
        _exit(127);
    }
    if (wait4(child, &status, 0, &usage) < 0)
        return 2;
    clock_gettime(CLOCK_MONOTONIC, &end);
    FILE *told = fopen(argv[1], "w");
    if (!told)
        return 2;
    long long spent = (end.tv_sec - begin.tv_sec) * 1000000LL + (end.tv_nsec - begin.tv_nsec) / 1000;
    fprintf(told, "%lld %ld %d\n", spent, usage.ru_maxrss, WIFEXITED(status) ? WEXITSTATUS(status) : 128);
    return fclose(told) ? 2 : 0;
}
