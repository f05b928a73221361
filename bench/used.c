// Runs a program, and writes into a file what it took: its processor time in seconds, and its most memory in KiB. The
// system counts the memory of a program from its parent's on: so the parent has to be a small one, as this is.
//
//     used FILE PROGRAM WORDS..
#include <stdio.h>
#include <sys/resource.h>
#include <sys/wait.h>
#include <unistd.h>

static double seconds(struct timeval time) { return (double)time.tv_sec + (double)time.tv_usec / 1e6; }

int main(int count, char **words) {
    if (count < 3)
        return 2;
    const pid_t child = fork();
    if (child == 0) {
        execvp(words[2], words + 2);
        _exit(127);
    }
    int status;
    struct rusage used;
    if (child < 0 || wait4(child, &status, 0, &used) != child)
        return 2;
    const double took = seconds(used.ru_utime) + seconds(used.ru_stime);
    FILE *file = fopen(words[1], "w");
    if (!file || fprintf(file, "%f %ld\n", took, used.ru_maxrss) < 0 || fclose(file))
        return 2;
    return WIFEXITED(status) ? WEXITSTATUS(status) : 128 + WTERMSIG(status);
}
