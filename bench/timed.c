/*
 * timed SECONDS RUNS INPUT OUTPUT COMMAND WORDS..: runs a command up to RUNS times, for about two seconds at most, with standard input from
 * INPUT and standard output to OUTPUT, and prints the best time in microseconds from its start to its end; `over` where it took more
 * than SECONDS of processor time, `failed` where it was killed otherwise or could not be started.
 */
#include <fcntl.h>
#include <sys/resource.h>
#include <sys/wait.h>
#include <unistd.h>

#include "bench.h"

enum { NOT_STARTED = 127 };

static void become(char **word)
{
    rlim_t seconds = (rlim_t)atol(word[1]);
    struct rlimit limit = { seconds, seconds };
    int input = open(word[3], O_RDONLY);
    int output = open(word[4], O_WRONLY | O_CREAT | O_TRUNC, 0644);
    int nothing = open("/dev/null", O_WRONLY);
    if (input >= 0 && output >= 0 && nothing >= 0 && dup2(input, 0) >= 0 && dup2(output, 1) >= 0 &&
        dup2(nothing, 2) >= 0 && setrlimit(RLIMIT_CPU, &limit) == 0)
        execvp(word[5], word + 5);
    _exit(NOT_STARTED);
}

int main(int words, char **word)
{
    if (words < 6)
        stop("usage: timed SECONDS RUNS INPUT OUTPUT COMMAND WORDS..");
    double best = 1e30, total = 0;
    for (long runs = atol(word[2]); runs > 0 && total < 2e6; runs--) {
        double start = microseconds();
        pid_t child = fork();
        if (child == 0)
            become(word);
        int status;
        struct rusage used;
        if (child < 0 || wait4(child, &status, 0, &used) != child)
            stop("timed: cannot run");
        double took = microseconds() - start;
        if (WIFSIGNALED(status)) {
            puts(used.ru_utime.tv_sec + used.ru_stime.tv_sec + 1 >= atol(word[1]) ? "over" : "failed");
            return 0;
        }
        if (WEXITSTATUS(status) == NOT_STARTED) {
            puts("failed");
            return 0;
        }
        total += took;
        if (took < best)
            best = took;
    }
    printf("%.1f\n", best);
    return 0;
}
