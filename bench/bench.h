/* What the benchmark's own programs share: the AIGER file that bench/blocks.py wrote, and the clock. */
#ifndef BENCH_H
#define BENCH_H

#include <stdint.h>
#include <stdio.h>
#include <stdlib.h>
#include <time.h>

enum { MAX_VARIABLES = 1024, MAX_TEXT = 32768 };

struct gate {
    unsigned left, right0, right1;
};

struct net {
    unsigned variables, inputs, outputs, gates;
    unsigned input[MAX_VARIABLES], output[MAX_VARIABLES];
    struct gate gate[MAX_VARIABLES];
};

static inline void stop(const char *what)
{
    fprintf(stderr, "%s\n", what);
    exit(2);
}

/* Reads the whole file; gives its length. */
static inline size_t read_text(const char *path, char text[MAX_TEXT + 1])
{
    FILE *file = fopen(path, "rb");
    if (!file)
        stop("no such file");
    size_t length = fread(text, 1, MAX_TEXT, file);
    fclose(file);
    text[length] = 0;
    return length;
}

static inline unsigned number(const char **at)
{
    char *end;
    unsigned long value = strtoul(*at, &end, 10);
    if (end == *at)
        stop("not a circuit");
    *at = end;
    return (unsigned)value;
}

/* Takes the text apart. The blocks are known to be well-formed; only what would write out of bounds is refused. */
static inline void parse(const char *text, struct net *net)
{
    const char *at = text + 3;
    net->variables = number(&at);
    net->inputs = number(&at);
    unsigned latches = number(&at);
    net->outputs = number(&at);
    net->gates = number(&at);
    if (net->variables > MAX_VARIABLES || net->outputs > MAX_VARIABLES || latches != 0 ||
        net->inputs + net->gates > net->variables)
        stop("over the limits");
    for (unsigned k = 0; k < net->inputs; k++)
        net->input[k] = number(&at);
    for (unsigned k = 0; k < net->outputs; k++)
        net->output[k] = number(&at);
    for (unsigned k = 0; k < net->gates; k++) {
        net->gate[k].left = number(&at);
        net->gate[k].right0 = number(&at);
        net->gate[k].right1 = number(&at);
    }
}

static inline double microseconds(void)
{
    struct timespec now;
    clock_gettime(CLOCK_MONOTONIC, &now);
    return now.tv_sec * 1e6 + now.tv_nsec / 1e3;
}

/*
 * What is measured. `begin` makes what a library needs before it is given work (a ring, tables) and `end` gives it back: neither is
 * counted, and both may be null. `work` is counted: it takes the text apart and leaves one verdict character for each output.
 */
struct engine {
    void (*begin)(const char *text);
    void (*work)(const char *text, size_t length, char *verdicts);
    void (*end)(void);
};

/* Works up to `runs` times, for about a second at most; gives the best time. */
static inline double best_time(long runs, struct engine engine, const char *text, size_t length, char *verdicts)
{
    double best = 1e30, began = microseconds();
    for (; runs > 0 && microseconds() - began < 1e6; runs--) {
        if (engine.begin)
            engine.begin(text);
        double start = microseconds();
        engine.work(text, length, verdicts);
        double took = microseconds() - start;
        if (engine.end)
            engine.end();
        if (took < best)
            best = took;
    }
    return best;
}

/* PROGRAM FILE RUNS: works on the file; prints the verdicts and the best time. */
static inline void run(int words, char **word, struct engine engine)
{
    static char text[MAX_TEXT + 1], verdicts[MAX_VARIABLES + 1];
    if (words != 3)
        stop("usage: PROGRAM FILE RUNS");
    size_t length = read_text(word[1], text);
    double best = best_time(atol(word[2]), engine, text, length, verdicts);
    printf("verdicts %s\nmicroseconds %.2f\n", verdicts, best);
}

#endif
