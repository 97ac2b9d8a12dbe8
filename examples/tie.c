/*
 * tie FILE: checks the tie in an .aag file, output 0. Exit status: the verdict, 0, 1 or 2; 3 where there is none.
 *
 *     (cd crates/mg && rt lib)
 *     cc -std=c99 -Iinclude examples/tie.c crates/mg/out/libmg.a -o tie
 */
#include <stdio.h>

#include "mg.h"

enum { LONGEST = 32768, ROWS = 4096, WORK = 32768, MOST_INPUTS = 1024, NO_VERDICT = 3 };

/* What is lent to the call; a longer working slice only makes it faster. */
static uint16_t var[ROWS], then[ROWS], els[ROWS];
static uint64_t work[WORK];
static uint8_t pattern[MOST_INPUTS];

/* One byte more than is allowed, so that a longer text is refused and not cut. */
static uint8_t text[LONGEST + 1];

/* Reads the file; whether it could be read. */
static int read_text(const char *name, size_t *length)
{
    FILE *file = fopen(name, "rb");
    if (file == NULL)
        return 0;
    *length = fread(text, 1, sizeof text, file);
    int fine = !ferror(file);
    fclose(file);
    return fine;
}

static int refused(uint32_t number)
{
    printf("refused: %u\n", (unsigned)number);
    return NO_VERDICT;
}

static int check(size_t length)
{
    size_t inputs, outputs, rows;
    uint32_t verdict;
    uint32_t refusal = mg_text(text, length, &inputs, &outputs);
    if (refusal != 0)
        return refused(refusal);
    refusal = mg_circuit(text, length, var, ROWS, then, ROWS, els, ROWS, work, WORK, 0, pattern, inputs, &verdict, &rows);
    if (refusal != 0)
        return refused(refusal);
    switch (verdict) {
    case 0:
        printf("the versions never differ (%zu rows)\n", rows);
        break;
    case 1:
        printf("the versions differ (%zu rows), first at\n", rows);
        for (size_t k = 0; k < inputs; k++)
            printf("input %zu: %u\n", k, (unsigned)pattern[k]);
        break;
    default: /* 2: nothing is known, and rows was not written */
        printf("room ran out: no answer\n");
    }
    return (int)verdict;
}

int main(int words, char **word)
{
    size_t length;
    if (words != 2 || !read_text(word[1], &length)) {
        fprintf(stderr, "usage: tie FILE, an .aag file that can be read\n");
        return NO_VERDICT;
    }
    return check(length);
}
