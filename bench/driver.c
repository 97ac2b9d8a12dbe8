/*
 * driver FILE RUNS: the library, called in-process for every output, with a table of 4,096 rows as in the circuit program.
 * Buffers are lent once; the calls clear what they need.
 */
#include "bench.h"
#include "mg.h"

enum { ROWS = 4096, WORK = 25600 };

static uint16_t var[ROWS], then[ROWS], els[ROWS];
static uint64_t work[WORK];
static uint8_t pattern[MAX_VARIABLES];
static size_t rows[MAX_VARIABLES], inputs, outputs;
static char patterns[MAX_VARIABLES][MAX_VARIABLES + 1];

static void all_outputs(const char *text, size_t length, char *verdicts)
{
    const uint8_t *bytes = (const uint8_t *)text;
    if (mg_text(bytes, length, &inputs, &outputs) != 0)
        stop("refused");
    for (size_t k = 0; k < outputs; k++) {
        uint32_t verdict;
        if (mg_circuit(bytes, length, var, ROWS, then, ROWS, els, ROWS, work, WORK, k, pattern, inputs, &verdict,
                       &rows[k]) != 0)
            stop("refused");
        verdicts[k] = (char)('0' + verdict);
        if (verdict == 1)
            for (size_t i = 0; i < inputs; i++)
                patterns[k][i] = (char)('0' + pattern[i]);
    }
}

int main(int words, char **word)
{
    run(words, word, (struct engine){ .work = all_outputs });
    size_t most = 0;
    for (size_t k = 0; k < outputs; k++)
        if (rows[k] > most)
            most = rows[k];
    printf("rows %zu\n", most);
    for (size_t k = 0; k < outputs; k++)
        if (patterns[k][0] != 0)
            printf("pattern %zu %s\n", k, patterns[k]);
    return 0;
}
