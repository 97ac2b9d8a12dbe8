/*
 * plain FILE RUNS: evaluates the circuit at all patterns, 64 at a time, and stops for an output at its first one. Patterns are
 * counted with the highest-numbered input as the most significant bit, so that the first one is the least pattern.
 */
#include "bench.h"

enum { MAX_INPUTS = 24 };

static struct net net;
static int place[MAX_VARIABLES]; /* of each input, in file order, in a pattern's number */
static long long least[MAX_VARIABLES]; /* for each output, -1 where no pattern was found */
static uint64_t value[2 * MAX_VARIABLES + 2]; /* of each literal at 64 patterns */

static void define(unsigned literal, uint64_t bits)
{
    value[literal] = bits;
    value[literal + 1] = ~bits;
}

static void define_inputs(long long first)
{
    static const uint64_t low[6] = { 0xaaaaaaaaaaaaaaaa, 0xcccccccccccccccc, 0xf0f0f0f0f0f0f0f0,
                                     0xff00ff00ff00ff00, 0xffff0000ffff0000, 0xffffffff00000000 };
    for (unsigned k = 0; k < net.inputs; k++)
        define(net.input[k], place[k] < 6 ? low[place[k]] : -(uint64_t)(first >> place[k] & 1));
}

static void prepare(void)
{
    if (net.inputs > MAX_INPUTS)
        stop("too many inputs");
    for (unsigned k = 0; k < net.inputs; k++) {
        place[k] = 0;
        for (unsigned other = 0; other < net.inputs; other++)
            place[k] += net.input[other] < net.input[k];
    }
    for (unsigned k = 0; k < net.outputs; k++)
        least[k] = -1;
    define(0, 0);
}

static void work(const char *text, size_t length, char *verdicts)
{
    (void)length;
    parse(text, &net);
    prepare();
    long long patterns = 1LL << net.inputs;
    uint64_t real = patterns < 64 ? ((uint64_t)1 << patterns) - 1 : ~(uint64_t)0;
    unsigned open = net.outputs;
    for (long long first = 0; first < patterns && open > 0; first += 64) {
        define_inputs(first);
        for (unsigned k = 0; k < net.gates; k++)
            define(net.gate[k].left, value[net.gate[k].right0] & value[net.gate[k].right1]);
        for (unsigned k = 0; k < net.outputs; k++) {
            uint64_t ones = value[net.output[k]] & real;
            if (ones != 0 && least[k] < 0) {
                least[k] = first + __builtin_ctzll(ones);
                open--;
            }
        }
    }
    for (unsigned k = 0; k < net.outputs; k++)
        verdicts[k] = least[k] < 0 ? '0' : '1';
}

int main(int words, char **word)
{
    run(words, word, (struct engine){ .work = work });
    for (unsigned k = 0; k < net.outputs; k++) {
        if (least[k] < 0)
            continue;
        printf("pattern %u ", k);
        for (unsigned i = 0; i < net.inputs; i++)
            putchar('0' + (int)(least[k] >> place[i] & 1));
        putchar('\n');
    }
    return 0;
}
