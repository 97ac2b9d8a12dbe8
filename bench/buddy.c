/*
 * buddy FILE RUNS: BuDDy builds the decision diagram of every gate, the highest-numbered input on top as in Mullagrane's order, and
 * tests each output against 0. Its tables are made anew for every run, which is not counted.
 */
#include <bdd.h>

#include "bench.h"

/* About as many nodes as Mullagrane has rows; the tables grow where that is not enough. */
enum { NODES = 5000, CACHE = 2000 };

static struct net net;
static BDD value[MAX_VARIABLES + 1];

static BDD literal(unsigned literal)
{
    BDD positive = literal < 2 ? bddfalse : value[literal / 2];
    return literal % 2 ? bdd_not(positive) : positive;
}

static void begin(const char *text)
{
    parse(text, &net);
    bdd_init(NODES, CACHE);
    bdd_setmaxincrease(1 << 22);
    bdd_setcacheratio(4);
    bdd_gbc_hook(NULL);
    bdd_resize_hook(NULL);
    bdd_setvarnum((int)net.inputs);
}

/* How many inputs have a higher number. */
static int level(unsigned input)
{
    int above = 0;
    for (unsigned k = 0; k < net.inputs; k++)
        above += net.input[k] > input;
    return above;
}

static void work(const char *text, size_t length, char *verdicts)
{
    (void)length;
    parse(text, &net);
    for (unsigned k = 0; k < net.inputs; k++)
        value[net.input[k] / 2] = bdd_ithvar(level(net.input[k]));
    for (unsigned k = 0; k < net.gates; k++) {
        struct gate gate = net.gate[k];
        BDD right0 = bdd_addref(literal(gate.right0));
        BDD right1 = bdd_addref(literal(gate.right1));
        value[gate.left / 2] = bdd_addref(bdd_and(right0, right1));
        bdd_delref(right0);
        bdd_delref(right1);
    }
    for (unsigned k = 0; k < net.outputs; k++)
        verdicts[k] = literal(net.output[k]) == bddfalse ? '0' : '1';
}

int main(int words, char **word)
{
    run(words, word, (struct engine){ begin, work, bdd_done });
    return 0;
}
