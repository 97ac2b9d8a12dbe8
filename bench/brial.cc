/*
 * brial FILE RUNS: BRiAl (PolyBoRi) on the same equations, x_v + right0 * right1 for every gate, in the same lexicographic
 * order (variable v is ring variable M - v), with its own normal form against a system with linear leads. A ring is made anew for
 * every run, so that nothing is remembered from the run before; within a run all outputs share it. Making it is not counted.
 */
#include <memory>
#include <polybori.h>
#include <polybori/groebner/groebner_alg.h>

#include "bench.h"

using namespace polybori;

static struct net net;
static std::unique_ptr<BoolePolyRing> ring;

static BoolePolynomial literal(unsigned literal)
{
    BoolePolynomial value(ring->zero());
    if (literal > 1)
        value = BooleVariable(net.variables - literal / 2, *ring);
    if (literal % 2 == 1)
        value += ring->one();
    return value;
}

static void begin(const char *text)
{
    parse(text, &net);
    ring.reset(new BoolePolyRing(net.variables, CTypes::lp));
}

static void work(const char *text, size_t, char *verdicts)
{
    parse(text, &net);
    BooleSet system(ring->one());
    for (unsigned k = 0; k < net.gates; k++) {
        const gate &gate = net.gate[k];
        BoolePolynomial tail = literal(gate.right0) * literal(gate.right1);
        system = BooleSet(net.variables - gate.left / 2, system, tail.set());
    }
    for (unsigned k = 0; k < net.outputs; k++)
        verdicts[k] = groebner::ll_red_nf_noredsb(literal(net.output[k]), system).isZero() ? '0' : '1';
}

static void end()
{
    ring.reset();
}

int main(int words, char **word)
{
    run(words, word, engine{begin, work, end});
    return 0;
}
