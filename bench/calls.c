/*
 * calls CALL VARIABLES POLYNOMIALS RUNS: one public call, again and again, on a table of 8,192 rows that has so many polynomials in so
 * many variables. Their coefficients are drawn at random, so that they have about as many rows as polynomials can have.
 *
 *   nothing        the sum of 0 and 0
 *   sum, product   of the first two polynomials
 *   normal         the normal form of a further polynomial in as many other variables as there are polynomials: these are the leads of
 *                  the system, and the polynomials are their tails
 *
 * Prints the rows in use before and after the call, and its best time.
 */
#include "bench.h"
#include "mg.h"
#include <string.h>

enum { ROWS = 8192, WORK = 25600, PARTS = 1 << 16 };

typedef uint32_t call(size_t, uint16_t *, size_t, uint16_t *, size_t, uint16_t *, size_t, size_t, uint64_t *, size_t, mg_row, mg_row,
                      mg_row *, size_t *);

static uint16_t var[ROWS], then[ROWS], els[ROWS];
static uint64_t work[WORK];
static size_t variables, count, new_count;
static call *asked;
static mg_row f, g;

/* The same on every machine. */
static uint16_t random_bit(void)
{
    static uint64_t state = 1;
    state = state * 6364136223846793005u + 1442695040888963407u;
    return (uint16_t)(state >> 63);
}

static uint16_t append(size_t v, uint16_t t, uint16_t e)
{
    if (count == ROWS)
        stop("too many rows");
    var[count] = (uint16_t)v;
    then[count] = t;
    els[count] = e;
    return (uint16_t)(count++ + 2);
}

/* The number of x_v * t + e. All rows of x_v stand from `level` on. */
static uint16_t make(size_t level, size_t v, uint16_t t, uint16_t e)
{
    if (t == 0)
        return e;
    for (size_t k = level; k < count; k++)
        if (then[k] == t && els[k] == e)
            return (uint16_t)(k + 2);
    return append(v, t, e);
}

/* Random polynomials in the variables from `first` to before `end`: from the coefficients up, all rows of a variable together. */
static void polynomials(size_t first, size_t end, size_t many, uint16_t *number)
{
    static uint16_t part[PARTS];
    size_t parts = many << (end - first);
    if (many == 0 || parts > PARTS)
        stop("not so many coefficients");
    for (size_t k = 0; k < parts; k++)
        part[k] = random_bit();
    for (size_t v = end; v-- > first;) {
        size_t level = count;
        parts /= 2;
        for (size_t k = 0; k < parts; k++)
            part[k] = make(level, v, part[2 * k], part[2 * k + 1]);
    }
    memcpy(number, part, many * sizeof *part);
}

static void prepare(const char *name, size_t wide, size_t many)
{
    static uint16_t number[PARTS];
    size_t leads = strcmp(name, "normal") == 0 ? many : 0;
    variables = leads + wide;
    polynomials(leads, variables, many, number);
    if (leads > 0) {
        asked = mg_normal_form;
        g.number = 1;
        for (size_t lead = leads; lead-- > 0;)
            g.number = append(lead, g.number, number[lead]);
        polynomials(0, leads, 1, &f.number);
        return;
    }
    asked = strcmp(name, "product") == 0 ? mg_product : mg_sum;
    if (strcmp(name, "nothing") != 0) {
        f.number = number[0];
        g.number = number[1];
    }
}

static void work_once(const char *text, size_t length, char *verdicts)
{
    (void)text, (void)length, (void)verdicts;
    mg_row made;
    if (asked(variables, var, ROWS, then, ROWS, els, ROWS, count, work, WORK, f, g, &made, &new_count) != 0)
        stop("refused");
}

int main(int words, char **word)
{
    if (words != 5)
        stop("usage: calls CALL VARIABLES POLYNOMIALS RUNS");
    prepare(word[1], (size_t)atol(word[2]), (size_t)atol(word[3]));
    double took = best_time(atol(word[4]), (struct engine){ .work = work_once }, "", 0, 0);
    printf("before %zu\nafter %zu\nmicroseconds %.2f\n", count, new_count, took);
    return 0;
}
