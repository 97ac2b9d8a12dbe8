/*
 * console.c - makes the calls of mg.h that cases on standard input ask for, and
 * prints every answer and every lent slice after it.
 *
 * Input, one command a line, words parted by one space:
 *
 *   case NAME             begins a case: nothing lent, N and count 0
 *   n N                   the number of ring variables
 *   var SLICE             the table's slice of variables
 *   then SLICE            its slice of then-parts
 *   else SLICE            its slice of else-parts
 *   count COUNT           the count of rows in use
 *   work SLICE            the working slice
 *   assignment SLICE      the assignment of value and one
 *   pattern SLICE         the pattern buffer of circuit
 *   bytes TEXT            the text: all bytes up to the newline, where \n is a
 *                         newline, \\ a backslash and \xHH the byte HH
 *   pad LENGTH BYTE       brings the text to LENGTH by appending BYTE
 *   call variable V       makes a call with what is lent
 *   call sum F G
 *   call product F G
 *   call value F
 *   call one F
 *   call equation LEAD SYSTEM TAIL
 *   call normal_form P SYSTEM
 *   call circuit OUTPUT
 *   call text
 *   end                   ends the case
 *
 * A SLICE is its length and then its elements. `=V` stands for V in all
 * elements that are left, `*SEED` for garbage in them: the outputs of splitmix64
 * from SEED on, cut to the element's width. Elements not given are 0. Whatever
 * a call leaves in a slice is lent to the next call, and where it gives a new
 * count, that is the count from then on.
 *
 * Output, for each call: its line, ` -> `, the number returned, and all
 * out-parameters, which hold 0xA5A5A5A5 in as many bytes as they have before the
 * call. Then a line for each lent slice: name, length, elements. Above 4,096
 * elements, `#` and the 64-bit FNV-1a hash of all bytes (little-endian) stand
 * before the first 64 elements. `text same` says that the text is as it was.
 * `guard NAME touched` is printed where an element before or behind a slice was
 * written. `end NAME` ends a case.
 */
#include <inttypes.h>
#include <stdio.h>
#include <stdlib.h>
#include <string.h>

#include "mg.h"

/* Lengths above 32 bits are part of the cases. */
typedef char size_t_has_64_bits[sizeof(size_t) == 8 ? 1 : -1];

#define GUARD_BYTES 64
#define GUARD_VALUE 0x5C
#define PRINTED_WHOLE 4096
#define PRINTED_FIRST 64
#define UNWRITTEN 0xA5A5A5A5u

/* A lent slice of elements of 1, 2 or 8 bytes, with guards before and behind. */
struct slice {
    const char *name;
    size_t width;
    size_t length;
    unsigned char *block;
};

static struct slice var_slice = {"var", 2, 0, NULL};
static struct slice then_slice = {"then", 2, 0, NULL};
static struct slice else_slice = {"else", 2, 0, NULL};
static struct slice work_slice = {"work", 8, 0, NULL};
static struct slice assignment_slice = {"assignment", 1, 0, NULL};
static struct slice pattern_slice = {"pattern", 1, 0, NULL};
static struct slice text_slice = {"text", 1, 0, NULL};
static size_t ring_size;
static size_t row_count;

static void fail(const char *what, const char *detail)
{
    fflush(stdout);
    fprintf(stderr, "console: %s: %s\n", what, detail);
    exit(2);
}

static void *allocate(size_t size)
{
    void *memory = malloc(size);
    if (memory == NULL)
        fail("out of memory", "malloc");
    return memory;
}

/* ---- slices ---- */

static void *elements_of(const struct slice *slice)
{
    return slice->block + GUARD_BYTES;
}

static uint64_t element_at(const struct slice *slice, size_t index)
{
    switch (slice->width) {
    case 1:
        return ((uint8_t *)elements_of(slice))[index];
    case 2:
        return ((uint16_t *)elements_of(slice))[index];
    default:
        return ((uint64_t *)elements_of(slice))[index];
    }
}

static void set_element(struct slice *slice, size_t index, uint64_t value)
{
    switch (slice->width) {
    case 1:
        ((uint8_t *)elements_of(slice))[index] = (uint8_t)value;
        break;
    case 2:
        ((uint16_t *)elements_of(slice))[index] = (uint16_t)value;
        break;
    default:
        ((uint64_t *)elements_of(slice))[index] = value;
    }
}

/* A new slice of the given length, all zeros, between fresh guards. */
static void renew(struct slice *slice, size_t length)
{
    size_t size = length * slice->width;
    free(slice->block);
    slice->block = allocate(size + 2 * GUARD_BYTES);
    slice->length = length;
    memset(slice->block, GUARD_VALUE, size + 2 * GUARD_BYTES);
    memset(elements_of(slice), 0, size);
}

static int guards_stand(const struct slice *slice)
{
    const unsigned char *before = slice->block;
    const unsigned char *behind = before + GUARD_BYTES + slice->length * slice->width;
    for (size_t i = 0; i < GUARD_BYTES; i++)
        if (before[i] != GUARD_VALUE || behind[i] != GUARD_VALUE)
            return 0;
    return 1;
}

/* Says where an element before or behind the slice was written. */
static void print_guards(const struct slice *slice)
{
    if (!guards_stand(slice))
        printf("guard %s touched\n", slice->name);
}

static uint64_t hash_of(const struct slice *slice)
{
    uint64_t hash = UINT64_C(0xCBF29CE484222325);
    for (size_t i = 0; i < slice->length; i++)
        for (size_t byte = 0; byte < slice->width; byte++) {
            hash ^= element_at(slice, i) >> (8 * byte) & 0xFF;
            hash *= UINT64_C(0x00000100000001B3);
        }
    return hash;
}

static void print_slice(const struct slice *slice)
{
    size_t shown = slice->length;
    printf("%s %zu", slice->name, slice->length);
    if (slice->length > PRINTED_WHOLE) {
        printf(" #%016" PRIx64, hash_of(slice));
        shown = PRINTED_FIRST;
    }
    for (size_t i = 0; i < shown; i++)
        printf(" %" PRIu64, element_at(slice, i));
    putchar('\n');
    print_guards(slice);
}

static void print_table(void)
{
    print_slice(&var_slice);
    print_slice(&then_slice);
    print_slice(&else_slice);
    print_slice(&work_slice);
}

/* ---- reading ---- */

/* The next line without its newline, in memory of its own; NULL at the end. */
static char *read_line(void)
{
    static char *line;
    static size_t room;
    size_t length = 0;
    int byte = getchar();
    if (byte == EOF)
        return NULL;
    while (byte != '\n' && byte != EOF) {
        if (length + 1 >= room) {
            room = 2 * room + 256;
            line = realloc(line, room);
            if (line == NULL)
                fail("out of memory", "realloc");
        }
        line[length++] = (char)byte;
        byte = getchar();
    }
    if (line == NULL)
        line = allocate(room = 256);
    line[length] = '\0';
    return line;
}

/* The next word, up to a space or the line's end; moves the position behind it. */
static const char *next_word(char **at)
{
    char *word = *at;
    char *end = strchr(word, ' ');
    if (*word == '\0')
        return NULL;
    if (end == NULL) {
        *at = word + strlen(word);
    } else {
        *end = '\0';
        *at = end + 1;
    }
    return word;
}

static uint64_t number_of(const char *word)
{
    char *end;
    unsigned long long value;
    if (word == NULL)
        fail("a number is missing", "");
    value = strtoull(word, &end, 10);
    if (end == word || *end != '\0')
        fail("not a number", word);
    return value;
}

static uint64_t next_number(char **at)
{
    return number_of(next_word(at));
}

static mg_row next_row(char **at)
{
    mg_row row = {(uint16_t)next_number(at)};
    return row;
}

static mg_var next_var(char **at)
{
    mg_var variable = {(uint16_t)next_number(at)};
    return variable;
}

static uint64_t next_garbage(uint64_t *state)
{
    uint64_t z = *state += UINT64_C(0x9E3779B97F4A7C15);
    z = (z ^ z >> 30) * UINT64_C(0xBF58476D1CE4E5B9);
    z = (z ^ z >> 27) * UINT64_C(0x94D049BB133111EB);
    return z ^ z >> 31;
}

/* Fills a slice from the words that describe it. */
static void read_slice(struct slice *slice, char **at)
{
    const char *word;
    size_t index = 0;
    renew(slice, next_number(at));
    while ((word = next_word(at)) != NULL) {
        if (*word == '=') {
            uint64_t value = number_of(word + 1);
            while (index < slice->length)
                set_element(slice, index++, value);
        } else if (*word == '*') {
            uint64_t state = number_of(word + 1);
            while (index < slice->length)
                set_element(slice, index++, next_garbage(&state));
        } else if (index < slice->length) {
            set_element(slice, index++, number_of(word));
        }
    }
}

static int hex_digit(char digit)
{
    const char *digits = "0123456789abcdef";
    const char *found = digit == '\0' ? NULL : strchr(digits, digit);
    if (found == NULL)
        fail("not a hexadecimal digit", "bytes");
    return (int)(found - digits);
}

/* One byte of a text, escaped or not; moves the position behind it. */
static uint8_t next_byte(const char **at)
{
    const char *from = *at;
    *at = from + 1;
    if (*from != '\\')
        return (uint8_t)*from;
    *at = from + 2;
    if (from[1] == 'n')
        return '\n';
    if (from[1] == '\\')
        return '\\';
    if (from[1] != 'x')
        fail("not an escape", from);
    *at = from + 4;
    return (uint8_t)(16 * hex_digit(from[2]) + hex_digit(from[3]));
}

static void read_bytes(const char *at)
{
    uint8_t *bytes = allocate(strlen(at) + 1);
    size_t length = 0;
    while (*at != '\0')
        bytes[length++] = next_byte(&at);
    renew(&text_slice, length);
    memcpy(elements_of(&text_slice), bytes, length);
    free(bytes);
}

static void pad_text(size_t length, uint8_t byte)
{
    size_t kept = text_slice.length < length ? text_slice.length : length;
    uint8_t *copy = allocate(length + 1);
    memcpy(copy, elements_of(&text_slice), kept);
    memset(copy + kept, byte, length - kept);
    renew(&text_slice, length);
    memcpy(elements_of(&text_slice), copy, length);
    free(copy);
}

/* ---- calls ---- */

/* The parameters that every call on a table begins with. */
#define TABLE                                                                                     \
    ring_size, elements_of(&var_slice), var_slice.length, elements_of(&then_slice),               \
        then_slice.length, elements_of(&else_slice), else_slice.length, row_count,                \
        elements_of(&work_slice), work_slice.length

/* Prints the answer of a call that may append, and takes over the new count. */
static void print_appended(uint32_t answer, mg_row row, size_t new_count)
{
    printf(" -> %" PRIu32 " row=%u count=%zu\n", answer, (unsigned)row.number, new_count);
    print_table();
    if (answer == 0)
        row_count = new_count;
}

static void call_variable(char *at)
{
    mg_row row = {(uint16_t)UNWRITTEN};
    size_t new_count = UNWRITTEN;
    mg_var v = next_var(&at);
    uint32_t answer = mg_variable(TABLE, v, &row, &new_count);
    print_appended(answer, row, new_count);
}

/* A call on two numbers that may append: sum, product, normal form. */
typedef uint32_t on_two(size_t n, uint16_t *var, size_t var_length, uint16_t *then,
                        size_t then_length, uint16_t *els, size_t els_length, size_t count,
                        uint64_t *work, size_t work_length, mg_row first, mg_row second,
                        mg_row *row, size_t *new_count);

static void call_on_two(on_two *call, char *at)
{
    mg_row row = {(uint16_t)UNWRITTEN};
    size_t new_count = UNWRITTEN;
    mg_row first = next_row(&at);
    mg_row second = next_row(&at);
    uint32_t answer = call(TABLE, first, second, &row, &new_count);
    print_appended(answer, row, new_count);
}

static void call_sum(char *at)
{
    call_on_two(mg_sum, at);
}

static void call_product(char *at)
{
    call_on_two(mg_product, at);
}

static void call_normal_form(char *at)
{
    call_on_two(mg_normal_form, at);
}

static void call_equation(char *at)
{
    mg_row row = {(uint16_t)UNWRITTEN};
    size_t new_count = UNWRITTEN;
    mg_var lead = next_var(&at);
    mg_row system = next_row(&at);
    mg_row tail = next_row(&at);
    uint32_t answer = mg_equation(TABLE, lead, system, tail, &row, &new_count);
    print_appended(answer, row, new_count);
}

static void call_value(char *at)
{
    uint8_t value = (uint8_t)UNWRITTEN;
    mg_row f = next_row(&at);
    uint32_t answer = mg_value(TABLE, f, elements_of(&assignment_slice), assignment_slice.length,
                               &value);
    printf(" -> %" PRIu32 " value=%u\n", answer, (unsigned)value);
    print_table();
    print_slice(&assignment_slice);
}

static void call_one(char *at)
{
    mg_row f = next_row(&at);
    uint32_t answer = mg_one(TABLE, f, elements_of(&assignment_slice), assignment_slice.length);
    printf(" -> %" PRIu32 "\n", answer);
    print_table();
    print_slice(&assignment_slice);
}

/* A copy of the text, to tell afterwards whether a call wrote to it. */
static uint8_t *copy_text(void)
{
    uint8_t *copy = allocate(text_slice.length + 1);
    memcpy(copy, elements_of(&text_slice), text_slice.length);
    return copy;
}

static void print_text(uint8_t *copy)
{
    int same = memcmp(copy, elements_of(&text_slice), text_slice.length) == 0;
    printf("text %s\n", same ? "same" : "changed");
    print_guards(&text_slice);
    free(copy);
}

static void call_circuit(char *at)
{
    uint32_t verdict = UNWRITTEN;
    size_t rows = UNWRITTEN;
    size_t output = next_number(&at);
    uint8_t *copy = copy_text();
    uint32_t answer =
        mg_circuit(elements_of(&text_slice), text_slice.length, elements_of(&var_slice),
                   var_slice.length, elements_of(&then_slice), then_slice.length,
                   elements_of(&else_slice), else_slice.length, elements_of(&work_slice),
                   work_slice.length, output, elements_of(&pattern_slice), pattern_slice.length,
                   &verdict, &rows);
    printf(" -> %" PRIu32 " verdict=%" PRIu32 " rows=%zu\n", answer, verdict, rows);
    print_table();
    print_slice(&pattern_slice);
    print_text(copy);
}

static void call_text(char *at)
{
    size_t inputs = UNWRITTEN;
    size_t outputs = UNWRITTEN;
    uint8_t *copy = copy_text();
    uint32_t answer = mg_text(elements_of(&text_slice), text_slice.length, &inputs, &outputs);
    (void)at;
    printf(" -> %" PRIu32 " inputs=%zu outputs=%zu\n", answer, inputs, outputs);
    print_text(copy);
}

static const struct {
    const char *name;
    void (*make)(char *at);
} calls[] = {
    {"variable", call_variable}, {"sum", call_sum},           {"product", call_product},
    {"value", call_value},       {"one", call_one},           {"equation", call_equation},
    {"normal_form", call_normal_form}, {"circuit", call_circuit}, {"text", call_text},
};

static void make_call(char *at)
{
    const char *name;
    printf("call %s", at);
    name = next_word(&at);
    for (size_t i = 0; name != NULL && i < sizeof calls / sizeof calls[0]; i++)
        if (strcmp(name, calls[i].name) == 0) {
            calls[i].make(at);
            return;
        }
    fail("no such call", name == NULL ? "" : name);
}

/* ---- cases ---- */

/* The slices that a case lends by their names; the text has commands of its own. */
static struct slice *const slices[] = {
    &var_slice, &then_slice, &else_slice, &work_slice, &assignment_slice, &pattern_slice,
};

static struct slice *slice_named(const char *name)
{
    for (size_t i = 0; i < sizeof slices / sizeof slices[0]; i++)
        if (strcmp(name, slices[i]->name) == 0)
            return slices[i];
    return NULL;
}

static void begin_case(void)
{
    for (size_t i = 0; i < sizeof slices / sizeof slices[0]; i++)
        renew(slices[i], 0);
    renew(&text_slice, 0);
    ring_size = 0;
    row_count = 0;
}

static void obey(char *line, char *case_name, size_t name_room)
{
    char *at = line;
    const char *command = next_word(&at);
    struct slice *slice = command == NULL ? NULL : slice_named(command);
    if (command == NULL) {
        fail("empty line", "");
    } else if (slice != NULL) {
        read_slice(slice, &at);
    } else if (strcmp(command, "case") == 0) {
        begin_case();
        snprintf(case_name, name_room, "%s", at);
    } else if (strcmp(command, "n") == 0) {
        ring_size = next_number(&at);
    } else if (strcmp(command, "count") == 0) {
        row_count = next_number(&at);
    } else if (strcmp(command, "bytes") == 0) {
        read_bytes(at);
    } else if (strcmp(command, "pad") == 0) {
        size_t length = next_number(&at);
        pad_text(length, (uint8_t)next_number(&at));
    } else if (strcmp(command, "call") == 0) {
        make_call(at);
    } else if (strcmp(command, "end") == 0) {
        printf("end %s\n", case_name);
        fflush(stdout);
    } else {
        fail("no such command", command);
    }
}

int main(void)
{
    char case_name[100] = "";
    char *line;
    begin_case();
    while ((line = read_line()) != NULL)
        obey(line, case_name, sizeof case_name);
    if (fflush(stdout) != 0 || ferror(stdout))
        fail("cannot write", "standard output");
    return 0;
}
