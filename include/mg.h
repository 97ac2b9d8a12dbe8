/*
 * mg.h - the calls of Mullagrane, as C sees them.
 *
 * Every call returns 0 where it was answered, else the number of its refusal.
 * Checks are made in the order in which a call's refusals are listed below, and
 * the first that applies is given.
 *
 * A table is three lent slices (variable, then, else) of one length R, 0 to
 * 8,192, and the count of rows in use. Row k, from 0, has number k + 2 and means
 * x_v * t + e; numbers 0 and 1 are the constants. N ring variables, 0 to 1,024,
 * have indices 0 to N - 1.
 *
 * The working slice may have any length, also 0, and hold anything. It is all
 * zeros after every call that takes one, refused or not, and no answer depends
 * on it.
 *
 * A pointer must be valid for the length that follows it, and is not null even
 * where that length is 0. Lent slices and out-parameters do not overlap. Where
 * a call is refused, out-parameters keep what they held.
 *
 * Calls nest as deep as the ring has variables; 1 MB of stack is enough.
 *
 * The refusals:
 *    1  N, lengths or count out of range; assignment length not N
 *    2  table not sound
 *    3  a number isn't 0, 1 or a row in use
 *    8  an assignment byte isn't 0 or 1 (mg_value only)
 *    4  system number is 0
 *    5  lead or tail out of order, or a lead or asked variable not below N
 *    6  find a one of 0
 *    7  room has run out by the written steps
 *    9  text longer than 32,768 bytes
 *   10  text not of the line form
 *   11  M or O above 1,024, L not 0, or I + A above M
 *   12  a literal out of range, odd, undefined or defined twice
 *   13  gate order broken
 *   14  no such output
 *   15  pattern buffer not of length I
 */
#ifndef MG_H
#define MG_H

#include <stddef.h>
#include <stdint.h>

#ifdef __cplusplus
extern "C" {
#endif

/* The number of a polynomial or of a system: 0, 1 or a row's. */
typedef struct {
    uint16_t number;
} mg_row;

/* A ring variable's index. */
typedef struct {
    uint16_t index;
} mg_var;

/*
 * In the library numbers and variables are plain 16-bit parameters. The calls
 * are declared so first; behind each stands the one that programs use, under
 * the same name, which takes mg_row and mg_var and so keeps them apart.
 */

/*
 * The variable x_v: finds or appends the row (v, 1, 0), and gives its number
 * and the new count of rows in use.
 *
 * Refusals: 1, 2, 5 (v not below N), 7.
 * Refusals 1, 2 and 5 write nothing but the working slice. Refusal 7 keeps the
 * rows in use and zeros all free rows. Success changes no row in use at entry
 * and no row that is still free.
 */
uint32_t mg_variable(size_t n, uint16_t *var, size_t var_length, uint16_t *then, size_t then_length,
                     uint16_t *els, size_t els_length, size_t count, uint64_t *work,
                     size_t work_length, uint16_t v, uint16_t *row, size_t *new_count);

static inline uint32_t mg_typed_variable(size_t n, uint16_t *var, size_t var_length, uint16_t *then,
                                         size_t then_length, uint16_t *els, size_t els_length,
                                         size_t count, uint64_t *work, size_t work_length, mg_var v,
                                         mg_row *row, size_t *new_count)
{
    return mg_variable(n, var, var_length, then, then_length, els, els_length, count, work,
                       work_length, v.index, &row->number, new_count);
}
#define mg_variable mg_typed_variable

/*
 * The sum f + g: its number and the new count of rows in use.
 *
 * Refusals: 1, 2, 3 (f or g), 7; what they write is as for mg_variable.
 */
uint32_t mg_sum(size_t n, uint16_t *var, size_t var_length, uint16_t *then, size_t then_length,
                uint16_t *els, size_t els_length, size_t count, uint64_t *work, size_t work_length,
                uint16_t f, uint16_t g, uint16_t *row, size_t *new_count);

static inline uint32_t mg_typed_sum(size_t n, uint16_t *var, size_t var_length, uint16_t *then,
                                    size_t then_length, uint16_t *els, size_t els_length,
                                    size_t count, uint64_t *work, size_t work_length, mg_row f,
                                    mg_row g, mg_row *row, size_t *new_count)
{
    return mg_sum(n, var, var_length, then, then_length, els, els_length, count, work, work_length,
                  f.number, g.number, &row->number, new_count);
}
#define mg_sum mg_typed_sum

/*
 * The product f * g: its number and the new count of rows in use. f * g and
 * g * f have the same number but may append different rows on the way.
 *
 * Refusals: 1, 2, 3 (f or g), 7; what they write is as for mg_variable.
 */
uint32_t mg_product(size_t n, uint16_t *var, size_t var_length, uint16_t *then, size_t then_length,
                    uint16_t *els, size_t els_length, size_t count, uint64_t *work,
                    size_t work_length, uint16_t f, uint16_t g, uint16_t *row, size_t *new_count);

static inline uint32_t mg_typed_product(size_t n, uint16_t *var, size_t var_length, uint16_t *then,
                                        size_t then_length, uint16_t *els, size_t els_length,
                                        size_t count, uint64_t *work, size_t work_length, mg_row f,
                                        mg_row g, mg_row *row, size_t *new_count)
{
    return mg_product(n, var, var_length, then, then_length, els, els_length, count, work,
                      work_length, f.number, g.number, &row->number, new_count);
}
#define mg_product mg_typed_product

/*
 * The value of f, 0 or 1, at an assignment of N bytes, byte i for x_i.
 *
 * Refusals: 1 (also where the assignment's length is not N), 2, 3 (f), 8.
 * Nothing but the working slice and the value is written.
 */
uint32_t mg_value(size_t n, const uint16_t *var, size_t var_length, const uint16_t *then,
                  size_t then_length, const uint16_t *els, size_t els_length, size_t count,
                  uint64_t *work, size_t work_length, uint16_t f, const uint8_t *assignment,
                  size_t assignment_length, uint8_t *value);

static inline uint32_t mg_typed_value(size_t n, const uint16_t *var, size_t var_length,
                                      const uint16_t *then, size_t then_length, const uint16_t *els,
                                      size_t els_length, size_t count, uint64_t *work,
                                      size_t work_length, mg_row f, const uint8_t *assignment,
                                      size_t assignment_length, uint8_t *value)
{
    return mg_value(n, var, var_length, then, then_length, els, els_length, count, work,
                    work_length, f.number, assignment, assignment_length, value);
}
#define mg_value mg_typed_value

/*
 * Writes the least assignment, reading x_0 first, at which f is 1: N bytes,
 * each 0 or 1.
 *
 * Refusals: 1 (also where the assignment's length is not N), 2, 3 (f), 6 (f is
 * 0). A refusal leaves the assignment as it was.
 */
uint32_t mg_one(size_t n, const uint16_t *var, size_t var_length, const uint16_t *then,
                size_t then_length, const uint16_t *els, size_t els_length, size_t count,
                uint64_t *work, size_t work_length, uint16_t f, uint8_t *assignment,
                size_t assignment_length);

static inline uint32_t mg_typed_one(size_t n, const uint16_t *var, size_t var_length,
                                    const uint16_t *then, size_t then_length, const uint16_t *els,
                                    size_t els_length, size_t count, uint64_t *work,
                                    size_t work_length, mg_row f, uint8_t *assignment,
                                    size_t assignment_length)
{
    return mg_one(n, var, var_length, then, then_length, els, els_length, count, work, work_length,
                  f.number, assignment, assignment_length);
}
#define mg_one mg_typed_one

/*
 * The system with the equation x_lead + tail = 0 added, which is the row
 * (lead, system, tail): its number and the new count of rows in use. 1 is the
 * system without equations.
 *
 * Refusals: 1, 2, 3 (system or tail), 4, 5 (lead not below N, or the root of
 * system or of tail not greater in index than lead), 7; what they write is as
 * for mg_variable.
 */
uint32_t mg_equation(size_t n, uint16_t *var, size_t var_length, uint16_t *then, size_t then_length,
                     uint16_t *els, size_t els_length, size_t count, uint64_t *work,
                     size_t work_length, uint16_t lead, uint16_t system, uint16_t tail,
                     uint16_t *row, size_t *new_count);

static inline uint32_t mg_typed_equation(size_t n, uint16_t *var, size_t var_length, uint16_t *then,
                                         size_t then_length, uint16_t *els, size_t els_length,
                                         size_t count, uint64_t *work, size_t work_length,
                                         mg_var lead, mg_row system, mg_row tail, mg_row *row,
                                         size_t *new_count)
{
    return mg_equation(n, var, var_length, then, then_length, els, els_length, count, work,
                       work_length, lead.index, system.number, tail.number, &row->number,
                       new_count);
}
#define mg_equation mg_typed_equation

/*
 * The normal form of p by a system: its number and the new count of rows in
 * use. No lead of the system remains in it.
 *
 * Refusals: 1, 2, 3 (p or system), 4, 7; what they write is as for mg_variable.
 */
uint32_t mg_normal_form(size_t n, uint16_t *var, size_t var_length, uint16_t *then,
                        size_t then_length, uint16_t *els, size_t els_length, size_t count,
                        uint64_t *work, size_t work_length, uint16_t p, uint16_t system,
                        uint16_t *row, size_t *new_count);

static inline uint32_t mg_typed_normal_form(size_t n, uint16_t *var, size_t var_length,
                                            uint16_t *then, size_t then_length, uint16_t *els,
                                            size_t els_length, size_t count, uint64_t *work,
                                            size_t work_length, mg_row p, mg_row system,
                                            mg_row *row, size_t *new_count)
{
    return mg_normal_form(n, var, var_length, then, then_length, els, els_length, count, work,
                          work_length, p.number, system.number, &row->number, new_count);
}
#define mg_normal_form mg_typed_normal_form

/*
 * The verdict for one output, numbered from 0, of a circuit in ASCII AIGER.
 *
 *   0  the output is 0 at every pattern
 *   1  it is 1 at the least pattern, reading the highest-numbered input variable
 *      first; the pattern is written, a byte for each input in file order
 *   2  room ran out by the written steps; all rows are zero
 *
 * Verdicts 0 and 1 give the count of rows made, which stand from row 0 on; the
 * rows behind them are untouched. Verdict 2 does not write *rows. Only verdict
 * 1 writes the pattern.
 *
 * Refusals: 1 (table lengths), 9, 10 and 11 for the header, then line by line
 * 10, 12 and 13, then 12 for the outputs, 14, 15. They touch neither rows nor
 * pattern.
 */
uint32_t mg_circuit(const uint8_t *text, size_t text_length, uint16_t *var, size_t var_length,
                    uint16_t *then, size_t then_length, uint16_t *els, size_t els_length,
                    uint64_t *work, size_t work_length, size_t output, uint8_t *pattern,
                    size_t pattern_length, uint32_t *verdict, size_t *rows);

/*
 * The numbers of inputs and of outputs of a circuit in ASCII AIGER.
 *
 * Refusals: 9, 10 and 11 for the header, then line by line 10, 12 and 13, then
 * 12 for the outputs.
 */
uint32_t mg_text(const uint8_t *text, size_t text_length, size_t *inputs, size_t *outputs);

#ifdef __cplusplus
}
#endif

#endif
