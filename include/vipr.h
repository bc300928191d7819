/* Reads and verifies certificates in the format VIPR 1.0.
 *
 * vipr_read_value, vipr_read_certificate and vipr_verify return one of these numbers:
 *
 *     VIPR_OK   0   the value was read; the certificate was read; the certificate is verified
 *               1   a table is too small
 *               2   text over 32,768 bytes
 *               3   text ends, a token is due
 *               4   token not of the kind due
 *               5   count or index out of range
 *               6   index twice in one list, or constraint name used before
 *               7   value too wide
 *               8   a token after the last derivation
 *               9   solution not integral or not feasible
 *              10   no solution reaches the claim
 *              11   reason names a spent row
 *              12   product or sum too wide
 *              13   multipliers not suitable
 *              14   cannot be rounded
 *              15   no domination
 *              16   no proper split
 *              17   claim not proved
 *              18   sol with no solution listed
 *
 * Tables are lent by the caller, whatever stands in them: an index table, a value table (numerator, denominator by turns) and a
 * row table (4 cells for each row), with at least VIPR_INDEX_CELLS, VIPR_VALUE_CELLS and VIPR_ROW_CELLS cells. After 1 and 2 they
 * are untouched, after 3 to 8 all zero; after 9 to 18 and after VIPR_OK they hold the certificate that was read, and every other
 * cell is 0.
 *
 * line is 0 after VIPR_OK, 1 and 2; else it is the line of the refusal, counted from 1, at most 32,769.
 *
 * A text or a token is any bytes, of any length, and need not end in a zero byte. Each pointer is not null and points to as many
 * elements as are said beside it, or to one. What is written to (tables, line, num, den) shares no memory with anything else that
 * is passed.
 *
 * The functions keep no state, allocate nothing and call nothing but memcpy and memset. That they do what is said here for every
 * text and all tables is proved: crates/vipr_c/src/lib.rt has the contracts, crates/vipr_c/specs and the specs of the crates below
 * the definitions that they cite.
 */
#ifndef VIPR_H
#define VIPR_H

#include <stddef.h>
#include <stdint.h>

#ifdef __cplusplus
extern "C" {
#endif

#define VIPR_OK 0

#define VIPR_INDEX_CELLS 16384
#define VIPR_VALUE_CELLS 16384
#define VIPR_ROW_CELLS 4352

/* num/den = the value that a token spells, in lowest terms, den > 0. Returns 0, 4 or 7; with 4 and 7 nothing is stored.
 * A value is an optional `-` and digits; then nothing, or `.` and digits, or `/` and digits not all zero. A whole or decimal value
 * may end in `E` or `e`, an optional sign and digits. Anything else is 4. 7 if in lowest terms num or den is above 2,147,483,647,
 * or more than 18 digits count; with an exponent also if the power of ten that its digits without the zeros on both sides are
 * multiplied by is outside -18 to 18. */
uint8_t vipr_read_value(const uint8_t *token, size_t length, int32_t *num, int32_t *den);

/* Reads a text into the tables. Returns 0 or 1 to 8. */
uint8_t vipr_read_certificate(const uint8_t *text, size_t length, uint16_t *index, size_t index_cells, int32_t *values,
                              size_t value_cells, uint16_t *rows, size_t row_cells, uint32_t *line);

/* Reads a text into the tables and checks what was read. Returns 0, where it is verified, or 1 to 18.
 *
 * Where 0 is returned, the text spells one certificate, and of the problem that it states: each listed solution is a feasible
 * point; with infeas there is no feasible point; with range and min none has an objective below a finite lb, and a listed solution
 * has one of at most a finite ub; with range and max none has one above a finite ub, and a listed solution has one of at least a
 * finite lb. (docs/SENTENCE.md.) */
uint8_t vipr_verify(const uint8_t *text, size_t length, uint16_t *index, size_t index_cells, int32_t *values,
                    size_t value_cells, uint16_t *rows, size_t row_cells, uint32_t *line);

/* The number of bytes of the token that begins at text[place], 0 where none does. Any place may be passed. */
size_t vipr_show_token(const uint8_t *text, size_t length, size_t place);

#ifdef __cplusplus
}
#endif

#endif
