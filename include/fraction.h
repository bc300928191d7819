/* Exact arithmetic on fractions within a limit: product, sum, comparison, floor, ceiling.
 *
 * A fraction is a numerator num and a denominator den, in lowest terms: den > 0, the magnitudes of both are at most
 * 2,147,483,647, and no whole number but 1 divides both. 0 is 0/1. Every int32_t may be passed as an operand.
 *
 * Each function returns one of these numbers:
 *
 *     FRACTION_OK               0   the result is stored where the pointers point
 *     FRACTION_NOT_A_FRACTION   4   an operand is no fraction: 2/4, 0/5, a denominator of 0 or below, a numerator of
 *                                   -2147483648
 *     FRACTION_TOO_WIDE        12   the operands are fractions, and no fraction equals their product or sum: in lowest terms
 *                                   the magnitude of its numerator, or its denominator, is above 2,147,483,647
 *
 * 4 is tested before 12. Only products and sums give 12. With 4 and 12 nothing is stored: what the pointers point to is
 * unchanged. A result is a fraction again, so it can be passed on as it is.
 *
 * A pointer must point to an int32_t that may be written, and num and den to two different ones. Operands are passed by value,
 * so a result may be stored over an operand: fraction_sum(x.num, x.den, y.num, y.den, &x.num, &x.den).
 *
 * The functions keep no state, allocate nothing and call nothing. That they do what is said here for every operand is proved:
 * crates/fraction_c/src/lib.rt has the contracts, crates/fraction_c/specs what is returned and stored, and
 * crates/arithmetic/specs the operations (Fraction.antt) and what is proved of their meaning (Meaning.antt).
 */
#ifndef FRACTION_H
#define FRACTION_H

#include <stdint.h>

#ifdef __cplusplus
extern "C" {
#endif

#define FRACTION_OK 0
#define FRACTION_NOT_A_FRACTION 4
#define FRACTION_TOO_WIDE 12

/* num/den = a_num/a_den * b_num/b_den, exactly, in lowest terms. Returns 0, 4 or 12. */
uint8_t fraction_product(int32_t a_num, int32_t a_den, int32_t b_num, int32_t b_den, int32_t *num, int32_t *den);

/* num/den = a_num/a_den + b_num/b_den, exactly, in lowest terms. Returns 0, 4 or 12. */
uint8_t fraction_sum(int32_t a_num, int32_t a_den, int32_t b_num, int32_t b_den, int32_t *num, int32_t *den);

/* order = -1 if a_num/a_den < b_num/b_den, 0 if they are equal, 1 if it is greater. Returns 0 or 4. */
uint8_t fraction_compare(int32_t a_num, int32_t a_den, int32_t b_num, int32_t b_den, int32_t *order);

/* whole = the greatest whole number that is at most num/den: -1 for -1/2. Returns 0 or 4. */
uint8_t fraction_floor(int32_t num, int32_t den, int32_t *whole);

/* whole = the least whole number that is at least num/den: 0 for -1/2. Returns 0 or 4. */
uint8_t fraction_ceiling(int32_t num, int32_t den, int32_t *whole);

#ifdef __cplusplus
}
#endif

#endif
