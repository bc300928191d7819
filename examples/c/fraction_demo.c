/* Adds and multiplies fractions, compares and rounds them, and shows both refusals. README.md has the commands. */
#include <inttypes.h>
#include <stdint.h>
#include <stdio.h>

#include "fraction.h"

struct fraction {
    int32_t num, den;
};

static void print(const char *what, uint8_t status, struct fraction f)
{
    if (status == FRACTION_OK)
        printf("%s = %" PRId32 "/%" PRId32 "\n", what, f.num, f.den);
    else
        printf("%s: refused %d\n", what, status);
}

int main(void)
{
    struct fraction half = {1, 2}, third = {1, 3}, f = {0, 1};
    uint8_t status;
    int32_t order, whole;

    status = fraction_sum(half.num, half.den, third.num, third.den, &f.num, &f.den);
    print("1/2 + 1/3", status, f);

    /* A result over an operand. */
    status = fraction_product(f.num, f.den, -3, 5, &f.num, &f.den);
    print("5/6 * -3/5", status, f);

    /* In lowest terms the denominator is 2^31: too wide, and f keeps its value. */
    status = fraction_product(1, 65536, 1, 32768, &f.num, &f.den);
    print("1/65536 * 1/32768", status, f);

    /* No fraction in lowest terms. */
    status = fraction_sum(2, 4, 1, 3, &f.num, &f.den);
    print("2/4 + 1/3", status, f);
    print("f still", FRACTION_OK, f);

    if (fraction_compare(half.num, half.den, third.num, third.den, &order) == FRACTION_OK)
        printf("1/2 against 1/3: %" PRId32 "\n", order);
    if (fraction_floor(f.num, f.den, &whole) == FRACTION_OK)
        printf("floor(-1/2) = %" PRId32 "\n", whole);
    if (fraction_ceiling(f.num, f.den, &whole) == FRACTION_OK)
        printf("ceiling(-1/2) = %" PRId32 "\n", whole);
    return 0;
}
