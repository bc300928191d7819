/* The same work with GMP's mpq: products, sums, and the checks of a certificate that stands in the tables.
 *
 * Products and sums are made in the same order as document 01 asks, into a dense array of mpq_t. Nothing is refused for being too
 * wide: mpq has no limit, and the test for it is spared. All mpq_t are initialized once and kept, so that no measured work
 * allocates anew; each value of the tables is turned into an mpq_t once for each certificate.
 */
#define _POSIX_C_SOURCE 200809L
#include <gmp.h>
#include <stddef.h>
#include <stdint.h>
#include <stdlib.h>
#include <time.h>

/* Seconds of processor time of this program: what else runs on the machine is left out. */
double bench_seconds(void)
{
    struct timespec t;
    clock_gettime(CLOCK_PROCESS_CPUTIME_ID, &t);
    return (double)t.tv_sec + (double)t.tv_nsec * 1e-9;
}

/* ---- operands alone */

typedef struct {
    size_t count;
    mpq_t *a, *b, *result;
} operands;

static mpq_t *all_of(const int32_t *pairs, size_t count)
{
    mpq_t *all = malloc(count * sizeof(mpq_t));
    for (size_t i = 0; i < count; i++) {
        mpq_init(all[i]);
        if (pairs)
            mpq_set_si(all[i], pairs[2 * i], (unsigned long)pairs[2 * i + 1]);
    }
    return all;
}

operands *mpq_operands(const int32_t *a, const int32_t *b, size_t count)
{
    operands *o = malloc(sizeof(operands));
    o->count = count;
    o->a = all_of(a, count);
    o->b = all_of(b, count);
    o->result = all_of(NULL, count);
    return o;
}

void mpq_products(operands *o)
{
    for (size_t i = 0; i < o->count; i++)
        mpq_mul(o->result[i], o->a[i], o->b[i]);
}

void mpq_sums(operands *o)
{
    for (size_t i = 0; i < o->count; i++)
        mpq_add(o->result[i], o->a[i], o->b[i]);
}

/* Result i, to be held against the others'. */
void mpq_result(const operands *o, size_t i, int64_t *num, int64_t *den)
{
    *num = mpz_get_si(mpq_numref(o->result[i]));
    *den = mpz_get_si(mpq_denref(o->result[i]));
}

/* ---- certificates */

enum { VARIABLES = 256, ROWS = 1024, VALUES = 8192, NO_NUMBER = 65535 };
enum { EQUAL, LESS, GREATER };
enum { ASM, LIN, RND, UNS, SOL };

typedef struct {
    size_t cell, number, count;
} pairs;

typedef struct {
    int sense;
    mpq_srcptr coefficients[VARIABLES];
    mpq_srcptr right;
} constraint;

static const uint16_t *cells, *marks;
static mpq_t values[VALUES], sums[VARIABLES], right_sum, product, zero, best;
static size_t variables, given, derived, solutions, claim, ends, first_solution;
static pairs objective;
static int maximize, is_integer[VARIABLES], any;
static uint64_t sets[ROWS];
static uint64_t products;

static void start(void)
{
    static int started;
    if (started)
        return;
    started = 1;
    for (size_t i = 0; i < VALUES; i++)
        mpq_init(values[i]);
    for (size_t i = 0; i < VARIABLES; i++)
        mpq_init(sums[i]);
    mpq_init(right_sum);
    mpq_init(product);
    mpq_init(zero);
    mpq_init(best);
}

static pairs pairs_at(size_t cell, size_t number)
{
    pairs p = {cell + 1, number, cells[cell]};
    return p;
}

static size_t cell_of(size_t row)
{
    return marks[4 * row + 2];
}

static size_t number_of(size_t row)
{
    return marks[4 * row + 3];
}

static size_t own_terms(size_t row)
{
    size_t count = cells[cell_of(row) + 1];
    return count == NO_NUMBER ? 0 : count;
}

static pairs side_of(size_t row)
{
    if (cells[cell_of(row) + 1] == NO_NUMBER)
        return objective;
    return pairs_at(cell_of(row) + 1, number_of(row) + 1);
}

static size_t reason_of(size_t row)
{
    return cell_of(row) + 2 + own_terms(row);
}

static pairs multipliers_of(size_t row)
{
    return pairs_at(reason_of(row) + 1, number_of(row) + 1 + own_terms(row));
}

static int is_assumption(size_t row)
{
    return row >= given && cells[reason_of(row)] == ASM;
}

/* Finds the parts of the certificate, and turns its values into mpq_t. */
static void find(const int32_t *pairs_read)
{
    size_t at = 0, number = 0;
    variables = cells[at++];
    for (size_t v = 0; v < variables; v++)
        is_integer[v] = 0;
    for (size_t left = cells[at++]; left > 0; left--)
        is_integer[cells[at++]] = 1;
    maximize = cells[at++] == 1;
    objective = pairs_at(at, 0);
    at += 1 + objective.count;
    number += objective.count;
    given = cells[at];
    at += 2;
    if (given > 0) {
        at = reason_of(given - 1);
        number = number_of(given - 1) + 1 + own_terms(given - 1);
    }
    claim = at;
    ends = number;
    if (cells[at++] == 1) {
        number += cells[at] + cells[at + 1];
        at += 2;
    }
    solutions = cells[at++];
    first_solution = at;
    for (size_t j = 0; j < solutions; j++) {
        number += cells[at];
        at += 1 + cells[at];
    }
    derived = cells[at];
    if (derived > 0) {
        size_t last = given + derived - 1, word = cells[reason_of(last)];
        number = number_of(last) + 1 + own_terms(last);
        if (word == LIN || word == RND)
            number += cells[reason_of(last) + 1];
    }
    for (size_t i = 0; i < number; i++)
        mpq_set_si(values[i], pairs_read[2 * i], (unsigned long)pairs_read[2 * i + 1]);
}

static void add_product(mpq_ptr sum, mpq_srcptr a, mpq_srcptr b)
{
    mpq_mul(product, a, b);
    mpq_add(sum, sum, product);
    products++;
}

static void place(mpq_srcptr *all, pairs terms)
{
    for (size_t v = 0; v < variables; v++)
        all[v] = zero;
    for (size_t i = 0; i < terms.count; i++)
        all[cells[terms.cell + i]] = values[terms.number + i];
}

static int is_whole(mpq_srcptr x)
{
    return mpz_cmp_ui(mpq_denref(x), 1) == 0;
}

static int holds(int sense, mpq_srcptr left, mpq_srcptr right)
{
    if (sense == EQUAL)
        return mpq_equal(left, right);
    int order = mpq_cmp(left, right);
    return sense == LESS ? order <= 0 : order >= 0;
}

static void left_side(mpq_ptr sum, pairs terms, const mpq_srcptr *point)
{
    mpq_set_ui(sum, 0, 1);
    for (size_t i = 0; i < terms.count; i++)
        add_product(sum, values[terms.number + i], point[cells[terms.cell + i]]);
}

static int check_solutions(void)
{
    mpq_srcptr point[VARIABLES];
    size_t number = ends;
    if (cells[claim] == 1)
        number += cells[claim + 1] + cells[claim + 2];
    size_t at = first_solution, first_number = number;
    for (size_t j = 0; j < solutions; j++) {
        pairs terms = pairs_at(at, number);
        place(point, terms);
        for (size_t v = 0; v < variables; v++)
            if (is_integer[v] && !is_whole(point[v]))
                return 9;
        for (size_t row = 0; row < given; row++) {
            left_side(right_sum, side_of(row), point);
            if (!holds(cells[cell_of(row)], right_sum, values[number_of(row)]))
                return 9;
        }
        at += 1 + terms.count;
        number += terms.count;
    }
    at = first_solution;
    number = first_number;
    any = 0;
    for (size_t j = 0; j < solutions; j++) {
        pairs terms = pairs_at(at, number);
        place(point, terms);
        left_side(right_sum, objective, point);
        if (!any || (maximize ? mpq_cmp(right_sum, best) > 0 : mpq_cmp(right_sum, best) < 0))
            mpq_set(best, right_sum);
        any = 1;
        at += 1 + terms.count;
        number += terms.count;
    }
    if (cells[claim] == 1 && cells[claim + (maximize ? 1 : 2)] == 1) {
        mpq_srcptr bound = values[maximize ? ends : ends + cells[claim + 1]];
        if (!any || (maximize ? mpq_cmp(best, bound) < 0 : mpq_cmp(best, bound) > 0))
            return 10;
    }
    return 0;
}

static void constraint_of(constraint *c, size_t row)
{
    c->sense = cells[cell_of(row)];
    place(c->coefficients, side_of(row));
    c->right = values[number_of(row)];
}

static int is_absurd(const constraint *c)
{
    int sign = mpq_sgn(c->right);
    if (c->sense == EQUAL ? sign == 0 : c->sense == LESS ? sign >= 0 : sign <= 0)
        return 0;
    for (size_t v = 0; v < variables; v++)
        if (mpq_sgn(c->coefficients[v]) != 0)
            return 0;
    return 1;
}

static int same_coefficients(const constraint *c, const constraint *d)
{
    for (size_t v = 0; v < variables; v++)
        if (!mpq_equal(c->coefficients[v], d->coefficients[v]))
            return 0;
    return 1;
}

static int dominates(const constraint *c, const constraint *d)
{
    if (is_absurd(c))
        return 1;
    if (c->sense != EQUAL && c->sense != d->sense)
        return 0;
    return holds(d->sense, c->right, d->right) && same_coefficients(c, d);
}

static int dominates_row(const constraint *c, size_t row)
{
    constraint d;
    constraint_of(&d, row);
    return dominates(c, &d);
}

static int is_integral(const constraint *c)
{
    for (size_t v = 0; v < variables; v++)
        if (!is_whole(c->coefficients[v]) || (!is_integer[v] && mpq_sgn(c->coefficients[v]) != 0))
            return 0;
    return 1;
}

static int are_adjacent(const constraint *c, const constraint *d)
{
    if (c->sense != LESS || d->sense != GREATER || !is_whole(c->right) || !is_whole(d->right))
        return 0;
    return mpz_get_si(mpq_numref(c->right)) + 1 == mpz_get_si(mpq_numref(d->right));
}

static int is_split(size_t first, size_t second)
{
    constraint c, d;
    constraint_of(&c, first);
    constraint_of(&d, second);
    return same_coefficients(&c, &d) && is_integral(&c) && (are_adjacent(&c, &d) || are_adjacent(&d, &c));
}

static int combine(constraint *c, pairs multipliers)
{
    int positive = 0, negative = 0;
    for (size_t i = 0; i < multipliers.count; i++) {
        int sense = cells[cell_of(cells[multipliers.cell + i])];
        int sign = mpq_sgn(values[multipliers.number + i]) * (sense == EQUAL ? 0 : sense == LESS ? -1 : 1);
        positive |= sign > 0;
        negative |= sign < 0;
    }
    if (positive && negative)
        return 13;
    c->sense = positive ? GREATER : negative ? LESS : EQUAL;
    for (size_t v = 0; v < variables; v++) {
        mpq_set_ui(sums[v], 0, 1);
        c->coefficients[v] = sums[v];
    }
    mpq_set_ui(right_sum, 0, 1);
    c->right = right_sum;
    for (size_t i = 0; i < multipliers.count; i++) {
        size_t row = cells[multipliers.cell + i];
        mpq_srcptr factor = values[multipliers.number + i];
        pairs terms = side_of(row);
        for (size_t k = 0; k < terms.count; k++)
            add_product(sums[cells[terms.cell + k]], factor, values[terms.number + k]);
        add_product(right_sum, factor, values[number_of(row)]);
    }
    return 0;
}

static int is_spent(size_t named, size_t row)
{
    if (named < given)
        return 0;
    size_t cell = reason_of(named), word = cells[cell], last;
    if (word == UNS)
        last = cells[cell + 5];
    else if (word == LIN || word == RND)
        last = cells[cell + 2 + cells[cell + 1]];
    else
        last = cells[cell + 1];
    return last != NO_NUMBER && row > last;
}

static uint64_t set_without(size_t i, size_t l)
{
    return is_assumption(l) ? sets[i] & ~sets[l] : sets[i];
}

static int check_derivation(size_t row, unsigned *assumed)
{
    size_t cell = reason_of(row), word = cells[cell];
    constraint c;
    if (word == ASM) {
        sets[row] = (uint64_t)1 << (*assumed)++;
        return 0;
    }
    if (word == LIN || word == RND) {
        pairs multipliers = multipliers_of(row);
        sets[row] = 0;
        for (size_t i = 0; i < multipliers.count; i++) {
            size_t named = cells[multipliers.cell + i];
            if (is_spent(named, row))
                return 11;
            sets[row] |= sets[named];
        }
        int refusal = combine(&c, multipliers);
        if (refusal)
            return refusal;
        if (word == RND) {
            if (c.sense == EQUAL || !is_integral(&c))
                return 14;
            if (c.sense == LESS)
                mpz_fdiv_q(mpq_numref(right_sum), mpq_numref(right_sum), mpq_denref(right_sum));
            else
                mpz_cdiv_q(mpq_numref(right_sum), mpq_numref(right_sum), mpq_denref(right_sum));
            mpz_set_ui(mpq_denref(right_sum), 1);
        }
        return dominates_row(&c, row) ? 0 : 15;
    }
    if (word == UNS) {
        for (size_t i = 1; i <= 4; i++)
            if (is_spent(cells[cell + i], row))
                return 11;
        if (!is_split(cells[cell + 2], cells[cell + 4]))
            return 16;
        sets[row] = set_without(cells[cell + 1], cells[cell + 2]) | set_without(cells[cell + 3], cells[cell + 4]);
        constraint_of(&c, cells[cell + 1]);
        if (!dominates_row(&c, row))
            return 15;
        constraint_of(&c, cells[cell + 3]);
        return dominates_row(&c, row) ? 0 : 15;
    }
    sets[row] = 0;
    if (!any)
        return 18;
    c.sense = maximize ? GREATER : LESS;
    place(c.coefficients, objective);
    c.right = best;
    return dominates_row(&c, row) ? 0 : 15;
}

static int check_claim(void)
{
    constraint last, asked;
    int is_range = cells[claim] == 1;
    if (is_range && cells[claim + (maximize ? 2 : 1)] == 0)
        return 0;
    if (derived == 0)
        return 17;
    size_t row = given + derived - 1;
    constraint_of(&last, row);
    if (is_range) {
        asked.sense = maximize ? LESS : GREATER;
        place(asked.coefficients, objective);
        asked.right = values[maximize ? ends + cells[claim + 1] : ends];
    }
    return (is_range ? dominates(&last, &asked) : is_absurd(&last)) && sets[row] == 0 ? 0 : 17;
}

/* Checks the certificate in the tables. Returns 0 or the reason of the refusal. */
int mpq_check(const uint16_t *index, const int32_t *value_pairs, const uint16_t *rows)
{
    start();
    cells = index;
    marks = rows;
    products = 0;
    find(value_pairs);
    int refusal = check_solutions();
    if (refusal)
        return refusal;
    for (size_t row = 0; row < given; row++)
        sets[row] = 0;
    unsigned assumed = 0;
    for (size_t row = given; row < given + derived; row++) {
        refusal = check_derivation(row, &assumed);
        if (refusal)
            return refusal;
    }
    return check_claim();
}

/* How many products the last check made: as many as sums. */
uint64_t mpq_products_made(void)
{
    return products;
}
