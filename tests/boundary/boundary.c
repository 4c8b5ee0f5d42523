/*
 * Calls every function of include/fervoulk.h on document 01's Depot M, on refused cases and on empty lists, and holds answers and lists to
 * what the document gives. Lists are longer than their results, full of guard values that must stay: in a list of numbers these are NaNs,
 * each with bits of its own, and lists are compared by their bits.
 */
#include "fervoulk.h"

#include <math.h>
#include <stdio.h>
#include <string.h>

#define LENGTH(list) (sizeof(list) / sizeof((list)[0]))
#define LIST(list) (list), LENGTH(list)
#define NETWORK LIST(words), LIST(numbers)

static int checks;
static int wrong;

static void expect(int right, const char *what, int line) {
    checks++;
    if (!right) {
        wrong++;
        printf("boundary.c:%d: wrong: %s\n", line, what);
    }
}

#define EXPECT(fact) expect((fact), #fact, __LINE__)

static int refused(uint64_t answer, uint32_t number, uint32_t place) {
    return fervoulk_number(answer) == number && fervoulk_place(answer) == place;
}

static int same_bits(double a, double b) {
    return memcmp(&a, &b, sizeof a) == 0;
}

static int same_list(const double *a, const double *b, size_t length) {
    return memcmp(a, b, length * sizeof *a) == 0;
}

/*
 * NaNs numbered from `first` on: both signs, quiet and signalling, each with a payload of its own. A list that was written with another NaN
 * is seen, which a proof about values cannot tell from one that was left alone.
 */
static void fill_nans(double *list, size_t length, size_t first) {
    for (size_t i = 0; i < length; i++) {
        const uint64_t n = first + i;
        const uint64_t payload = (n + 1) * UINT64_C(0x9E3779B97F4A7C15) & ((UINT64_C(1) << 51) - 1);
        const uint64_t bits = n % 2 << 63 | UINT64_C(0x7FF) << 52 | n / 2 % 2 << 51 | payload;
        memcpy(&list[i], &bits, sizeof bits);
    }
}

/* Depot M */
static const uint32_t words[] = {0x10000001, 0x20000001, 0x30001000, 0x50000000};
static const uint32_t inactive[] = {0x10000001, 0x20000001, 0x30000000, 0x50000000};
static const double numbers[] = {1, 0.25, 0, 0, 0.9, 1.1, 0, 1, 0, 2, -1, 1, 2, 3, 4, 1, 0.25};
/* pmin 2, pmax 1 */
static const double crossed[] = {1, 0.25, 0, 0, 0.9, 1.1, 0, 1, 2, 1, -1, 1, 2, 3, 4, 1, 0.25};

/* its model file */
static const uint32_t model[] = {
    0xA0000000, 0x60000000, 0x10000001, 0xB0000000, 0x90000003, 0x00000000, 0x50000000, 0x00000001, 0x20000000, 0x10000002,
    0xB0000001, 0x90000003, 0x00000002, 0x50000000, 0x00000003, 0x20000000, 0x10000003, 0xB0000002, 0x10000000, 0xC0000000,
    0x90000002, 0x50000000, 0x00000004, 0x60000000, 0x10000002, 0x50000000, 0x00000005, 0x10000002, 0xD0000000};
static const double model_constants[] = {-1, -0.0, -0.25, 0, 1, 3};

static const double point[] = {0, 1, 1, 0.25};

/* eight tolerances as in the Rust */
static const double primal[FERVOULK_RESIDUAL_COUNT] = {1e-6, 1e-6, 1e-6, 1e-6, 1e-6, 1e-6, 1e-6, 1e-6};

/* ---- the helpers of the header */

static void test_answers(void) {
    EXPECT(refused(0, FERVOULK_NONE, 0));
    EXPECT(refused((UINT64_C(7) << 32) + 2, FERVOULK_BOUNDS, 2));
    EXPECT(refused((UINT64_C(18) << 32) + UINT32_MAX, FERVOULK_ROW, FERVOULK_PLACE_MAX));
    EXPECT(strcmp(fervoulk_word(FERVOULK_WORDS), "words") == 0);
    EXPECT(strcmp(fervoulk_word(FERVOULK_SHORT), "short") == 0);
    EXPECT(strcmp(fervoulk_word(FERVOULK_ROW), "row") == 0);
    EXPECT(strcmp(fervoulk_word(0), "") == 0);
    /* a refusal without a word, and a number that is none's */
    EXPECT(strcmp(fervoulk_word(FERVOULK_VALUE), "") == 0);
    EXPECT(strcmp(fervoulk_word(UINT32_MAX), "") == 0);
    EXPECT(strcmp(fervoulk_word(FERVOULK_TOLERANCE), "tolerance") == 0);
    EXPECT(strcmp(fervoulk_word(FERVOULK_TOLERANCE + 1), "") == 0);
}

/* ---- the guard values */

static void test_nans(void) {
    double list[64];
    fill_nans(LIST(list), 0);
    for (size_t i = 0; i < LENGTH(list); i++) {
        uint64_t bits;
        memcpy(&bits, &list[i], sizeof bits);
        EXPECT(isnan(list[i]));
        EXPECT(bits >> 63 == i % 2);
        EXPECT((bits >> 51 & 1) == i / 2 % 2);
        for (size_t j = 0; j < i; j++) {
            EXPECT(!same_bits(list[i], list[j]));
        }
    }
}

/* ---- the finder */

static void test_find_row(void) {
    EXPECT(fervoulk_find_row(LIST(model), 6, 4, 0) == 0);
    EXPECT(fervoulk_row_start(LIST(model), 6, 4, 0) == 4);
    EXPECT(fervoulk_row_length(LIST(model), 6, 4, 0) == 6);
    EXPECT(fervoulk_find_row(LIST(model), 6, 4, 2) == 0);
    EXPECT(fervoulk_row_start(LIST(model), 6, 4, 2) == 18);
    EXPECT(fervoulk_row_length(LIST(model), 6, 4, 2) == 1);
    EXPECT(model[18] == 0x10000000);
    EXPECT(refused(fervoulk_find_row(LIST(model), 6, 4, 3), FERVOULK_ROW, 3));
    EXPECT(fervoulk_row_start(LIST(model), 6, 4, 3) == 0);
    EXPECT(fervoulk_row_length(LIST(model), 6, 4, 3) == 0);
    EXPECT(refused(fervoulk_find_row(model, LENGTH(model) - 1, 6, 4, 2), FERVOULK_MODEL, 28));
    EXPECT(fervoulk_row_start(model, LENGTH(model) - 1, 6, 4, 2) == 0);
    EXPECT(fervoulk_row_length(model, LENGTH(model) - 1, 6, 4, 2) == 0);
    EXPECT(refused(fervoulk_find_row(LIST(model), 7, 4, 2), FERVOULK_MODEL, 28));
    EXPECT(refused(fervoulk_find_row(LIST(model), 6, 3, 2), FERVOULK_MODEL, 16));
    EXPECT(refused(fervoulk_find_row(LIST(model), SIZE_MAX, SIZE_MAX, SIZE_MAX), FERVOULK_MODEL, 28));
    EXPECT(refused(fervoulk_find_row(NULL, 0, 6, 4, 0), FERVOULK_MODEL, 0));
    EXPECT(fervoulk_row_start(NULL, 0, 6, 4, 0) == 0);
    EXPECT(fervoulk_row_length(NULL, 0, 6, 4, 0) == 0);
}

static void test_same(void) {
    const double positive[] = {-1, 0.0, -0.25, 0, 1, 3};
    const double other[] = {-1, -0.0, -0.25, 0, 1, 4};
    const double none[] = {NAN};
    uint32_t changed[LENGTH(model)];
    memcpy(changed, model, sizeof model);
    changed[28] = 0xC0000000;
    EXPECT(fervoulk_same(LIST(model), LIST(model_constants), LIST(model), LIST(model_constants)) == 1);
    EXPECT(fervoulk_same(LIST(model), LIST(model_constants), LIST(model), LIST(positive)) == 1);
    EXPECT(fervoulk_same(LIST(model), LIST(model_constants), LIST(model), LIST(other)) == 0);
    EXPECT(fervoulk_same(LIST(model), LIST(model_constants), LIST(changed), LIST(model_constants)) == 0);
    EXPECT(fervoulk_same(LIST(model), LIST(model_constants), model, 28, LIST(model_constants)) == 0);
    EXPECT(fervoulk_same(LIST(model), LIST(model_constants), LIST(model), model_constants, 5) == 0);
    EXPECT(fervoulk_same(LIST(model), LIST(none), LIST(model), LIST(none)) == 0);
    EXPECT(fervoulk_same(NULL, 0, NULL, 0, NULL, 0, NULL, 0) == 1);
    EXPECT(fervoulk_same(NULL, 0, NULL, 0, LIST(model), NULL, 0) == 0);
    EXPECT(fervoulk_same(NULL, 0, NULL, 0, NULL, 0, LIST(model_constants)) == 0);
}

/* ---- row values */

#define MODEL LIST(model), LIST(model_constants), 4

/* row values of a file by both functions, into lists of 3 and 5 of which the front is the result; none where something is refused */
static void expect_row_values(
    const uint32_t *w, size_t w_length, const double *p, size_t columns, uint32_t number, uint32_t place, const double *shared_values,
    size_t shared_count, const double *row_values, size_t row_count, double objective, int line) {
    for (size_t call = 0; call < 2; call++) {
        double shared[3], rows[5], shared_after[3], rows_after[5];
        fill_nans(LIST(shared), 16 * call);
        fill_nans(LIST(shared_after), 16 * call);
        fill_nans(LIST(rows), 16 * call + 8);
        fill_nans(LIST(rows_after), 16 * call + 8);
        for (size_t i = 0; i < shared_count; i++) shared_after[i] = shared_values[i];
        for (size_t i = 0; i < row_count; i++) rows_after[i] = row_values[i];
        if (call == 0) {
            const uint64_t answer = fervoulk_row_values(w, w_length, LIST(model_constants), 4, p, columns, LIST(shared), LIST(rows));
            expect(refused(answer, number, place), "fervoulk_row_values", line);
        } else {
            const double is = fervoulk_row_values_objective(w, w_length, LIST(model_constants), 4, p, columns, LIST(shared), LIST(rows));
            expect(same_bits(is, objective), "fervoulk_row_values_objective", line);
        }
        expect(same_list(shared, shared_after, LENGTH(shared)), "shared values, and behind them", line);
        expect(same_list(rows, rows_after, LENGTH(rows)), "row values, and behind them", line);
    }
}

static void test_row_values(void) {
    const double off[] = {-0.0, 2, 1.5, 0.25};
    const double square[] = {0, 1e200, 1, 0.25};
    const double cost[] = {0, 1, 1e200, 0.25};
    const double infinite[] = {0, 1, INFINITY, 0.25};
    const double longer[] = {0, 1, 1, 0.25, 0};
    const double none[] = {0, 0, 0}, one[] = {1}, four[] = {4}, half[] = {0.5, 0, -0.0};
    expect_row_values(LIST(model), point, 4, 0, 0, LIST(one), LIST(none), 4, __LINE__);
    expect_row_values(LIST(model), off, 4, 0, 0, LIST(four), LIST(half), 6.75, __LINE__);
    expect_row_values(model, 28, point, 4, FERVOULK_MODEL, 28, NULL, 0, NULL, 0, 0, __LINE__);
    expect_row_values(LIST(model), point, 3, FERVOULK_POINT, 4, NULL, 0, NULL, 0, 0, __LINE__);
    expect_row_values(LIST(model), longer, 5, FERVOULK_POINT, 4, NULL, 0, NULL, 0, 0, __LINE__);
    expect_row_values(LIST(model), infinite, 4, FERVOULK_POINT, 2, NULL, 0, NULL, 0, 0, __LINE__);
    expect_row_values(LIST(model), square, 4, FERVOULK_VALUE, 0, NULL, 0, NULL, 0, 0, __LINE__);
    expect_row_values(LIST(model), cost, 4, FERVOULK_VALUE, 19, NULL, 0, NULL, 0, 0, __LINE__);
}

/* an objective, the sine of a constant, in a file without shared parts, rows and columns: every list but two is empty */
static uint64_t sine_of(double argument, double *objective) {
    static const uint32_t sine[] = {0xC0000000, 0x80000000, 0x00000000, 0xD0000000};
    *objective = fervoulk_row_values_objective(LIST(sine), &argument, 1, 0, NULL, 0, NULL, 0, NULL, 0);
    return fervoulk_row_values(LIST(sine), &argument, 1, 0, NULL, 0, NULL, 0, NULL, 0);
}

static void test_row_values_lists(void) {
    double shared[1], rows[3], objective;
    EXPECT(fervoulk_shared_count(LIST(model), 6, 4) == 1);
    EXPECT(fervoulk_row_count(LIST(model), 6, 4) == 3);
    EXPECT(fervoulk_shared_count(model, 28, 6, 4) == 0);
    EXPECT(fervoulk_row_count(model, 28, 6, 4) == 0);
    EXPECT(fervoulk_shared_count(NULL, 0, SIZE_MAX, SIZE_MAX) == 0);
    EXPECT(fervoulk_row_count(NULL, 0, 0, 0) == 0);
    EXPECT(fervoulk_row_values(MODEL, LIST(point), LIST(shared), LIST(rows)) == 0);
    EXPECT(same_bits(shared[0], 1) && same_bits(rows[2], 0));
    EXPECT(refused(fervoulk_row_values(MODEL, LIST(point), NULL, 0, NULL, 0), FERVOULK_SHORT, 1));
    EXPECT(refused(fervoulk_row_values(MODEL, NULL, 0, LIST(shared), rows, 2), FERVOULK_SHORT, 2));
    EXPECT(refused(fervoulk_row_values(MODEL, NULL, 0, LIST(shared), LIST(rows)), FERVOULK_POINT, 4));
    EXPECT(refused(fervoulk_row_values(LIST(model), NULL, 0, 4, LIST(point), LIST(shared), LIST(rows)), FERVOULK_MODEL, 5));
    EXPECT(refused(fervoulk_row_values(NULL, 0, NULL, 0, 0, NULL, 0, NULL, 0, NULL, 0), FERVOULK_MODEL, 0));
    EXPECT(same_bits(fervoulk_row_values_objective(NULL, 0, NULL, 0, 0, NULL, 0, NULL, 0, NULL, 0), 0));
    EXPECT(sine_of(-0.0, &objective) == 0 && same_bits(objective, -0.0));
    EXPECT(sine_of(4096, &objective) == 0 && sine_of(-4096, &objective) == 0);
    EXPECT(refused(sine_of(nextafter(4096, INFINITY), &objective), FERVOULK_SWING, 0) && same_bits(objective, 0));
    EXPECT(refused(sine_of(NAN, &objective), FERVOULK_SWING, 0) && same_bits(objective, 0));
}

/* ---- the check */

/* a point's answer by all three functions with these tolerances, and 9 numbers lent of which an accepted point writes 2 */
static void expect_check_within(
    const double *tolerances, size_t count, const uint32_t *w, const double *x, const double *p, size_t columns, double solver,
    uint32_t number, uint32_t place, double objective, size_t residual, double violation, int line) {
    double outputs[9], after[9];
    for (size_t call = 0; call < 11; call++) {
        fill_nans(LIST(outputs), 16 * call);
        fill_nans(LIST(after), 16 * call);
        if (number == 0) {
            /* with no branch a bus's injection is its balance */
            after[0] = residual == FERVOULK_ACTIVE_BALANCE ? violation : 0;
            after[1] = 0;
        }
        if (call == 0) {
            const uint64_t answer = fervoulk_check(w, 4, x, 17, p, columns, solver, tolerances, count, LIST(outputs));
            expect(refused(answer, number, place), "fervoulk_check", line);
        } else if (call == 1) {
            const double own = fervoulk_objective(w, 4, x, 17, p, columns, solver, tolerances, count, LIST(outputs));
            expect(same_bits(own, objective), "fervoulk_objective", line);
        } else {
            const size_t i = call - 2;
            const double is = fervoulk_residual(w, 4, x, 17, p, columns, solver, tolerances, count, LIST(outputs), i);
            expect(same_bits(is, i == residual ? violation : 0), "fervoulk_residual", line);
        }
        expect(same_list(outputs, after, 2), "the two outputs", line);
        expect(same_list(outputs + 2, after + 2, LENGTH(after) - 2), "behind the outputs", line);
    }
}

/* the same with the Rust's tolerances */
static void expect_check(
    const uint32_t *w, const double *x, const double *p, size_t columns, double solver, uint32_t number, uint32_t place,
    double objective, size_t residual, double violation, int line) {
    expect_check_within(LIST(primal), w, x, p, columns, solver, number, place, objective, residual, violation, line);
}

static void test_check(void) {
    const double at[] = {1e-6, 1, 1, 0.25};
    const double above[] = {nextafter(1e-6, 1), 1, 1, 0.25};
    const double strong[] = {0, 1, 1.5, 0.25};
    expect_check(words, numbers, point, 4, 8, 0, 0, 8, 0, 0, __LINE__);
    expect_check(words, numbers, at, 4, 8, 0, 0, 8, 3, 1e-6, __LINE__);
    expect_check(words, numbers, above, 4, 8, FERVOULK_RESIDUAL, 4, 0, 3, above[0], __LINE__);
    expect_check(words, numbers, strong, 4, 10.75, FERVOULK_RESIDUAL, 1, 0, 0, 0.5, __LINE__);
    expect_check(words, numbers, point, 3, 8, FERVOULK_POINT, 4, 0, 0, 0, __LINE__);
    expect_check(words, numbers, point, 4, INFINITY, FERVOULK_DERIVED, 2, 0, 0, 0, __LINE__);
    expect_check(words, crossed, point, 4, 8, FERVOULK_BOUNDS, 2, 0, 0, 0, __LINE__);
    expect_check(inactive, crossed, point, 4, 8, 0, 0, 8, 0, 0, __LINE__);
}

/* tolerances of the caller's own */
static void test_tolerances(void) {
    const double strong[] = {0, 1, 1.5, 0.25};
    /* half a unit too much is generated, and the reference is off by as much */
    const double turned[] = {0.5, 1, 1.5, 0.25};
    double own[FERVOULK_RESIDUAL_COUNT + 1];
    memcpy(own, primal, sizeof primal);
    own[FERVOULK_RESIDUAL_COUNT] = NAN;
    /* equal passes, one double less refuses */
    own[FERVOULK_ACTIVE_BALANCE] = 0.5;
    expect_check_within(own, 8, words, numbers, strong, 4, 10.75, 0, 0, 10.75, 0, 0.5, __LINE__);
    own[FERVOULK_ACTIVE_BALANCE] = nextafter(0.5, 0);
    expect_check_within(own, 8, words, numbers, strong, 4, 10.75, FERVOULK_RESIDUAL, 1, 0, 0, 0.5, __LINE__);
    /* each residual has its own: a wide one for the balance moves the place to the reference angle */
    own[FERVOULK_ACTIVE_BALANCE] = 1;
    double outputs[2];
    EXPECT(refused(fervoulk_check(NETWORK, LIST(turned), 10.75, own, 8, LIST(outputs)), FERVOULK_RESIDUAL, 4));
    /* zeros of either sign are tolerances, and the start is exact */
    const double zeros[FERVOULK_RESIDUAL_COUNT] = {0, -0.0, 0, -0.0, 0, -0.0, 0, -0.0};
    expect_check_within(zeros, 8, words, numbers, point, 4, 8, 0, 0, 8, 0, 0, __LINE__);
    /* a length other than eight, before any number is looked at; then the first that is not finite or below 0; 20 before 13 and 15 */
    expect_check_within(own, 9, words, numbers, point, 4, 8, FERVOULK_TOLERANCE, 0, 0, 0, 0, __LINE__);
    expect_check_within(own, 7, words, numbers, point, 4, 8, FERVOULK_TOLERANCE, 0, 0, 0, 0, __LINE__);
    expect_check_within(NULL, 0, words, numbers, point, 3, INFINITY, FERVOULK_TOLERANCE, 0, 0, 0, 0, __LINE__);
    static const double wrongs[] = {NAN, INFINITY, -INFINITY, -1, -0x1p-1074};
    for (size_t i = 0; i < FERVOULK_RESIDUAL_COUNT; i++) {
        for (size_t j = 0; j < LENGTH(wrongs); j++) {
            memcpy(own, primal, sizeof primal);
            own[i] = wrongs[j];
            own[7] = i < 7 ? NAN : wrongs[j];
            expect_check_within(own, 8, words, numbers, point, 3, INFINITY, FERVOULK_TOLERANCE, (uint32_t)i + 1, 0, 0, 0, __LINE__);
        }
    }
    /* 12 and the network's refusals come first */
    EXPECT(refused(fervoulk_check(NETWORK, LIST(point), 8, NULL, 0, outputs, 1), FERVOULK_SHORT, 1));
    expect_check_within(NULL, 0, words, crossed, point, 4, 8, FERVOULK_BOUNDS, 2, 0, 0, 0, __LINE__);
}

/* the residuals and the objective by one run, with 10 numbers lent of which 9 are written */
static void expect_report(const double *x, const double *p, size_t columns, double solver, uint32_t number, uint32_t place,
                          double objective, size_t residual, double violation, int line) {
    double report[10], after[10];
    fill_nans(LIST(report), 0);
    fill_nans(LIST(after), 0);
    for (size_t i = 0; i < 9 && number == 0; i++) {
        after[i] = i == 8 ? objective : i == residual ? violation : 0;
    }
    const uint64_t answer = fervoulk_residuals(words, 4, x, 17, p, columns, solver, LIST(report));
    expect(refused(answer, number, place), "fervoulk_residuals", line);
    expect(same_list(report, after, 9), "the nine numbers", line);
    expect(same_list(report + 9, after + 9, 1), "behind the nine", line);
}

static void test_residuals(void) {
    const double above[] = {nextafter(1e-6, 1), 1, 1, 0.25};
    const double strong[] = {0, 1, 1.5, 0.25};
    const double swung[] = {1025, 1, 1, 0.25};
    double report[9], before[9];
    expect_report(numbers, point, 4, 8, 0, 0, 8, 0, 0, __LINE__);
    expect_report(numbers, above, 4, 8, 0, 0, 8, 3, above[0], __LINE__);
    expect_report(numbers, strong, 4, 10.75, 0, 0, 10.75, 0, 0.5, __LINE__);
    expect_report(numbers, point, 3, 8, FERVOULK_POINT, 4, 0, 0, 0, __LINE__);
    expect_report(numbers, swung, 4, 8, FERVOULK_SWING, 0, 0, 0, 0, __LINE__);
    expect_report(numbers, point, 4, INFINITY, FERVOULK_DERIVED, 2, 0, 0, 0, __LINE__);
    expect_report(crossed, point, 4, 8, FERVOULK_BOUNDS, 2, 0, 0, 0, __LINE__);
    EXPECT(fervoulk_residuals(NETWORK, LIST(point), 8, LIST(report)) == 0);
    EXPECT(same_bits(report[8], 8));
    fill_nans(LIST(report), 0);
    fill_nans(LIST(before), 0);
    EXPECT(refused(fervoulk_residuals(NETWORK, LIST(point), 8, report, 8), FERVOULK_SHORT, 1));
    EXPECT(same_list(report, before, LENGTH(before)));
    EXPECT(refused(fervoulk_residuals(NETWORK, NULL, 0, 8, NULL, 0), FERVOULK_SHORT, 1));
    EXPECT(refused(fervoulk_residuals(NULL, 0, NULL, 0, NULL, 0, 8, NULL, 0), FERVOULK_WORDS, 0));
}

static void test_outputs(void) {
    /* two buses and a branch between them */
    static const uint32_t line[] = {0x10000000, 0x20000000, 0x20000000, 0x40001000, 0x50000000};
    static const double line_numbers[27] = {[22] = 1};
    EXPECT(fervoulk_outputs(NETWORK) == 2);
    EXPECT(fervoulk_outputs(LIST(line), LIST(line_numbers)) == 8);
    EXPECT(fervoulk_outputs(LIST(line), line_numbers, 26) == 0);
    EXPECT(fervoulk_outputs(LIST(words), LIST(crossed)) == 0);
    EXPECT(fervoulk_outputs(LIST(inactive), LIST(crossed)) == 2);
    EXPECT(fervoulk_outputs(NULL, 0, NULL, 0) == 0);
}

static void test_check_lists(void) {
    double outputs[8], before[8];
    fill_nans(LIST(outputs), 0);
    fill_nans(LIST(before), 0);
    EXPECT(refused(fervoulk_check(NETWORK, LIST(point), 8, LIST(primal), outputs, 1), FERVOULK_SHORT, 1));
    EXPECT(refused(fervoulk_check(NETWORK, LIST(point), 8, LIST(primal), NULL, 0), FERVOULK_SHORT, 1));
    EXPECT(refused(fervoulk_check(NETWORK, NULL, 0, 8, LIST(primal), LIST(outputs)), FERVOULK_POINT, 4));
    EXPECT(refused(fervoulk_check(LIST(words), NULL, 0, LIST(point), 8, LIST(primal), LIST(outputs)), FERVOULK_COUNT, 17));
    EXPECT(refused(fervoulk_check(NULL, 0, LIST(numbers), LIST(point), 8, LIST(primal), LIST(outputs)), FERVOULK_WORDS, 0));
    EXPECT(refused(fervoulk_check(NULL, 0, NULL, 0, NULL, 0, 8, NULL, 0, NULL, 0), FERVOULK_WORDS, 0));
    EXPECT(same_bits(fervoulk_objective(NULL, 0, NULL, 0, NULL, 0, 8, NULL, 0, NULL, 0), 0));
    EXPECT(same_bits(fervoulk_residual(NULL, 0, NULL, 0, NULL, 0, 8, NULL, 0, NULL, 0, 0), 0));
    EXPECT(same_list(outputs, before, LENGTH(before)));
    EXPECT(same_bits(fervoulk_residual(NETWORK, LIST(point), 8, LIST(primal), LIST(outputs), SIZE_MAX), 0));
    EXPECT(same_bits(outputs[0], 0) && same_bits(outputs[1], 0));
    EXPECT(same_list(outputs + 2, before + 2, LENGTH(before) - 2));
}

/* ---- compile */

#define LENT 32
#define GUARD 0xFEDCBA98

/* seven lent lists */
struct lent {
    uint32_t words[LENT];
    double numbers[6][LENT];
};

static void fill(struct lent *l) {
    for (size_t i = 0; i < LENT; i++) {
        l->words[i] = GUARD;
    }
    for (size_t list = 0; list < 6; list++) {
        fill_nans(LIST(l->numbers[list]), list * LENT);
    }
}

/* compiles into lists of those lengths */
static uint64_t compile_into(struct lent *l, const uint32_t *w, size_t w_length, const double *x, size_t x_length, const size_t *lengths) {
    fill(l);
    return fervoulk_compile(
        w, w_length, x, x_length, l->words, lengths[0], l->numbers[0], lengths[1], l->numbers[1], lengths[2], l->numbers[2], lengths[3],
        l->numbers[3], lengths[4], l->numbers[4], lengths[5], l->numbers[5], lengths[6]);
}

static int untouched(const struct lent *l) {
    struct lent before;
    fill(&before);
    return memcmp(l, &before, sizeof before) == 0;
}

/* The lists have Depot M's model in front, with those starts, and are as they were behind it. */
static int has_model(const struct lent *l, const double *start) {
    static const double lower[] = {-1e19, 0.9, 0, -1};
    static const double upper[] = {1e19, 1.1, 2, 1};
    static const double zeros[] = {0, 0, 0};
    struct lent expected;
    fill(&expected);
    memcpy(expected.words, model, sizeof model);
    memcpy(expected.numbers[0], model_constants, sizeof model_constants);
    memcpy(expected.numbers[1], lower, sizeof lower);
    memcpy(expected.numbers[2], upper, sizeof upper);
    memcpy(expected.numbers[3], start, sizeof lower);
    memcpy(expected.numbers[4], zeros, sizeof zeros);
    memcpy(expected.numbers[5], zeros, sizeof zeros);
    return memcmp(l, &expected, sizeof expected) == 0;
}

static const size_t long_enough[] = {LENT, LENT, LENT, LENT, LENT, LENT, LENT};
static const size_t exact[] = {29, 6, 4, 4, 4, 3, 3};

static void test_compile(void) {
    static const double start[] = {0, 1, 1, 0.25};
    static const double moved_start[] = {7, 1.1, 1, 0.25};
    struct lent l;
    EXPECT(compile_into(&l, NETWORK, long_enough) == 0);
    EXPECT(has_model(&l, start));
    EXPECT(compile_into(&l, NETWORK, exact) == 0);
    EXPECT(has_model(&l, start));
    EXPECT(fervoulk_words(NETWORK) == 29);
    EXPECT(fervoulk_constants(NETWORK) == 6);
    EXPECT(fervoulk_columns(NETWORK) == 4);
    EXPECT(fervoulk_rows(NETWORK) == 3);
    EXPECT(fervoulk_shared(NETWORK) == 1);
    EXPECT(same_bits(fervoulk_objective_constant(NETWORK), 4));
    /* va start 7, vm start 1.25 */
    double moved[LENGTH(numbers)];
    memcpy(moved, numbers, sizeof numbers);
    moved[6] = 7;
    moved[7] = 1.25;
    EXPECT(compile_into(&l, LIST(words), LIST(moved), long_enough) == 0);
    EXPECT(has_model(&l, moved_start));
    /* what compile writes, the finder reads */
    EXPECT(fervoulk_find_row(l.words, 29, 6, 4, 2) == 0);
    EXPECT(fervoulk_same(l.words, 29, l.numbers[0], 6, LIST(model), LIST(model_constants)) == 1);
}

static void test_compile_refused(void) {
    struct lent l;
    EXPECT(refused(compile_into(&l, LIST(words), LIST(crossed), long_enough), FERVOULK_BOUNDS, 2));
    EXPECT(untouched(&l));
    EXPECT(fervoulk_words(LIST(words), LIST(crossed)) == 0);
    EXPECT(fervoulk_constants(LIST(words), LIST(crossed)) == 0);
    EXPECT(fervoulk_columns(LIST(words), LIST(crossed)) == 0);
    EXPECT(fervoulk_rows(LIST(words), LIST(crossed)) == 0);
    EXPECT(fervoulk_shared(LIST(words), LIST(crossed)) == 0);
    EXPECT(same_bits(fervoulk_objective_constant(LIST(words), LIST(crossed)), 0));
    EXPECT(fervoulk_words(LIST(inactive), LIST(crossed)) == 29);
    /* each list one element short, and each list empty */
    for (size_t list = 0; list < 7; list++) {
        size_t lengths[7];
        memcpy(lengths, exact, sizeof exact);
        lengths[list]--;
        EXPECT(refused(compile_into(&l, NETWORK, lengths), FERVOULK_SHORT, (uint32_t)list + 1));
        EXPECT(untouched(&l));
        lengths[list] = 0;
        EXPECT(refused(compile_into(&l, NETWORK, lengths), FERVOULK_SHORT, (uint32_t)list + 1));
        EXPECT(untouched(&l));
    }
    EXPECT(refused(compile_into(&l, LIST(words), NULL, 0, long_enough), FERVOULK_COUNT, 17));
    EXPECT(untouched(&l));
    EXPECT(refused(compile_into(&l, NULL, 0, LIST(numbers), long_enough), FERVOULK_WORDS, 0));
    EXPECT(untouched(&l));
    EXPECT(refused(
        fervoulk_compile(NETWORK, NULL, 0, NULL, 0, NULL, 0, NULL, 0, NULL, 0, NULL, 0, NULL, 0), FERVOULK_SHORT, 1));
    EXPECT(refused(
        fervoulk_compile(NULL, 0, NULL, 0, NULL, 0, NULL, 0, NULL, 0, NULL, 0, NULL, 0, NULL, 0, NULL, 0), FERVOULK_WORDS, 0));
    EXPECT(fervoulk_words(NULL, 0, NULL, 0) == 0);
    EXPECT(fervoulk_constants(NULL, 0, NULL, 0) == 0);
    EXPECT(fervoulk_columns(NULL, 0, NULL, 0) == 0);
    EXPECT(fervoulk_rows(NULL, 0, NULL, 0) == 0);
    EXPECT(fervoulk_shared(NULL, 0, NULL, 0) == 0);
    EXPECT(same_bits(fervoulk_objective_constant(NULL, 0, NULL, 0), 0));
}

int main(void) {
    test_answers();
    test_nans();
    test_find_row();
    test_same();
    test_row_values();
    test_row_values_lists();
    test_check();
    test_tolerances();
    test_outputs();
    test_residuals();
    test_check_lists();
    test_compile();
    test_compile_refused();
    printf("boundary: %d checks, %d wrong\n", checks, wrong);
    return wrong == 0 ? 0 : 1;
}
