/*
 * Fervoulk's C boundary: compile, check, the finder and row values, for a host in C, C++ or Rust.
 *
 * The functions stand in the archives that include/archives.txt lists, target/staticlib/libNAME.a for a NAME of the list
 * (tests/boundary/archives writes them), for x86-64 Linux; each section below names its own. Link any of them, in any order; they need
 * memcpy and memset of the C library and nothing else. docs/FORMAT.md says what the files, the refusals, the check and row values are, and
 * works an example; "document 01" is the paper behind it. The contracts are proved for the functions named here, as they stand in
 * crates/NAME_c/src.
 *
 * What the caller owes. Nothing proves a caller in C:
 *  - A list is a pointer and the number of its elements. The pointer is aligned for its type (4 bytes for words, 8 for doubles) and
 *    valid for that many elements, initialized, also those that are only written.
 *  - An empty list is length 0 with any pointer, NULL too: nothing is read or written through it. NULL with another length is an error of
 *    the caller that nothing catches.
 *  - A list that a function writes (its pointer is not const) overlaps no other list of the same call. Lists that are only read may
 *    overlap each other. No other thread writes a list during the call, or reads one that the call writes.
 *  - Floats are rounded to nearest, with subnormals, as a C program starts; do not change that mode around a call.
 *
 * Beyond that any words, numbers and lengths may be handed in. Every call ends and answers, keeps no pointer and no state, and may run in
 * several threads at once. A list holds, after the call, either the finished result in its front part with the rest as it was, or,
 * after a refusal, exactly what it held before. Row values take some 72 KiB of stack, the check some 34 KiB and fervoulk_residuals about as
 * much, compile 6 KiB, the finder and the two counts less than 4 KiB.
 */
#ifndef FERVOULK_H
#define FERVOULK_H

#include <stddef.h>
#include <stdint.h>

#ifdef __cplusplus
extern "C" {
#endif

/* Rattle's usize is 64 bits wide, and so must size_t be. */
typedef char fervoulk_size_t_has_64_bits[sizeof(size_t) == 8 ? 1 : -1];

/* ---- Refusals: a number and a place in one answer */

/*
 * The refusals' numbers, each named by its word; 19 has none, and its name says what is refused. What the place is stands beside it.
 * Compile uses 1 to 12, the check 1 to 16 and 20, the finder 17 and 18; the first fault decides, by number, but 8, 9 and 10 branch by
 * branch, and 20 comes after 12 and before 13.
 * Row values use 17, 2, 12 and 13, in this order, then 14 and 19 part by part; fervoulk_row_values says what they are there.
 */
enum fervoulk_refusal {
    FERVOULK_NONE = 0,      /* nothing is refused; the place is 0 */
    FERVOULK_WORDS = 1,     /* network word of a wrong form, or a bus number too high: the first such word, 0 for an empty list */
    FERVOULK_SIZE = 2,      /* a limit passed: the word that passes it, 0 where there is no bus */
    FERVOULK_COUNT = 3,     /* number list not of the needed length: that length */
    FERVOULK_BLANK = 4,     /* required number not finite: its index */
    FERVOULK_CURVE = 5,     /* curve's power not above the one before: its index */
    FERVOULK_SHIFT = 6,     /* shift outside -1,024 to 1,024: its index */
    FERVOULK_BOUNDS = 7,    /* active bound not finite, or lower above upper: the column */
    FERVOULK_SPREAD = 8,    /* active angle bound not finite, or lower above upper: the branch */
    FERVOULK_RATING = 9,    /* active s_max not finite or below 0: the branch */
    FERVOULK_SQUARE = 10,   /* active s_max squared not finite: the branch */
    FERVOULK_FACTOR = 11,   /* constant, objective constant or start not finite: its index in these, one after the other */
    FERVOULK_SHORT = 12,    /* a written list too short: its number, from 1 */
    FERVOULK_POINT = 13,    /* point of a wrong length: the number of columns; else its first column that is not finite */
    FERVOULK_SWING = 14,    /* voltage angle outside -1,024 to 1,024: the column; in row values an argument: its part's beginning word */
    FERVOULK_DERIVED = 15,  /* output not finite: its index; 2n + 4m for the solver's objective, 2n + 4m + 1 for the check's own */
    FERVOULK_RESIDUAL = 16, /* a residual above its own tolerance: the first, from 1 */
    FERVOULK_MODEL = 17,    /* model words wrong: the first wrong word, the length where they run out, the end word with constants left */
    FERVOULK_ROW = 18,      /* no such row: the number of rows */
    FERVOULK_VALUE = 19,    /* value of a shared part, row or the objective not finite: the beginning word of that part of the file */
    FERVOULK_TOLERANCE = 20 /* list of other than eight tolerances: 0; else the first that is not finite or below 0, from 1 */
};

/*
 * From an answer of fervoulk_compile, fervoulk_check, fervoulk_residuals, fervoulk_find_row or fervoulk_row_values: the number, 0 where
 * nothing is refused.
 */
static inline uint32_t fervoulk_number(uint64_t answer) {
    return (uint32_t)(answer >> 32);
}

/* The place. FERVOULK_PLACE_MAX stands for itself and for every larger place. */
static inline uint32_t fervoulk_place(uint64_t answer) {
    return (uint32_t)(answer & UINT32_MAX);
}

#define FERVOULK_PLACE_MAX UINT32_MAX

/* The word for a refusal's number; an empty string for 19, which has no word, and for a number that is no refusal's, 0 among them. */
static inline const char *fervoulk_word(uint32_t number) {
    static const char *const words[] = {
        "", "words", "size", "count", "blank", "curve", "shift", "bounds", "spread", "rating",
        "square", "factor", "short", "point", "swing", "derived", "residual", "model", "row", "", "tolerance"};
    return number < sizeof words / sizeof words[0] ? words[number] : "";
}

/* ---- Compile: from the network file to the model file (libcompile.a) */

/*
 * Compiles the network of `words` and `numbers` (docs/FORMAT.md, "The network file"). Answers number and place, number 1 to 12 or 0.
 *
 * Where the number is 0, the front parts of the seven written lists hold:
 *   model_words     fervoulk_words      the model file's words
 *   constants       fervoulk_constants  its constants, in order of their running numbers
 *   column_lower    fervoulk_columns    each column's lower bound: va, vm, pg, qg, then one cost column per curve under header 1
 *   column_upper    fervoulk_columns    upper bounds
 *   start           fervoulk_columns    starts
 *   row_lower       fervoulk_rows       each row's lower bound
 *   row_upper       fervoulk_rows       upper bounds
 * (the second column names the function that answers how many elements), and what lies behind them is as it was. Where the number is not
 * 0, all seven lists are as they were. `words` and `numbers` are never written.
 */
uint64_t fervoulk_compile(
    const uint32_t *words, size_t words_length,
    const double *numbers, size_t numbers_length,
    uint32_t *model_words, size_t model_words_length,
    double *constants, size_t constants_length,
    double *column_lower, size_t column_lower_length,
    double *column_upper, size_t column_upper_length,
    double *start, size_t start_length,
    double *row_lower, size_t row_lower_length,
    double *row_upper, size_t row_upper_length);

/*
 * The other numbers of compile's answer, for lists that are just long enough: a host sizes its lists by them before it lends them. Each
 * is 0 where the network is refused (1 to 11); fervoulk_words is 0 only there. They write nothing.
 */

/* How many words the model file has. */
size_t fervoulk_words(const uint32_t *words, size_t words_length, const double *numbers, size_t numbers_length);

/* How many constants it has. */
size_t fervoulk_constants(const uint32_t *words, size_t words_length, const double *numbers, size_t numbers_length);

/* How many columns the model has. */
size_t fervoulk_columns(const uint32_t *words, size_t words_length, const double *numbers, size_t numbers_length);

/* How many rows. */
size_t fervoulk_rows(const uint32_t *words, size_t words_length, const double *numbers, size_t numbers_length);

/* How many shared parts: one for each bus and eight for each branch. */
size_t fervoulk_shared(const uint32_t *words, size_t words_length, const double *numbers, size_t numbers_length);

/* The objective constant, +0 where the network is refused. */
double fervoulk_objective_constant(const uint32_t *words, size_t words_length, const double *numbers, size_t numbers_length);

/* ---- Check: whether a solver's point is accepted (libvalidate.a) */

/*
 * The eight residuals, and the eight tolerances of the list that a caller lends with a point, in this order. A tolerance is finite and not
 * below 0; -0 is 0. A residual equal to its tolerance passes. Eight times 1e-6 is what the Rust takes.
 */
enum fervoulk_residual_of {
    FERVOULK_ACTIVE_BALANCE = 0,
    FERVOULK_REACTIVE_BALANCE = 1,
    FERVOULK_VARIABLE_BOUNDS = 2,
    FERVOULK_REFERENCE_ANGLES = 3,
    FERVOULK_ANGLE_LIMITS = 4,
    FERVOULK_THERMAL_LIMITS = 5,
    FERVOULK_EPIGRAPH = 6,
    FERVOULK_OBJECTIVE_DIFFERENCE = 7, /* over max(1, absolute objective) */
    FERVOULK_RESIDUAL_COUNT = 8        /* how many there are */
};

/*
 * How many outputs the check has for this network: 2n + 4m, with n buses and m branches. It is 0 where the network is refused (1 to 11),
 * and only there. It writes nothing. A list of this length is never refusal 12.
 */
size_t fervoulk_outputs(const uint32_t *words, size_t words_length, const double *numbers, size_t numbers_length);

/*
 * Checks `point`, a value for each column, of the network of `words` and `numbers`, with the solver's own objective `solver`, each residual
 * against its own of `tolerances`. Answers number and place, number 1 to 16, 20 or 0; 0 alone means that the point is accepted.
 *
 * Where the number is 0, `outputs` holds in front the fervoulk_outputs numbers: all p injections, all q injections, all p_from, all
 * q_from, all p_to, all q_to; the rest is as it was. Where it is not 0, all of `outputs` is as it was. A list shorter than
 * fervoulk_outputs is refusal 12, place 1. The other four lists are never written.
 */
uint64_t fervoulk_check(
    const uint32_t *words, size_t words_length,
    const double *numbers, size_t numbers_length,
    const double *point, size_t point_length,
    double solver,
    const double *tolerances, size_t tolerances_length,
    double *outputs, size_t outputs_length);

/*
 * The same check once more, on the same lists: answers the objective worked out from the point, +0 where the point is refused. Leaves
 * `outputs` as fervoulk_check does.
 */
double fervoulk_objective(
    const uint32_t *words, size_t words_length,
    const double *numbers, size_t numbers_length,
    const double *point, size_t point_length,
    double solver,
    const double *tolerances, size_t tolerances_length,
    double *outputs, size_t outputs_length);

/*
 * The same check once more: answers residual `i` of fervoulk_residual_of. There are residuals where the point is accepted and where it is
 * refused with 16; else, and for an `i` above 7, the answer is +0. Leaves `outputs` as fervoulk_check does.
 */
double fervoulk_residual(
    const uint32_t *words, size_t words_length,
    const double *numbers, size_t numbers_length,
    const double *point, size_t point_length,
    double solver,
    const double *tolerances, size_t tolerances_length,
    double *outputs, size_t outputs_length,
    size_t i);

/*
 * All eight residuals, in that order, and then the objective, by one run: in front of `report`, a list of nine or more. They do not depend
 * on tolerances, and none are lent. Answers number and place as fervoulk_check does for 1 to 15, but 12, place 1, is for `report`; never 16
 * nor 20. Where the number is 0, the list holds the nine numbers in front and the rest is as it was; where it is not 0, all of it is as it
 * was. The point is accepted only where fervoulk_check answers 0.
 */
uint64_t fervoulk_residuals(
    const uint32_t *words, size_t words_length,
    const double *numbers, size_t numbers_length,
    const double *point, size_t point_length,
    double solver,
    double *report, size_t report_length);

/* ---- Finder: one row of a model file (libnl.a). Nothing is written */

/*
 * Reads the whole model file of `words`, so many `constants` and so many `columns`, whoever wrote it, and looks for row `r`, from 0.
 * Answers number and place: 17 where the file does not pass reading, else 18 where it has no row `r`, else 0.
 */
uint64_t fervoulk_find_row(const uint32_t *words, size_t words_length, size_t constants, size_t columns, size_t r);

/* Where the words of row `r`'s expression start in `words`, behind the row's beginning word; 0 where fervoulk_find_row refuses. */
size_t fervoulk_row_start(const uint32_t *words, size_t words_length, size_t constants, size_t columns, size_t r);

/* How many words it has; 0 exactly where fervoulk_find_row refuses. */
size_t fervoulk_row_length(const uint32_t *words, size_t words_length, size_t constants, size_t columns, size_t r);

/*
 * 1 where two models have equal words, and constants equal as numbers (-0 is 0, and a NaN is equal to nothing), else 0. It reads no
 * file: any words and constants have an answer.
 */
uint32_t fervoulk_same(
    const uint32_t *words_a, size_t words_a_length,
    const double *constants_a, size_t constants_a_length,
    const uint32_t *words_b, size_t words_b_length,
    const double *constants_b, size_t constants_b_length);

/* ---- Row values: a model file worked out at a point (librow_values.a) */

/*
 * Works out every shared part, row and the objective of the model file of `words`, `constants` and so many `columns`, whoever wrote it, at
 * `point`, a value for each column. Answers number and place, 0 or the first of these:
 *   17      the file does not pass reading: the finder's place
 *   2       more than 4,352 shared parts: the beginning word of shared part 4,352
 *   12      a list shorter than its count: 1 for `shared`, 2 for `rows`
 *   13      `point` not of length `columns`, longer ones too: `columns`; else its first number that is not finite
 *   14, 19  part by part in file order, and 14 first within one: an argument of a sine or cosine not finite or outside -4,096 to 4,096; the
 *           part's value not finite. The place is the part's beginning word, of kind 10, 11 or, for the objective, 12
 *
 * Where the number is 0, `shared` holds in front the fervoulk_shared_count shared parts' values, `rows` the fervoulk_row_count rows'
 * values, all finite, and the rest is as it was. Where it is not 0, all of both is as it was. The other three lists are never written.
 *
 * Sine and cosine are fdlibm's, a square is the operand times itself, a sum runs left to right from its first term: every bit is defined.
 * A file that fervoulk_compile wrote is never refused with 17 or 2, nor with 14 where every va of the point is within -1,024 to 1,024.
 */
uint64_t fervoulk_row_values(
    const uint32_t *words, size_t words_length,
    const double *constants, size_t constants_length,
    size_t columns,
    const double *point, size_t point_length,
    double *shared, size_t shared_length,
    double *rows, size_t rows_length);

/*
 * The same once more, on the same lists: answers the objective's value, without the objective constant (which is no part of the file), +0
 * where fervoulk_row_values refuses. Leaves both lists as it does.
 */
double fervoulk_row_values_objective(
    const uint32_t *words, size_t words_length,
    const double *constants, size_t constants_length,
    size_t columns,
    const double *point, size_t point_length,
    double *shared, size_t shared_length,
    double *rows, size_t rows_length);

/*
 * How many shared parts the model file of `words`, so many `constants` and so many `columns` has, for a list that is just long enough and
 * never refusal 12. It is 0 where 17 or 2 refuses the file, and also where there are none. It writes nothing.
 */
size_t fervoulk_shared_count(const uint32_t *words, size_t words_length, size_t constants, size_t columns);

/* How many rows, likewise. */
size_t fervoulk_row_count(const uint32_t *words, size_t words_length, size_t constants, size_t columns);

#ifdef __cplusplus
}
#endif

#endif
