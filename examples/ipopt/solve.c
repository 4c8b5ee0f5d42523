/*
 * solve [OPTION=VALUE ..] < NETWORK: a small host. It compiles a packed network file (examples/pack), solves the model file with Ipopt and
 * hands the point to the check; an accepted point is printed, a column a line. docs/SOLVER.md says why the options are as they are; further
 * ones, or others for these, are arguments. An option tolerance.RESIDUAL is not Ipopt's: it is the check's tolerance of that residual, 1e-6
 * where none is given. Ends with 0 exactly where the point is accepted, optimal or not.
 *
 * The values of rows and objective are the port's (fervoulk_row_values). First derivatives are taken from the model file's words, second
 * ones are left to Ipopt's quasi-Newton updates.
 */
#include <math.h>
#include <stdio.h>
#include <stdlib.h>
#include <string.h>

#include <IpStdCInterface.h>

#include "fervoulk.h"

enum kind { CONSTANT, COLUMN, SHARED, ADD, SUBTRACT, MULTIPLY, SQUARE, COSINE, SINE, SUM };

/* A model file, and what is worked out from it. An expression is named by the index of its first word. */
struct model {
    uint32_t *words;
    double *constants;
    size_t words_length, constants_length, columns, rows, shared;
    double constant;         /* the objective constant */
    double *point;           /* where the port worked out the next four; NULL before the first time */
    uint64_t answer;
    double *shared_value, *row_value, objective_value;
    size_t *part;            /* the expressions of the shared parts, then of the rows, then the objective */
    size_t *behind;          /* for each expression, the first word behind it */
    double *value, *slope;   /* for each expression, its value and the part's derivative by it */
    double *shared_slope;    /* the part's derivative by each shared part */
    double *gradient;        /* and by each column */
    Index *row_first, *row_column; /* the columns of row r are those from row_first[r] to row_first[r + 1] */
};

static void *list(size_t count, size_t size) {
    void *memory = calloc(count + 1, size);
    if (memory == NULL) exit(3);
    return memory;
}

static enum kind kind_of(uint32_t word) { return (enum kind)(word >> 28); }
static size_t load_of(uint32_t word) { return word & 0x0fffffff; }

static size_t operands(uint32_t word) {
    switch (kind_of(word)) {
    case CONSTANT: case COLUMN: case SHARED: return 0;
    case ADD: case SUBTRACT: case MULTIPLY: return 2;
    case SQUARE: case COSINE: case SINE: return 1;
    default: return load_of(word);
    }
}

/*
 * Every shared part, row and the objective at x, by the port; once for a point, whichever of Ipopt's functions asks first. Answers whether
 * there are values: where 14 or 19 refuses a trial point, Ipopt takes a shorter step.
 */
static Bool work_out(struct model *m, const double *x) {
    size_t size = m->columns * sizeof *x;
    if (m->point != NULL && memcmp(m->point, x, size) == 0) return m->answer == 0;
    if (m->point == NULL) m->point = list(m->columns, sizeof *m->point);
    memcpy(m->point, x, size);
    m->answer = fervoulk_row_values(m->words, m->words_length, m->constants, m->constants_length, m->columns, x, m->columns,
                                    m->shared_value, m->shared, m->row_value, m->rows);
    if (m->answer != 0) return 0;
    m->objective_value = fervoulk_row_values_objective(m->words, m->words_length, m->constants, m->constants_length, m->columns, x,
                                                       m->columns, m->shared_value, m->shared, m->row_value, m->rows);
    return 1;
}

/* ---- Derivatives, for which the value of each word is needed and not of each part alone */

/* An operator's operands stand behind it, so that a part is evaluated from its last word to its first. */
static void evaluate_part(struct model *m, size_t first, const double *x) {
    for (size_t at = m->behind[first]; at-- > first;) {
        size_t load = load_of(m->words[at]), a = at + 1;
        double *value = m->value;
        switch (kind_of(m->words[at])) {
        case CONSTANT: value[at] = m->constants[load]; break;
        case COLUMN: value[at] = x[load]; break;
        case SHARED: value[at] = value[m->part[load]]; break;
        case ADD: value[at] = value[a] + value[m->behind[a]]; break;
        case SUBTRACT: value[at] = value[a] - value[m->behind[a]]; break;
        case MULTIPLY: value[at] = value[a] * value[m->behind[a]]; break;
        case SQUARE: value[at] = value[a] * value[a]; break;
        case COSINE: value[at] = cos(value[a]); break;
        case SINE: value[at] = sin(value[a]); break;
        case SUM:
            value[at] = value[a];
            for (size_t i = 1; i < load; i++) value[at] += value[a = m->behind[a]];
        }
    }
}

static void evaluate(struct model *m, const double *x) {
    for (size_t p = 0; p < m->shared + m->rows + 1; p++) evaluate_part(m, m->part[p], x);
}

/* From the first word to the last: each operator hands its slope on to its operands. */
static void differentiate_part(struct model *m, size_t first, double by) {
    double *slope = m->slope, *value = m->value;
    slope[first] = by;
    for (size_t at = first; at < m->behind[first]; at++) {
        size_t load = load_of(m->words[at]), a = at + 1, b = m->behind[a];
        double d = slope[at];
        switch (kind_of(m->words[at])) {
        case CONSTANT: break;
        case COLUMN: m->gradient[load] += d; break;
        case SHARED: m->shared_slope[load] += d; break;
        case ADD: slope[a] = d; slope[b] = d; break;
        case SUBTRACT: slope[a] = d; slope[b] = -d; break;
        case MULTIPLY: slope[a] = d * value[b]; slope[b] = d * value[a]; break;
        case SQUARE: slope[a] = 2 * d * value[a]; break;
        case COSINE: slope[a] = -d * sin(value[a]); break;
        case SINE: slope[a] = d * cos(value[a]); break;
        case SUM: for (size_t i = 0; i < load; i++, a = m->behind[a]) slope[a] = d;
        }
    }
}

/* A part's gradient, after evaluate. A shared part names only lower ones, so that they are taken from the highest down. */
static void differentiate(struct model *m, size_t part) {
    memset(m->gradient, 0, m->columns * sizeof *m->gradient);
    memset(m->shared_slope, 0, m->shared * sizeof *m->shared_slope);
    differentiate_part(m, m->part[part], 1);
    for (size_t k = m->shared; k-- > 0;)
        if (m->shared_slope[k] != 0) differentiate_part(m, m->part[k], m->shared_slope[k]);
}

/* Marks, in gradient, the columns that a part depends on. */
static void reach(struct model *m, size_t part) {
    memset(m->gradient, 0, m->columns * sizeof *m->gradient);
    memset(m->shared_slope, 0, m->shared * sizeof *m->shared_slope);
    for (size_t p = part, k = m->shared;;) {
        for (size_t at = m->part[p]; at < m->behind[m->part[p]]; at++) {
            if (kind_of(m->words[at]) == COLUMN) m->gradient[load_of(m->words[at])] = 1;
            if (kind_of(m->words[at]) == SHARED) m->shared_slope[load_of(m->words[at])] = 1;
        }
        while (k > 0 && m->shared_slope[k - 1] == 0) k--;
        if (k == 0) return;
        p = --k;
    }
}

/* Finds parts, ends of expressions and each row's columns in the words that compile wrote. */
static void prepare(struct model *m) {
    size_t length = m->words_length, parts = m->shared + m->rows + 1, p = 0;
    m->shared_value = list(m->shared, sizeof *m->shared_value);
    m->row_value = list(m->rows, sizeof *m->row_value);
    m->part = list(parts, sizeof *m->part);
    m->behind = list(length, sizeof *m->behind);
    m->value = list(length, sizeof *m->value);
    m->slope = list(length, sizeof *m->slope);
    m->shared_slope = list(m->shared, sizeof *m->shared_slope);
    m->gradient = list(m->columns, sizeof *m->gradient);
    for (size_t at = length; at-- > 0;) {
        if (m->words[at] >> 28 > SUM) continue;
        m->behind[at] = at + 1;
        for (size_t i = operands(m->words[at]); i > 0; i--) m->behind[at] = m->behind[m->behind[at]];
    }
    for (size_t at = 0; p < parts; at = m->behind[at + 1]) m->part[p++] = at + 1;

    m->row_first = list(m->rows + 1, sizeof *m->row_first);
    m->row_column = list(m->rows * m->columns, sizeof *m->row_column);
    Index entries = 0;
    for (size_t r = 0; r < m->rows; r++) {
        m->row_first[r] = entries;
        reach(m, m->shared + r);
        for (size_t j = 0; j < m->columns; j++)
            if (m->gradient[j] != 0) m->row_column[entries++] = (Index)j;
    }
    m->row_first[m->rows] = entries;
}

/* ---- What Ipopt calls */

static Bool objective(Index n, Number *x, Bool new_x, Number *value, UserDataPtr model) {
    struct model *m = model;
    (void)n, (void)new_x;
    if (!work_out(m, x)) return 0;
    *value = m->objective_value + m->constant;
    return 1;
}

static Bool objective_gradient(Index n, Number *x, Bool new_x, Number *gradient, UserDataPtr model) {
    struct model *m = model;
    (void)new_x;
    evaluate(m, x);
    differentiate(m, m->shared + m->rows);
    memcpy(gradient, m->gradient, (size_t)n * sizeof *gradient);
    return 1;
}

static Bool rows(Index n, Number *x, Bool new_x, Index count, Number *values, UserDataPtr model) {
    struct model *m = model;
    (void)n, (void)new_x;
    if (!work_out(m, x)) return 0;
    memcpy(values, m->row_value, (size_t)count * sizeof *values);
    return 1;
}

static Bool row_gradients(Index n, Number *x, Bool new_x, Index count, Index entries, Index *row, Index *column, Number *values,
                          UserDataPtr model) {
    struct model *m = model;
    (void)n, (void)new_x, (void)entries;
    if (values != NULL) evaluate(m, x);
    for (Index r = 0; r < count; r++) {
        if (values != NULL) differentiate(m, m->shared + (size_t)r);
        for (Index e = m->row_first[r]; e < m->row_first[r + 1]; e++) {
            if (values != NULL) {
                values[e] = m->gradient[m->row_column[e]];
            } else {
                row[e] = r;
                column[e] = m->row_column[e];
            }
        }
    }
    return 1;
}

/* Ipopt's older versions want the function there, though they never call it. */
static Bool no_hessian(Index n, Number *x, Bool new_x, Number factor, Index count, Number *multipliers, Bool new_multipliers,
                       Index entries, Index *row, Index *column, Number *values, UserDataPtr model) {
    (void)n, (void)x, (void)new_x, (void)factor, (void)count, (void)multipliers, (void)new_multipliers;
    (void)entries, (void)row, (void)column, (void)values, (void)model;
    return 0;
}

/* ---- The host */

static int wrong(const char *what, const char *why) {
    fprintf(stderr, "solve: %s: %s\n", what, why);
    return 2;
}

/* tolerance.RESIDUAL=VALUE: the check's. Answers whether it is one; what the value is, the check looks at. */
static int set_tolerance(double *tolerances, const char *option) {
    static const char *const names[FERVOULK_RESIDUAL_COUNT] = {
        "active_balance", "reactive_balance", "variable_bounds", "reference_angles",
        "angle_limits", "thermal_limits", "epigraph", "objective"};
    const char prefix[] = "tolerance.";
    if (strncmp(option, prefix, strlen(prefix)) != 0) return 0;
    for (size_t i = 0; i < FERVOULK_RESIDUAL_COUNT; i++) {
        const char *name = option + strlen(prefix);
        size_t length = strlen(names[i]);
        if (strncmp(name, names[i], length) == 0 && name[length] == '=') {
            char *end;
            tolerances[i] = strtod(name + length + 1, &end);
            if (*end == '\0' && end != name + length + 1) return 1;
        }
    }
    exit(wrong("no tolerance of the check", option));
}

/* NAME=VALUE. Ipopt's whole numbers are written with digits only, its other numbers with a point or an exponent. */
static void set_option(IpoptProblem problem, const char *option) {
    char name[128], *end;
    const char *value = strchr(option, '=');
    Bool right = 0;
    if (value != NULL && (size_t)(value - option) < sizeof name) {
        memcpy(name, option, (size_t)(value - option));
        name[value++ - option] = '\0';
        double number = strtod(value, &end);
        if (*end != '\0' || end == value) right = AddIpoptStrOption(problem, name, (char *)value);
        else if (value[strspn(value, "0123456789")] == '\0') right = AddIpoptIntOption(problem, name, (Int)number);
        else right = AddIpoptNumOption(problem, name, number);
    }
    if (!right) exit(wrong("no option of Ipopt", option));
}

static void read_list(void *to, size_t size, size_t count) {
    if (fread(to, size, count, stdin) != count) exit(wrong("no network file", "less than its counts need"));
}

static int refused(const char *who, uint64_t answer) {
    uint32_t number = fervoulk_number(answer);
    printf("%s refuses: %u %s %u\n", who, (unsigned)number, fervoulk_word(number), (unsigned)fervoulk_place(answer));
    return 1;
}

int main(int count, char **arguments) {
    uint32_t counts[2];
    read_list(counts, sizeof *counts, 2);
    size_t nw = counts[0], nx = counts[1];
    uint32_t *words = list(nw, sizeof *words);
    double *numbers = list(nx, sizeof *numbers);
    read_list(words, sizeof *words, nw);
    read_list(numbers, sizeof *numbers, nx);
    if (getchar() != EOF) return wrong("no network file", "more than its counts need");

    struct model m = {.columns = fervoulk_columns(words, nw, numbers, nx), .rows = fervoulk_rows(words, nw, numbers, nx)};
    m.words_length = fervoulk_words(words, nw, numbers, nx);
    m.constants_length = fervoulk_constants(words, nw, numbers, nx);
    m.shared = fervoulk_shared(words, nw, numbers, nx);
    m.constant = fervoulk_objective_constant(words, nw, numbers, nx);
    m.words = list(m.words_length, sizeof *m.words);
    m.constants = list(m.constants_length, sizeof *m.constants);
    double *lower = list(m.columns, sizeof *lower), *upper = list(m.columns, sizeof *upper), *x = list(m.columns, sizeof *x);
    double *row_lower = list(m.rows, sizeof *row_lower), *row_upper = list(m.rows, sizeof *row_upper);
    uint64_t answer = fervoulk_compile(words, nw, numbers, nx, m.words, m.words_length, m.constants, m.constants_length, lower, m.columns,
                                       upper, m.columns, x, m.columns, row_lower, m.rows, row_upper, m.rows);
    if (answer != 0) return refused("compile", answer);
    prepare(&m);

    IpoptProblem problem = CreateIpoptProblem((Index)m.columns, lower, upper, (Index)m.rows, row_lower, row_upper, m.row_first[m.rows], 0,
                                              0, objective, rows, objective_gradient, row_gradients, no_hessian);
    if (problem == NULL) return 3;
    set_option(problem, "hessian_approximation=limited-memory");
    set_option(problem, "bound_relax_factor=0.0");
    set_option(problem, "constr_viol_tol=1e-7");
    set_option(problem, "dependency_detector=mumps");
    set_option(problem, "dependency_detection_with_rhs=yes");
    set_option(problem, "sb=yes"); /* no banner */
    double tolerances[FERVOULK_RESIDUAL_COUNT];
    for (size_t i = 0; i < FERVOULK_RESIDUAL_COUNT; i++) tolerances[i] = 1e-6;
    for (int i = 1; i < count; i++)
        if (!set_tolerance(tolerances, arguments[i])) set_option(problem, arguments[i]);
    double solver = 0;
    int status = IpoptSolve(problem, x, NULL, &solver, NULL, NULL, NULL, &m);
    FreeIpoptProblem(problem);
    printf("Ipopt's status: %d\nobjective: %.17g\n", status, solver);

    size_t outputs_length = fervoulk_outputs(words, nw, numbers, nx);
    double *outputs = list(outputs_length, sizeof *outputs);
    answer = fervoulk_check(words, nw, numbers, nx, x, m.columns, solver, tolerances, FERVOULK_RESIDUAL_COUNT, outputs, outputs_length);
    double report[9];
    if (fervoulk_residuals(words, nw, numbers, nx, x, m.columns, solver, report, 9) == 0) {
        printf("residuals:");
        for (size_t i = 0; i < 8; i++) printf(" %.2g", report[i]);
        printf("\n");
    }
    if (answer != 0) return refused("the check", answer);
    printf("accepted\n");
    for (size_t j = 0; j < m.columns; j++) printf("%.17g\n", x[j]);
    return 0;
}
