/* The insides of a bench, which no caller but a test reads, and a NaN of another payload for each of its f64. */
#include "lensbench.h"
#include <string.h>

/* in the order of crates/held/src/types.rt, with the names that its places have there */
typedef struct {
    uint64_t kind, turns, phase, iteration, column, attempt, converged, generator, trial, cycle, step, best_iterations, best_converged;
    double initial_merit, damping, temperature, current_merit, total_merit, best_initial_merit, best_final_merit;
    uint64_t surface_count, slot_count, variable_count, operand_count, count_settings[5];
    struct { uint64_t kind, surface_index, enabled, follows, follower; } variables[8];
    uint64_t operands[24];
    double job_surfaces[64], indices[64], pupil, damped_settings[4], annealing_settings[2], variable_numbers[24], operand_numbers[36];
    double surfaces[64], jacobian[96], values[12], residuals[12], plus_residuals[12], params[8], candidate[8];
    double best_surfaces[64], best_values[12], best_residuals[12];
} Row;
typedef union {
    LensBench lent;
    struct {
        Row rows[4];
        size_t next_place;
    };
} Bench;
LENS_ASSERT(sizeof(Bench) == sizeof(LensBench), "the rows and the next place are all that a bench has");

/* ---- NaN of any sign and payload, quiet and signalling */
static uint64_t state = 0x9e3779b97f4a7c15;
static void mark(void *at, size_t bytes) {
    for (size_t i = 0; i < bytes; i += 8) {
        state ^= state << 13, state ^= state >> 7, state ^= state << 17;
        uint64_t bits = state | 0x7ff0000000000000;
        if ((bits & 0x000fffffffffffff) == 0) bits |= 1;
        memcpy((char *)at + i, &bits, 8);
    }
}
#define MARK(object) mark(&(object), sizeof(object))
#define MARK_FROM(array, n) mark((array) + (n), sizeof(array) - (n) * sizeof *(array))

/* what a row works with, which refusal 12 does not look at */
static void mark_work(Row *r) {
    MARK(r->jacobian), MARK(r->values), MARK(r->residuals), MARK(r->plus_residuals), MARK(r->params), MARK(r->candidate);
    MARK(r->initial_merit), MARK(r->damping), MARK(r->temperature), MARK(r->current_merit), MARK(r->total_merit);
    MARK(r->best_values), MARK(r->best_residuals), MARK(r->best_initial_merit), MARK(r->best_final_merit);
}
static void mark_job(Row *r, size_t surfaces, size_t variables, size_t operands) {
    MARK_FROM(r->job_surfaces, 4 * surfaces), MARK_FROM(r->indices, 4 * surfaces);
    MARK_FROM(r->variable_numbers, 3 * variables), MARK_FROM(r->operand_numbers, 3 * operands);
}
static void mark_row(Row *r) {
    mark_job(r, 0, 0, 0);
    MARK(r->pupil), MARK(r->damped_settings), MARK(r->annealing_settings), MARK(r->surfaces), MARK(r->best_surfaces);
    mark_work(r);
}
/* every f64 that the row's kind and counts leave unused, or that refusal 12 does not look at: the row is no more damaged than before */
static void mark_unlooked(Row *r) {
    size_t n = r->surface_count;
    mark_job(r, n, r->variable_count, r->operand_count);
    for (size_t i = 0; i < n; i++)
        for (size_t k = r->slot_count; k < 4; k++) MARK(r->indices[4 * i + k]);
    if (r->kind == LENS_ANNEALING) MARK(r->damped_settings);
    else MARK(r->annealing_settings);
    MARK_FROM(r->surfaces, 4 * n), MARK_FROM(r->best_surfaces, 4 * n);
    mark_work(r);
}
