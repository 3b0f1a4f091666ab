/* Job lines (oracle/README.md) read into the record of a request, for the drivers in C. */
#include "lensbench.h"
#include <stdio.h>
#include <stdlib.h>
#include <string.h>

/* a job line: its name, its request, the slot where it is a trace (kind 5), and the limits too where it is one within limits (kind 6); kind 4 is an evaluation */
typedef struct {
    char name[64];
    LensRequest request;
    uint64_t slot;
    LensThicknessLimits limits;
} Line;

static char *word(void) {
    char *w = strtok(NULL, " \n");
    if (!w) { fprintf(stderr, "a line is cut\n"); exit(1); }
    return w;
}
static uint64_t count(void) { return strtoull(word(), NULL, 10); }
static double number(void) { uint64_t b = strtoull(word(), NULL, 16); double x; memcpy(&x, &b, 8); return x; }

/* the word of setting i, or NULL where it is left out */
static char *setting(LensRequest *q, int i) {
    char *w = word();
    if (strcmp(w, "d") == 0) return NULL;
    q->given |= 1ull << i;
    return w;
}
static void count_setting(LensRequest *q, int i, uint64_t *to, int base) {
    char *w = setting(q, i);
    if (w) *to = strtoull(w, NULL, base);
}
static void number_setting(LensRequest *q, int i, double *to) {
    char *w = setting(q, i);
    if (w) { uint64_t b = strtoull(w, NULL, 16); memcpy(to, &b, 8); }
}

static void read_settings(LensRequest *q) {
    LensSettings *s = &q->job.settings;
    if (q->kind == LENS_ANNEALING) {
        number_setting(q, 6, &s->initial_temperature);
        number_setting(q, 7, &s->cooling_rate);
        count_setting(q, 8, &s->steps_per_temperature, 10);
        count_setting(q, 9, &s->max_cooling_cycles, 10);
        count_setting(q, 10, &s->seed, 16);
        return;
    }
    count_setting(q, 0, &s->max_iterations, 10);
    number_setting(q, 1, &s->initial_damping);
    number_setting(q, 2, &s->relative_merit_tolerance);
    number_setting(q, 3, &s->gradient_tolerance);
    number_setting(q, 4, &s->finite_difference_relative_step);
    if (q->kind == LENS_MULTI_START) count_setting(q, 5, &s->num_trials, 10), count_setting(q, 10, &s->seed, 16);
}

/* the section F: which variables have followers, of which sign, and at which surface */
static void read_followers(LensJob *j) {
    for (uint64_t many = count(); many > 0; many--) {
        uint64_t variable = count();
        if (variable >= j->variable_count) { fprintf(stderr, "a follower has no variable\n"); exit(1); }
        j->variables[variable].follows = count(), j->variables[variable].follower = count();
    }
}

/* 0 where a count passes what the record has room for: then the rest of the line is not read */
static int read_line(char *line, Line *to) {
    memset(to, 0, sizeof *to);
    LensRequest *q = &to->request;
    LensJob *j = &q->job;
    strtok(line, " ");
    snprintf(to->name, sizeof to->name, "%s", word());
    q->kind = count();
    word(), j->surface_count = count();
    if (j->surface_count > LENS_SURFACES) return 0;
    for (size_t i = 0; i < j->surface_count; i++) {
        LensSurface *s = &j->surfaces[i];
        s->radius_mm = number(), s->conic_constant = number(), s->thickness_mm = number(), s->semi_diameter_mm = number();
    }
    word(), j->slot_count = count();
    if (j->slot_count > LENS_SLOTS) return 0;
    for (size_t i = 0; i < j->surface_count; i++)
        for (size_t k = 0; k < j->slot_count; k++) j->indices[4 * i + k] = number();
    word(), j->entrance_pupil_diameter_mm = number();
    word(), j->variable_count = count();
    if (j->variable_count > LENS_VARIABLES) return 0;
    for (size_t i = 0; i < j->variable_count; i++) {
        LensVariable *v = &j->variables[i];
        v->kind = count(), v->surface_index = count(), v->enabled = count();
        v->min_value = number(), v->max_value = number(), v->step_size = number();
    }
    if (strcmp(word(), "F") == 0) read_followers(j), word();
    j->operand_count = count();
    if (j->operand_count > LENS_OPERANDS) return 0;
    for (size_t i = 0; i < j->operand_count; i++) {
        LensOperand *o = &j->operands[i];
        o->kind = count(), o->at = count(), o->limit_mm = number(), o->target = number(), o->weight = number();
    }
    word();
    if (q->kind <= LENS_ANNEALING) read_settings(q);
    if (q->kind == 5 || q->kind == 6) to->slot = count();
    if (q->kind == 6)
        for (size_t i = 0; i < j->surface_count; i++) to->limits.thicknesses[i].low = number(), to->limits.thicknesses[i].high = number();
    return 1;
}
