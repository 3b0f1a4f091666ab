/* A doublet through the bench: admitted, turned to its end, fetched, released. Its result is evaluated by itself, and traced.
   cc -Itarget/front examples/doublet.c target/front/liblensbench.a */
#include "lensbench.h"
#include <math.h>
#include <stdio.h>

static void add_surface(LensJob *job, double radius, double thickness, double index_blue, double index_green, double index_red) {
    size_t i = job->surface_count++;
    job->surfaces[i] = (LensSurface){radius, 0, thickness, 12.7};
    job->indices[4 * i] = index_blue;
    job->indices[4 * i + 1] = index_green;
    job->indices[4 * i + 2] = index_red;
}

static void add_operand(LensJob *job, uint64_t kind, uint64_t slot, double target) {
    job->operands[job->operand_count++] = (LensOperand){kind, slot, 0, target, 1};
}

/* every setting is left at its default */
static LensRequest doublet(void) {
    LensRequest request = {.kind = LENS_DAMPED};
    LensJob *job = &request.job;
    job->slot_count = 3;
    job->entrance_pupil_diameter_mm = 20;
    add_surface(job, 62.8, 4, 1.52238, 1.51680, 1.51432);
    add_surface(job, -45.7, 2.5, 1.68750, 1.67270, 1.66661);
    add_surface(job, -128.2, 97.1, 1, 1, 1);
    add_surface(job, INFINITY, 0, 1, 1, 1);
    for (uint64_t i = 0; i < 3; i++) /* nothing follows: these fields are left at 0 */
        job->variables[job->variable_count++] =
            (LensVariable){.kind = LENS_CURVATURE, .surface_index = i, .enabled = 1, .min_value = -0.05, .max_value = 0.05, .step_size = 1e-4};
    add_operand(job, LENS_FOCAL_LENGTH, 1, 100);
    add_operand(job, LENS_BACK_FOCUS, 0, 97.1);
    add_operand(job, LENS_BACK_FOCUS, 2, 97.1);
    return request;
}

static int failed(const char *what, uint32_t number) {
    fprintf(stderr, "doublet: %s: refused with %u\n", what, (unsigned)number);
    return 1;
}

int main(void) {
    static LensBench bench; /* zero: empty */
    static double scratch[LENS_SCRATCH];
    if (lens_abi() != LENS_ABI) return failed("another version is linked", lens_abi());
    LensRequest request = doublet();
    uint32_t number = lens_admit(&bench, 0, &request);
    if (number != LENS_DONE) return failed("admit", number);
    uint64_t turns = 0;
    while ((number = lens_turn(&bench, 0, scratch, LENS_SCRATCH)) == LENS_DONE) turns++;
    if (number != LENS_FINISHED) return failed("turn", number);
    LensFinished finished = lens_finished_places(&bench);
    LensResult result;
    if ((number = lens_fetch(&bench, 0, &result)) != LENS_DONE) return failed("fetch", number);
    if ((number = lens_release(&bench, 0)) != LENS_DONE) return failed("release", number);
    printf("%ju turns, %zu finished, %ju iterations\n", (uintmax_t)turns, finished.count, (uintmax_t)result.iterations);
    printf("merit %g, at first %g\n", result.final_merit, result.initial_merit);
    for (size_t i = 0; i < request.job.surface_count; i++)
        printf("surface %zu: radius %.6f thickness %.6f\n", i, result.surfaces[i].radius_mm, result.surfaces[i].thickness_mm);

    /* the merit that is printed is the merit of the surfaces that are handed back */
    LensJob job = request.job;
    for (size_t i = 0; i < job.surface_count; i++) job.surfaces[i] = result.surfaces[i];
    LensEvaluation evaluation;
    if ((number = lens_evaluate(&job, &evaluation)) != LENS_DONE) return failed("evaluate", number);
    if (evaluation.total_merit != result.final_merit) return failed("evaluate, another merit", 0);
    LensRay rays[LENS_SURFACES];
    if ((number = lens_trace(&job, 1, rays, job.surface_count)) != LENS_DONE) return failed("trace", number);
    printf("green ray: height %.6f at the first surface, %.6f at the last\n", rays[0].y, rays[job.surface_count - 1].y);
    return 0;
}
