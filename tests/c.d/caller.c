/* What the header promises a caller beside the answers: names of their own, a zeroed request, followers, and how much stack the calls take.
   Ends with status 1, and says why, where something does not hold. */
#define _POSIX_C_SOURCE 200809L
#include "lensbench.h"
#include <math.h>
#include <pthread.h>
#include <stdio.h>
#include <stdlib.h>
#include <string.h>

/* names that the Rattle functions have: the library has to leave them to the caller */
uint32_t turn(void) { return 1; }
uint32_t fetch(void) { return 2; }
uint32_t release(void) { return 3; }
uint32_t admit_record(void) { return 4; }
uint32_t finished_places(void) { return 5; }
uint32_t deal(void) { return 6; }

static void must(int holds, const char *what) {
    if (!holds) { printf("caller: %s\n", what); exit(1); }
}

static LensRequest plano_convex(uint64_t kind) {
    LensRequest request = {.kind = kind};
    LensJob *job = &request.job;
    job->surface_count = 2, job->slot_count = 1, job->entrance_pupil_diameter_mm = 8;
    job->surfaces[0] = (LensSurface){64, 0, 16, 10};
    job->surfaces[1] = (LensSurface){INFINITY, 0, 0, 10};
    job->indices[0] = 2, job->indices[4] = 1;
    job->variable_count = 1, job->variables[0] = (LensVariable){LENS_CURVATURE, 0, 1, -1, 1, 1e-4, LENS_FOLLOWS_NOTHING, 0};
    job->operand_count = 1, job->operands[0] = (LensOperand){LENS_FOCAL_LENGTH, 0, 0, 60, 4};
    return request;
}

/* the settings that lensbench.h names as defaults */
static LensSettings defaults(uint64_t kind) {
    return (LensSettings){kind == LENS_MULTI_START ? 20 : 50, kind == LENS_DAMPED ? 0.01 : 1, 1e-6, 1e-7, 1e-5, 10, 100, 0.9, 15, 25, kind == LENS_ANNEALING ? 12345 : 42};
}

/* a request that gives nothing makes the job of one that gives every default, in each kind; and all zero is no request */
static void zeroed(void) {
    static LensBench one, other, empty;
    for (uint64_t kind = LENS_DAMPED; kind <= LENS_ANNEALING; kind++) {
        LensRequest left = plano_convex(kind), given = plano_convex(kind);
        given.given = LENS_GIVES_ALL, given.job.settings = defaults(kind);
        must(lens_admit(&one, 0, &left) == LENS_DONE && lens_admit(&other, 0, &given) == LENS_DONE, "a request is refused");
        must(memcmp(&one, &other, sizeof one) == 0, "the defaults are others than the header says");
        for (int i = 0; i < 11; i++) {
            LensRequest alone = plano_convex(kind);
            alone.given = 1u << i, alone.job.settings = defaults(kind);
            must(lens_release(&other, 0) == LENS_DONE && lens_admit(&other, 0, &alone) == LENS_DONE, "a request is refused");
            must(memcmp(&one, &other, sizeof one) == 0, "a default is another than the header says");
        }
        must(lens_release(&one, 0) == LENS_DONE && lens_release(&other, 0) == LENS_DONE, "release");
        must(memcmp(&one, &empty, sizeof one) == 0, "a released bench is not zero");
    }
    static const LensRequest zero;
    must(lens_admit(&one, 0, &zero) == LENS_BAD_COUNT, "a request of kind 0 is taken");
}

/* a lens that is its own mirror image stays so, in each kind of run; what a follower is refused with; and none has no surface */
static void followers(void) {
    static LensBench bench, other;
    static double scratch[LENS_SCRATCH];
    static LensResult result;
    for (uint64_t kind = LENS_DAMPED; kind <= LENS_ANNEALING; kind++) {
        LensRequest request = plano_convex(kind);
        LensVariable *variable = &request.job.variables[0];
        request.job.surfaces[1] = (LensSurface){-64, 0, 0, 10};
        variable->follower = 9;
        must(lens_admit(&bench, 0, &request) == LENS_DONE, "the surface of no follower is looked at");
        variable->follower = 0;
        must(lens_admit(&other, 0, &request) == LENS_DONE && !memcmp(&bench, &other, sizeof bench), "the surface of no follower is kept");
        must(lens_release(&bench, 0) == LENS_DONE && lens_release(&other, 0) == LENS_DONE, "release");
        variable->follows = LENS_FOLLOWS_MINUS, variable->follower = 1;
        must(lens_admit(&bench, 0, &request) == LENS_DONE, "a follower is refused");
        while (lens_turn(&bench, 0, scratch, LENS_SCRATCH) == LENS_DONE) continue;
        must(lens_fetch(&bench, 0, &result) == LENS_DONE && lens_release(&bench, 0) == LENS_DONE, "a run with a follower");
        must(result.final_merit < result.initial_merit && result.surfaces[0].radius_mm != 64, "a run with a follower stands still");
        must(result.surfaces[1].radius_mm == -result.surfaces[0].radius_mm, "a symmetric lens has become another");
        variable->follower = 2, must(lens_admit(&bench, 0, &request) == LENS_BAD_FOLLOWER, "an absent follower");
        request.job.operands[0].weight = -1, must(lens_admit(&bench, 0, &request) == LENS_BAD_FOLLOWER, "a follower comes before an operand");
        variable->step_size = -1, must(lens_admit(&bench, 0, &request) == LENS_BAD_VARIABLE, "a variable comes before a follower");
        variable->follows = LENS_FOLLOWS_MINUS + 1, must(lens_admit(&bench, 0, &request) == LENS_BAD_COUNT, "a sign that is none");
        *variable = (LensVariable){LENS_THICKNESS, 0, 0, 1, 2, 0, LENS_FOLLOWS_MINUS, 0};
        must(lens_admit(&bench, 0, &request) == LENS_BAD_FOLLOWER, "the opposite of a thickness");
    }
}

/* the same job at all four places, dealt its turns from the next place on; refused, nothing is dealt */
static void dealt_to_the_end(LensBench *bench, const LensRequest *request, double *scratch) {
    size_t first = bench->next_place;
    for (size_t place = 0; place < LENS_PLACES; place++) must(lens_admit(bench, place, request) == LENS_DONE, "admit");
    LensDealt answer = lens_deal(bench, 3, scratch, LENS_SCRATCH - 1);
    must(answer.number == LENS_SHORT_SCRATCH && answer.dealt == 0 && bench->next_place == first, "a dealing with little scratch");
    answer = lens_deal(bench, 3, scratch, LENS_SCRATCH);
    must(answer.number == LENS_DONE && answer.dealt == 3 && bench->next_place == (first + 3) % LENS_PLACES, "a dealing of three turns");
    do answer = lens_deal(bench, UINT16_MAX, scratch, LENS_SCRATCH);
    while (answer.number == LENS_DONE && answer.dealt > 0);
    must(answer.number == LENS_DONE && lens_finished_places(bench).count == LENS_PLACES, "dealt to the end");
    bench->next_place = LENS_PLACES;
    must(lens_deal(bench, 0, scratch, LENS_SCRATCH).number == LENS_DAMAGED, "a next place above 3");
    bench->next_place = first;
    for (size_t place = 0; place < LENS_PLACES; place++) must(lens_release(bench, place) == LENS_DONE, "release");
}

/* a run of each kind, and a lens by itself, as big as they come */
static void run_all(void) {
    static LensBench bench;
    static double scratch[LENS_SCRATCH];
    static LensResult result;
    static LensEvaluation evaluation;
    static LensRay rays[LENS_SURFACES];
    static LensThicknessLimits limits;
    static LensTraceLimits traced, before;
    for (uint64_t kind = LENS_DAMPED; kind <= LENS_ANNEALING; kind++) {
        LensRequest request = plano_convex(kind);
        LensJob *job = &request.job;
        job->surface_count = 16, job->slot_count = 4, job->variable_count = 8, job->operand_count = 12;
        for (size_t i = 1; i < 16; i++) job->surfaces[i] = (LensSurface){i % 2 ? -90 : 70, 0, 2, 10};
        for (size_t i = 0; i < 64; i++) job->indices[i] = i / 4 % 2 ? 1 : 1.5 + 0.01 * (double)(i % 4);
        for (size_t i = 0; i < 8; i++) job->variables[i] = (LensVariable){i % 4, i, 1, 0.001, 20, 1e-3, i % 3, 15 - i};
        job->variables[3].follows = job->variables[5].follows = LENS_FOLLOWS_PLUS; /* a semi-diameter and a thickness */
        for (size_t i = 0; i < 12; i++) job->operands[i] = (LensOperand){i % 7, i % 4, 3, 60, 1};
        must(lens_admit(&bench, 0, &request) == LENS_DONE, "admit");
        while (lens_turn(&bench, 0, scratch, LENS_SCRATCH) == LENS_DONE) continue;
        must(lens_finished_places(&bench).count == 1 && lens_fetch(&bench, 0, &result) == LENS_DONE && lens_release(&bench, 0) == LENS_DONE, "a run");
        bench.next_place = kind, dealt_to_the_end(&bench, &request, scratch);
        must(lens_evaluate(job, &evaluation) == LENS_DONE && lens_trace(job, 3, rays, 16) == LENS_DONE, "a lens by itself");
        for (size_t i = 0; i < 16; i++) limits.thicknesses[i] = (LensInterval){job->surfaces[i].thickness_mm, job->surfaces[i].thickness_mm};
        must(lens_trace_limits(job, &limits, 3, &traced) == LENS_DONE, "limits");
        for (size_t i = 0; i < 16; i++)
            must(!memcmp(&traced.heights[i].low, &rays[i].y, 8) && !memcmp(&traced.heights[i].high, &rays[i].y, 8) && !memcmp(&traced.slopes[i].low, &rays[i].u, 8) &&
                 !memcmp(&traced.slopes[i].high, &rays[i].u, 8), "limits equal to the nominal give its trace on both ends");
        limits.thicknesses[15].low += 1;
        before = traced;
        must(lens_trace_limits(job, &limits, 3, &traced) == LENS_BAD_LIMITS && !memcmp(&before, &traced, sizeof traced), "crossed limits");
    }
}

enum { STACK = 1 << 20, PROMISED = 64 * 1024 };
static unsigned char *stack;
static size_t used;

/* the stack below this frame is marked, and looked at afterwards */
static void *measured(void *unused) {
    (void)unused;
    unsigned char here;
    size_t free_bytes = (size_t)(&here - stack) - 4096;
    memset(stack, 0xa5, free_bytes);
    run_all();
    size_t untouched = 0;
    while (untouched < free_bytes && stack[untouched] == 0xa5) untouched++;
    used = (size_t)(&here - stack) - untouched;
    return NULL;
}

static void stack_taken(void) {
    pthread_attr_t attributes;
    pthread_t thread;
    stack = aligned_alloc(4096, STACK);
    must(stack != NULL && pthread_attr_init(&attributes) == 0 && pthread_attr_setstack(&attributes, stack, STACK) == 0, "no stack to measure on");
    must(pthread_create(&thread, &attributes, measured, NULL) == 0 && pthread_join(thread, NULL) == 0, "no thread");
    must(used <= PROMISED, "the calls take more stack than the header says");
    free(stack);
}

int main(void) {
    must(lens_abi() == LENS_ABI, "the library is of another ABI than the header");
    must(turn() == 1 && fetch() == 2 && release() == 3 && admit_record() == 4 && finished_places() == 5 && deal() == 6, "a name of the caller's is taken");
    zeroed();
    followers();
    stack_taken();
    printf("caller: names, defaults, followers and ABI are as the header says; %zu bytes of stack taken, %d promised\n", used, PROMISED);
    return 0;
}
