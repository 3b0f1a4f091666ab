/* lensbench.h: the lens bench for C and C++ on x86-64 Linux. Link liblensbench.a, which front/lib builds; it needs memcpy, memmove and memset, and nothing else.
 *
 * A bench has four places, 0 to 3. A job is admitted to an empty place and takes turns, one merit each, until a turn answers LENS_FINISHED; then its result
 * is fetched and its place released. Each job's number of turns is bounded beforehand. lens_deal hands out many turns in one call, fairly to all jobs.
 * lens_evaluate, lens_trace and lens_trace_limits need no bench.
 *
 * A call answers 0 where it is done (lens_deal in its record). Else it answers the first number that applies of those it refuses with, which stand at the call
 * in this order, and no byte of what it was lent has changed.
 * Any bench, place, record and length may be handed in: no value makes a call misbehave. What the caller owes, and nothing can check:
 *   - pointers are not null, are aligned to 8 bytes and reach the whole record, or as many entries as the length says;
 *   - what a call is lent does not overlap, unless the call writes to none of it;
 *   - while a call runs nobody else writes to what it was lent, nor reads what it writes: one bench, one thread at a time. Two benches are free of each
 *     other, since the library keeps nothing of its own;
 *   - 64 kB of stack are free.
 *
 * A LensBench of zero bytes alone is an empty bench (a static one, calloc, memset); there is nothing to end. Bytes of a bench may be stored and brought back,
 * by the same LENS_ABI. A LensRequest of zero bytes has every setting at its default; its kind, and the job's counts, must still be filled in.
 * Lengths are in mm. A flat surface has radius INFINITY. Entries past the counts are not looked at. */
#ifndef LENSBENCH_H
#define LENSBENCH_H

#include <stddef.h>
#include <stdint.h>

#ifdef __cplusplus
#define LENS_ASSERT(test, text) static_assert(test, text)
extern "C" {
#else
#define LENS_ASSERT(test, text) _Static_assert(test, text)
#endif

#if defined(__GNUC__) || defined(__clang__)
#define LENS_CALL __attribute__((nonnull, warn_unused_result))
#else
#define LENS_CALL
#endif

/* goes up with every change of a record: lens_abi() of the library that is linked must answer the same */
#define LENS_ABI 5

enum LensLimits { LENS_PLACES = 4, LENS_SURFACES = 16, LENS_SLOTS = 4, LENS_VARIABLES = 8, LENS_OPERANDS = 12, LENS_SCRATCH = 128 };

/* what a call answers */
enum LensNumbers {
    LENS_DONE = 0,
    LENS_BAD_COUNT = 1,      /* a count past its limit, no slot, a kind, mark or bit that is none, a row of rays that is not one per surface */
    LENS_NO_SUCH_PLACE = 2,  /* place above 3 */
    LENS_BAD_LENS = 3,       /* radius NaN, conic not finite, thickness beyond +-1e9, pupil or semi-diameter not in (0, 1e9], index not in (0, 10] */
    LENS_BAD_VARIABLE = 4,   /* absent surface, bounds crossed or beyond +-1e9, step not in [0, 1e9], a semi-diameter's bound not above 0 */
    LENS_BAD_OPERAND = 5,    /* absent slot, target or limit beyond +-1e9, weight negative or not finite */
    LENS_BAD_SETTING = 6,    /* damping not in [0, 1e8], relative step or cooling not in [0, 1], tolerance or temperature not finite, a count above 1000 */
    LENS_NO_VARIABLE = 7,    /* no variable is enabled */
    LENS_NO_OPERAND = 8,
    LENS_SHORT_SCRATCH = 9,  /* fewer than LENS_SCRATCH numbers */
    LENS_TAKEN = 10,         /* the place has a job */
    LENS_EMPTY = 11,         /* the place has none */
    LENS_DAMAGED = 12,       /* the place's bytes are none that the calls leave: release it. lens_deal: those of any place, or a next_place above 3 */
    LENS_FINISHED = 13,      /* the job is at its end: fetch it */
    LENS_UNFINISHED = 14,    /* the job is not at its end */
    LENS_BAD_FOLLOWER = 17,  /* absent surface, or minus with a thickness or semi-diameter */
    LENS_BAD_LIMITS = 19,    /* lens_trace_limits: fewer than two surfaces, limits crossed, or an end given or worked out that is not finite */
    LENS_NOT_TRACED = 100    /* lens_trace alone: nothing is refused, but fewer than two surfaces have no trace, and the rays are as they were */
};

/* LensRequest.kind */
enum LensKinds { LENS_DAMPED = 1, LENS_MULTI_START = 2, LENS_ANNEALING = 3 };

/* LensVariable.kind */
enum LensVariableKinds { LENS_CURVATURE = 0, LENS_THICKNESS = 1, LENS_CONIC = 2, LENS_SEMI_DIAMETER = 3 };

/* LensVariable.follows: whether a second surface gets the variable's values, as they are or negated */
enum LensSigns { LENS_FOLLOWS_NOTHING = 0, LENS_FOLLOWS_PLUS = 1, LENS_FOLLOWS_MINUS = 2 };

/* LensOperand.kind, and what `at` and `limit_mm` are to it */
enum LensOperandKinds {
    LENS_FOCAL_LENGTH = 0, /* at: slot */
    LENS_F_NUMBER = 1,     /* at: slot */
    LENS_TRACK = 2,        /* neither is looked at */
    LENS_BACK_FOCUS = 3,   /* at: slot */
    LENS_MAGNIFICATION = 4, /* at: slot */
    LENS_LEAST_CENTRE_THICKNESS = 5,   /* at: surface; the value is thickness - limit where that is negative, else 0; 100000 where the surface is absent */
    LENS_GREATEST_CENTRE_THICKNESS = 6, /* at: surface; the value is thickness - limit where that is positive, else 0; 100000 where the surface is absent */
    LENS_LEAST_EDGE_THICKNESS = 7       /* at: surface; the edge is thickness + sag of the next surface - sag of this one, both at the smaller of their
                                           semi-diameters; the value is edge - limit where that is negative, else 0; 100000 where a sag fails (the conic does
                                           not reach so far) or the surface or the next one is absent */
};

/* bits of LensRequest.given: the settings that are given; a setting without its bit has its default (damped job; multi-start's runs) */
enum LensSettingBits {
    LENS_GIVES_MAX_ITERATIONS = 1 << 0,            /* 50; 20 */
    LENS_GIVES_INITIAL_DAMPING = 1 << 1,           /* 0.01; 1 */
    LENS_GIVES_RELATIVE_MERIT_TOLERANCE = 1 << 2,  /* 1e-6 */
    LENS_GIVES_GRADIENT_TOLERANCE = 1 << 3,        /* 1e-7 */
    LENS_GIVES_FINITE_DIFFERENCE_STEP = 1 << 4,    /* 1e-5 */
    LENS_GIVES_NUM_TRIALS = 1 << 5,                /* multi-start: 10 */
    LENS_GIVES_INITIAL_TEMPERATURE = 1 << 6,       /* annealing: 100 */
    LENS_GIVES_COOLING_RATE = 1 << 7,              /* annealing: 0.9 */
    LENS_GIVES_STEPS_PER_TEMPERATURE = 1 << 8,     /* annealing: 15 */
    LENS_GIVES_MAX_COOLING_CYCLES = 1 << 9,        /* annealing: 25 */
    LENS_GIVES_SEED = 1 << 10,                     /* multi-start: 42, annealing: 12345 */
    LENS_GIVES_ALL = (1 << 11) - 1                 /* a bit beyond these is refused with 1; settings of another kind of job have no effect */
};

typedef struct LensSurface {
    double radius_mm, conic_constant, thickness_mm, semi_diameter_mm;
} LensSurface;

/* bounds and step are of the quantity that varies: of a curvature in 1/mm, not of a radius. A follower gets the same quantity straight after the surface
 * itself, before the next variable; values are read from surface_index alone. LENS_FOLLOWS_MINUS of a curvature keeps two surfaces each other's mirror image */
typedef struct LensVariable {
    uint64_t kind, surface_index, enabled; /* enabled is 0 or 1 */
    double min_value, max_value, step_size;
    uint64_t follows, follower; /* one of LensSigns, and the surface that follows: not looked at where nothing does */
} LensVariable;

typedef struct LensOperand {
    uint64_t kind, at;
    double limit_mm, target, weight;
} LensOperand;

typedef struct LensSettings {
    uint64_t max_iterations;
    double initial_damping, relative_merit_tolerance, gradient_tolerance, finite_difference_relative_step;
    uint64_t num_trials;
    double initial_temperature, cooling_rate;
    uint64_t steps_per_temperature, max_cooling_cycles, seed;
} LensSettings;

typedef struct LensJob {
    LensSurface surfaces[16];
    double indices[64]; /* of the medium behind surface i, in slot w: indices[4 * i + w], whatever slot_count is */
    LensVariable variables[8];
    LensOperand operands[12];
    uint64_t surface_count, slot_count, variable_count, operand_count;
    double entrance_pupil_diameter_mm;
    LensSettings settings;
} LensJob;

typedef struct LensRequest {
    LensJob job;
    uint64_t kind, given;
} LensRequest;

/* zero past the job's counts; converged is 0 or 1 */
typedef struct LensResult {
    LensSurface surfaces[16];
    double values[12], residuals[12], initial_merit, final_merit;
    uint64_t iterations, converged;
} LensResult;

/* zero past the count of operands */
typedef struct LensEvaluation {
    double values[12], residuals[12], total_merit;
} LensEvaluation;

/* the height of a paraxial ray at a surface, and its slope behind it */
typedef struct LensRay {
    double y, u;
} LensRay;

/* the two ends of an interval */
typedef struct LensInterval {
    double low, high;
} LensInterval;

/* the least and the greatest thickness behind each surface, the last too; entries past the surfaces are not looked at */
typedef struct LensThicknessLimits {
    LensInterval thicknesses[16];
} LensThicknessLimits;

/* the least and the greatest track, and for each surface those of the height at it and of the slope behind it; zero past the surfaces */
typedef struct LensTraceLimits {
    LensInterval track, heights[16], slopes[16];
} LensTraceLimits;

/* the first `count` of `places`; 0 past them */
typedef struct LensFinished {
    size_t places[4], count;
} LensFinished;

/* number is what the call answers; where it is not LENS_DONE, dealt is 0 */
typedef struct LensDealt {
    uint32_t dealt, number;
} LensDealt;

/* to be read by the calls alone, but for the place at which the next dealing begins, 0 to 3: lens_deal alone reads and writes that one */
typedef struct LensBench {
    uint64_t opaque[2352];
    size_t next_place;
} LensBench;

LENS_ASSERT(sizeof(size_t) == 8 && sizeof(double) == 8, "lensbench.h is for x86-64");
LENS_ASSERT(sizeof(LensSurface) == 32 && sizeof(LensVariable) == 64 && sizeof(LensOperand) == 40, "lensbench.h: a record has padding");
LENS_ASSERT(sizeof(LensSettings) == 88 && sizeof(LensJob) == 2144 && sizeof(LensRequest) == 2160, "lensbench.h: a record has padding");
LENS_ASSERT(sizeof(LensResult) == 736 && sizeof(LensEvaluation) == 200 && sizeof(LensRay) == 16, "lensbench.h: a record has padding");
LENS_ASSERT(sizeof(LensInterval) == 16 && sizeof(LensThicknessLimits) == 256 && sizeof(LensTraceLimits) == 528, "lensbench.h: a record has padding");
LENS_ASSERT(sizeof(LensFinished) == 40 && sizeof(LensDealt) == 8 && sizeof(LensBench) == 18824, "lensbench.h: a record has padding");

/* LENS_ABI of the library that is linked */
uint32_t lens_abi(void);

/* a job comes to an empty place; nothing is worked out yet. 1, 2, 3, 4, 17, 5, 6, 7, 8 and 10 */
LENS_CALL uint32_t lens_admit(LensBench *bench, size_t place, const LensRequest *request);

/* one merit of the job at the place. The first LENS_SCRATCH numbers of scratch are +0.0 afterwards, the others are not touched. 2, 9, 11, 12 and 13 */
LENS_CALL uint32_t lens_turn(LensBench *bench, size_t place, double *scratch, size_t scratch_length);

/* hands out so many turns, one each, round the places in rising order from next_place on, until all are spent or no job is left. Empty and finished places are
 * skipped, and one that its turn leaves damaged is so from then on. next_place becomes the place after the last served, 0 after 3, and scratch is left as by a
 * turn; where none is served, neither changes. In a run of dealings two jobs that are neither finished nor damaged differ by at most one in the turns dealt to
 * them, and each is served within four. 9; then 12, with 0 turns too, for a next_place above 3 or a damaged row at any place, finished or not.
 * A number above 65535 does not arrive: C keeps its low 16 bits. */
LENS_CALL LensDealt lens_deal(LensBench *bench, uint16_t turns, double *scratch, size_t scratch_length);

/* the result of a finished job, which stays at its place. 2, 11, 12 and 14 */
LENS_CALL uint32_t lens_fetch(const LensBench *bench, size_t place, LensResult *result);

/* the place becomes empty, whatever it has. 2 and 11 */
LENS_CALL uint32_t lens_release(LensBench *bench, size_t place);

/* the places whose jobs are finished: fewest working turns first, equal ones by rising place. Refuses nothing */
LENS_CALL LensFinished lens_finished_places(const LensBench *bench);

/* each operand's value and weighted residual, and the merit, of the job's lens as it stands; variables and settings are not looked at. 1, 3 and 5 */
LENS_CALL uint32_t lens_evaluate(const LensJob *job, LensEvaluation *evaluation);

/* the paraxial rays of the job's lens in a slot, one per surface: ray_count is the job's surface_count. Operands are not looked at either. 1, 3, 5 and 100 */
LENS_CALL uint32_t lens_trace(const LensJob *job, size_t slot, LensRay *rays, size_t ray_count);

/* the same with each thickness known only within limits: ends that every trace with thicknesses inside the limits, and its track, lie between. The job's own
 * thicknesses are checked and else not looked at; limits equal to them give its trace on both ends, to the bit. 1, 3, 5 and 19 */
LENS_CALL uint32_t lens_trace_limits(const LensJob *job, const LensThicknessLimits *limits, size_t slot, LensTraceLimits *traced);

#ifdef __cplusplus
}
#endif
#endif
