/* The exported calls from C, against the oracle's answers to the same job lines (oracle/README.md): each result bit for bit, each refusal's number; and
   after every refused call, and every listing, every byte of bench, result, evaluation, rays, limits and scratch as it was, with a NaN of another payload in each
   f64 of theirs. Usage: lent ANSWERS < lines. Prints how many calls of each sort were tried; ends with status 1 at the first that is wrong. */
#define PROGRAM "lent"
#include "tries.h"

enum { LONG = 300 };
static struct Lent {
    Bench bench;
    LensResult result;
    LensEvaluation evaluation;
    LensRay rays[LENS_SURFACES + 1];
    LensTraceLimits limits;
    double scratch[LONG];
} now, before, safe;

static size_t skipped, admits, turns, fetches, releases, listings, evaluations, traces, within, results;
static int finished[4]; /* the places whose jobs are at their end */
static uint64_t used[4]; /* and the turns that each took */

static void mark_entries(LensJob *j, size_t surfaces, size_t variables, size_t operands) {
    MARK_FROM(j->surfaces, surfaces);
    MARK_FROM(j->indices, 4 * surfaces);
    for (size_t i = variables; i < 8; i++) MARK(j->variables[i].min_value), MARK(j->variables[i].max_value), MARK(j->variables[i].step_size);
    for (size_t i = operands; i < 12; i++) MARK(j->operands[i].limit_mm), MARK(j->operands[i].target), MARK(j->operands[i].weight);
}
static void mark_lent(void) {
    MARK(now.result.surfaces), MARK(now.result.values), MARK(now.result.residuals), MARK(now.result.initial_merit), MARK(now.result.final_merit);
    MARK(now.evaluation), MARK(now.rays), MARK(now.limits), MARK(now.scratch);
}

static void keep(void) { memcpy(&before, &now, sizeof now); }
static int kept(void) { return memcmp(&before, &now, sizeof now) == 0; }

static void expect(const char *what, uint32_t number, uint32_t wanted) {
    if (number != wanted) fail("%s: number %u, not %u", what, number, wanted);
    if (!kept()) fail("%s: something has changed", what);
}

/* the bench with all f64 marked but those of the row at `place` that its answers hang on; 4 for all of them */
static void mark_all(size_t place) {
    memcpy(&safe, &now, sizeof now);
    for (size_t p = 0; p < 4; p++) {
        if (p == place) mark_unlooked(&now.bench.rows[p]);
        else mark_row(&now.bench.rows[p]);
    }
    mark_lent();
    keep();
}
static void restore(void) { memcpy(&now, &safe, sizeof now); }

/* a refused call, on a bench so marked */
#define UNLOOKED(what, call, wanted, place) (mark_all(place), expect(what, call, wanted), restore())
#define ALL(what, call, wanted) UNLOOKED(what, call, wanted, 4)

/* the listing: each of these places once, no other, fewest turns first, then rising, 0 past them; and nothing changes */
static int comes_before(size_t p, size_t q) { return used[p] < used[q] || (used[p] == used[q] && p < q); }
static void listed(const int *places) {
    keep();
    LensFinished f = lens_finished_places(&now.bench.lent);
    int seen[4] = {0};
    if (!kept()) fail("listing: something has changed");
    if (f.count > 4) fail("listing: count %zu", f.count);
    for (size_t i = 0; i < 4; i++) {
        if (i >= f.count && f.places[i] != 0) fail("listing: place %zu past the count", f.places[i]);
        if (i < f.count && (f.places[i] > 3 || seen[f.places[i]]++)) fail("listing: place %zu again, or none", f.places[i]);
        if (i > 0 && i < f.count && !comes_before(f.places[i - 1], f.places[i])) fail("listing: place %zu before %zu", f.places[i - 1], f.places[i]);
    }
    for (size_t p = 0; p < 4; p++)
        if (seen[p] != places[p]) fail("listing: place %zu is %s", p, seen[p] ? "listed" : "missing");
    listings++;
}
/* as it is; with what it does not hang on marked; and with all marked, when no row is left undamaged */
static void lists(void) {
    static const int none[4];
    listed(finished);
    memcpy(&safe, &now, sizeof now);
    for (size_t p = 0; p < 4; p++) mark_unlooked(&now.bench.rows[p]);
    listed(finished);
    for (size_t p = 0; p < 4; p++) mark_row(&now.bench.rows[p]);
    listed(none);
    restore();
}

/* ---- answers, as the oracle writes them */
static char *out;
static void say(const char *form, ...) {
    va_list rest;
    va_start(rest, form);
    out += vsprintf(out, form, rest);
    va_end(rest);
}
static void say_number(double x) {
    uint64_t b;
    memcpy(&b, &x, 8);
    if (x != x) say(" nan");
    else say(" %016jx", (uintmax_t)b);
}
static void say_numbers(const char *what, const double *x, size_t many) {
    say(" %s %zu", what, many);
    for (size_t i = 0; i < many; i++) say_number(x[i]);
}
static char ours[65536];
static void begin(void) { out = ours, say("R %s %ju", line.name, (uintmax_t)line.request.kind); }
/* the answer as far as it is ours: without the digest, and without the properties that come after a trace */
static void compare(const char *answer) {
    const char *rest = answer + strlen(ours);
    if (strncmp(ours, answer, strlen(ours)) != 0 || (strchr("\n", *rest) == NULL && strncmp(rest, " H ", 3) != 0 && strncmp(rest, " P ", 3) != 0))
        fail("another answer than the oracle's:\n%s\n%s", ours, answer);
    results++;
}
static int all_zero(const void *from, size_t many) {
    for (size_t i = 0; i < many; i++)
        if (((const unsigned char *)from)[i] != 0) return 0;
    return 1;
}

/* ---- a job on the bench */
static void admit(size_t place, const LensRequest *asked, uint32_t wanted, const char *what) {
    ALL(what, lens_admit(&now.bench.lent, place, asked), wanted);
    ALL(what, lens_admit(&now.bench.lent, 4 + lines, asked), wanted == LENS_BAD_COUNT ? LENS_BAD_COUNT : LENS_NO_SUCH_PLACE);
    ALL(what, lens_admit(&now.bench.lent, SIZE_MAX, asked), wanted == LENS_BAD_COUNT ? LENS_BAD_COUNT : LENS_NO_SUCH_PLACE);
    admits += 3;
}

/* numbers that are no kind, no mark, no count and no bit: 1, whatever else is wrong */
static void admit_none(size_t place) {
    static const uint64_t none[] = {8, 11, 64, 1ull << 32, UINT64_MAX}, past[] = {17, 18, 1ull << 32, 1ull << 63, UINT64_MAX};
    static const uint64_t no_sign[] = {3, 4, 7, 1ull << 32, UINT64_MAX};
    LensRequest asked = line.request;
    LensJob *j = &asked.job;
    struct { uint64_t *at; const uint64_t *values; const char *what; } tries[] = {
        {&asked.kind, none, "a kind of job that is none"},
        {&j->variables[0].kind, none, "a kind of variable that is none"},
        {&j->variables[0].enabled, none, "a mark that is none"},
        {&j->variables[0].follows, no_sign, "a sign that is none"},
        {&j->operands[0].kind, none, "a kind of operand that is none"},
        {&j->surface_count, past, "surfaces past the limit"},
        {&j->slot_count, past, "slots past the limit"},
        {&j->variable_count, past, "variables past the limit"},
        {&j->operand_count, past, "operands past the limit"},
    };
    for (size_t t = 0; t < sizeof tries / sizeof *tries; t++) {
        uint64_t was = *tries[t].at;
        for (size_t i = 0; i < 5; i++) *tries[t].at = tries[t].values[i], admit(place, &asked, LENS_BAD_COUNT, tries[t].what);
        *tries[t].at = was;
    }
    asked.kind = 0, admit(place, &asked, LENS_BAD_COUNT, "kind 0"), asked.kind = line.request.kind;
    for (int bit = 11; bit < 64; bit++) asked.given = line.request.given | 1ull << bit, admit(place, &asked, LENS_BAD_COUNT, "a bit that names no setting");
}

/* what stands past the counts, in settings that are not given, as the surface of no follower and in an empty row has no part in what is admitted */
static void admit_marked(size_t place) {
    LensRequest asked = line.request;
    LensJob *j = &asked.job;
    if (lens_admit(&now.bench.lent, place, &asked) != LENS_DONE) fail("admit: refused");
    Row row = now.bench.rows[place];
    mark_entries(j, j->surface_count, j->variable_count, j->operand_count);
    for (size_t i = 0; i < 8; i++)
        if (i >= j->variable_count || j->variables[i].follows == LENS_FOLLOWS_NOTHING) MARK(j->variables[i].follower);
    for (size_t i = j->variable_count; i < 8; i++) MARK(j->variables[i].follows);
    uint64_t *setting = &j->settings.max_iterations;
    for (int i = 0; i < 11; i++)
        if (!(asked.given >> i & 1)) setting[i] = 0x7ff4dead00000000 + i;
    memset(&now.bench.rows[place], 0xa5, sizeof(Row));
    now.bench.rows[place].kind = 0;
    if (lens_admit(&now.bench.lent, place, &asked) != LENS_DONE) fail("admit: refused, with marks where nothing is looked at");
    if (memcmp(&now.bench.rows[place], &row, sizeof row) != 0) fail("admit: marks have come into the row");
}

static void fetch(size_t place, uint64_t taken, const char *answer) {
    LensJob *j = &line.request.job;
    mark_lent();
    keep();
    if (lens_fetch(&now.bench.lent, place, &now.result) != LENS_DONE) fail("fetch: refused");
    LensResult r = now.result;
    now.result = before.result;
    if (!kept()) fail("fetch: something else has changed");
    begin(), say(" M"), say_number(r.initial_merit), say_number(r.final_merit);
    say(" N %ju %ju %ju S %ju", (uintmax_t)r.iterations, (uintmax_t)r.converged, (uintmax_t)taken, (uintmax_t)j->surface_count);
    for (size_t i = 0; i < 4 * j->surface_count; i++) say_number((&r.surfaces[0].radius_mm)[i]);
    say_numbers("V", r.values, j->operand_count), say_numbers("D", r.residuals, j->operand_count);
    compare(answer);
    if (!all_zero(r.surfaces + j->surface_count, (16 - j->surface_count) * 32) || !all_zero(r.values + j->operand_count, (12 - j->operand_count) * 8)
        || !all_zero(r.residuals + j->operand_count, (12 - j->operand_count) * 8)) fail("fetch: not zero past the counts");
}

static void clear(size_t place) {
    if (!finished[place]) return;
    keep();
    if (lens_release(&now.bench.lent, place) != LENS_DONE) fail("release: refused");
    if (!all_zero(&now.bench.rows[place], sizeof(Row))) fail("release: the row is not zero");
    now.bench.rows[place] = before.bench.rows[place];
    if (!kept()) fail("release: something else has changed");
    memset(&now.bench.rows[place], 0, sizeof(Row));
    finished[place] = 0;
}

static void damaged(size_t place, const char *what) {
    UNLOOKED(what, lens_turn(&now.bench.lent, place, now.scratch, LONG), LENS_DAMAGED, place);
    UNLOOKED(what, lens_fetch(&now.bench.lent, place, &now.result), LENS_DAMAGED, place);
    turns++, fetches++;
}

static void job(uint32_t wanted, const char *answer) {
    size_t place = lines & 3;
    LensRequest *asked = &line.request;
    uint64_t next_place = lines % 8 == 7 ? UINT64_MAX : lines % 8;
    now.bench.next_place = next_place; /* whatever it is, none of these calls looks at it or changes it */
    clear(place);
    lists();
    if (wanted != 0) { admit(place, asked, wanted, "admit"); return; }
    ALL("turn of an empty place", lens_turn(&now.bench.lent, place, now.scratch, LONG), LENS_EMPTY);
    ALL("fetch of an empty place", lens_fetch(&now.bench.lent, place, &now.result), LENS_EMPTY);
    ALL("release of an empty place", lens_release(&now.bench.lent, place), LENS_EMPTY);
    if (results % 16 == 0) admit_none(place);
    admit_marked(place);
    ALL("admit to a place that is taken", lens_admit(&now.bench.lent, place, asked), LENS_TAKEN);
    ALL("turn with little scratch", lens_turn(&now.bench.lent, place, now.scratch, LENS_SCRATCH - 1), LENS_SHORT_SCRATCH);
    ALL("turn with no scratch", lens_turn(&now.bench.lent, place, now.scratch, 0), LENS_SHORT_SCRATCH);
    ALL("turn, no such place", lens_turn(&now.bench.lent, 4, now.scratch, LONG), LENS_NO_SUCH_PLACE);
    ALL("turn, no such place and no scratch", lens_turn(&now.bench.lent, SIZE_MAX, now.scratch, 0), LENS_NO_SUCH_PLACE);
    ALL("fetch, no such place", lens_fetch(&now.bench.lent, SIZE_MAX, &now.result), LENS_NO_SUCH_PLACE);
    ALL("release, no such place", lens_release(&now.bench.lent, 4), LENS_NO_SUCH_PLACE);
    ALL("turn of a damaged row", lens_turn(&now.bench.lent, place, now.scratch, LONG), LENS_DAMAGED);
    ALL("fetch of a damaged row", lens_fetch(&now.bench.lent, place, &now.result), LENS_DAMAGED);
    admits += 3, turns += 6, fetches += 3, releases += 2;
    uint64_t taken = 0;
    for (;; taken++) {
        if (taken < 4 || taken % 64 == 0) {
            uint32_t number = lens_fetch(&now.bench.lent, place, &now.result);
            if (number == LENS_DONE) break;
            UNLOOKED("fetch before the end", lens_fetch(&now.bench.lent, place, &now.result), LENS_UNFINISHED, place);
            lists();
            fetches++;
        }
        MARK(now.scratch);
        memcpy(before.scratch, now.scratch, sizeof now.scratch);
        uint32_t number = lens_turn(&now.bench.lent, place, now.scratch, LONG);
        if (number == LENS_FINISHED) break;
        if (number != LENS_DONE) fail("turn: refused with %u", number);
        if (!all_zero(now.scratch, LENS_SCRATCH * 8)) fail("turn: scratch is not +0.0");
        if (memcmp(now.scratch + LENS_SCRATCH, before.scratch + LENS_SCRATCH, (LONG - LENS_SCRATCH) * 8) != 0) fail("turn: scratch past LENS_SCRATCH has changed");
    }
    finished[place] = 1, used[place] = taken;
    lists();
    UNLOOKED("turn at the end", lens_turn(&now.bench.lent, place, now.scratch, LONG), LENS_FINISHED, place);
    ALL("admit to a finished place", lens_admit(&now.bench.lent, place, asked), LENS_TAKEN);
    Row *row = &now.bench.rows[place], undamaged = *row;
    row->iteration = 1 + (1ull << 40), damaged(place, "a row with a counter past its limit"), *row = undamaged;
    row->variables[0].follows = 3 + lines, damaged(place, "a row with a sign that is none"), *row = undamaged;
    row->variables[0].follows = LENS_FOLLOWS_PLUS, row->variables[0].follower = row->surface_count + lines % 3;
    damaged(place, "a row with an absent follower"), *row = undamaged;
    turns += 1, admits += 1;
    fetch(place, taken, answer);
    if (now.bench.next_place != next_place) fail("the next place has changed without a dealing");
}

/* ---- a lens by itself */
static void evaluate(uint32_t wanted, const char *answer) {
    LensJob job = line.request.job, *j = &job;
    if (wanted != 0) {
        ALL("evaluate", lens_evaluate(j, &now.evaluation), wanted);
        evaluations++;
        return;
    }
    if (j->operand_count > 0) {
        LensJob none = job;
        none.operands[j->operand_count - 1].kind = LENS_LEAST_EDGE_THICKNESS + 1 + lines;
        ALL("evaluate, a kind of operand that is none", lens_evaluate(&none, &now.evaluation), LENS_BAD_COUNT);
        evaluations++;
    }
    /* nothing else in the record has a part in it */
    memset(j->variables, 0xa5, sizeof j->variables), memset(&j->settings, 0xa5, sizeof j->settings), j->variable_count = lines;
    mark_entries(j, j->surface_count, 8, j->operand_count);
    mark_lent();
    keep();
    if (lens_evaluate(j, &now.evaluation) != LENS_DONE) fail("evaluate: refused");
    LensEvaluation e = now.evaluation;
    now.evaluation = before.evaluation;
    if (!kept()) fail("evaluate: something else has changed");
    begin(), say(" M"), say_number(e.total_merit), say_numbers("V", e.values, j->operand_count), say_numbers("D", e.residuals, j->operand_count);
    compare(answer);
    if (!all_zero(e.values + j->operand_count, (12 - j->operand_count) * 8) || !all_zero(e.residuals + j->operand_count, (12 - j->operand_count) * 8))
        fail("evaluate: not zero past the count");
}

static void trace(uint32_t wanted, int fails, const char *answer) {
    LensJob job = line.request.job, *j = &job;
    size_t many = j->surface_count > LENS_SURFACES ? LENS_SURFACES + 1 : j->surface_count;
    if (wanted != 0 || fails) {
        ALL("trace", lens_trace(j, line.slot, now.rays, many), fails ? LENS_NOT_TRACED : wanted);
        traces++;
        if (!fails) return;
    }
    for (size_t n = 0; n <= LENS_SURFACES + 1; n++)
        if (n != many) {
            ALL("trace into a row of another length", lens_trace(j, line.slot, now.rays, n), LENS_BAD_COUNT);
            traces++;
        }
    if (fails) return;
    memset(j->variables, 0xa5, sizeof j->variables), memset(j->operands, 0xa5, sizeof j->operands), memset(&j->settings, 0xa5, sizeof j->settings);
    j->variable_count = lines, j->operand_count = UINT64_MAX - lines;
    mark_entries(j, j->surface_count, 8, 12);
    mark_lent();
    keep();
    if (lens_trace(j, line.slot, now.rays, many) != LENS_DONE) fail("trace: refused");
    LensRay rays[LENS_SURFACES];
    memcpy(rays, now.rays, many * sizeof *rays), memcpy(now.rays, before.rays, many * sizeof *rays);
    if (!kept()) fail("trace: something else has changed");
    begin(), say(" ok T %zu", many);
    for (size_t i = 0; i < many; i++) say_number(rays[i].y), say_number(rays[i].u);
    compare(answer);
}

static void say_ends(LensInterval ends) { say_number(ends.low), say_number(ends.high); }

static void limits(uint32_t wanted, const char *answer) {
    LensJob job = line.request.job, *j = &job;
    LensThicknessLimits known = line.limits;
    size_t many = j->surface_count;
    if (wanted != 0) {
        ALL("trace within limits", lens_trace_limits(j, &known, line.slot, &now.limits), wanted);
        within++;
        return;
    }
    /* neither what a trace does not take nor the limits past the surfaces have a part in it */
    memset(j->variables, 0xa5, sizeof j->variables), memset(j->operands, 0xa5, sizeof j->operands), memset(&j->settings, 0xa5, sizeof j->settings);
    j->variable_count = lines, j->operand_count = UINT64_MAX - lines;
    mark_entries(j, many, 8, 12);
    MARK_FROM(known.thicknesses, many);
    mark_lent();
    keep();
    if (lens_trace_limits(j, &known, line.slot, &now.limits) != LENS_DONE) fail("trace within limits: refused");
    LensTraceLimits t = now.limits;
    now.limits = before.limits;
    if (!kept()) fail("trace within limits: something else has changed");
    begin(), say(" K"), say_ends(t.track), say(" T %zu", many);
    for (size_t i = 0; i < many; i++) say_ends(t.heights[i]), say_ends(t.slopes[i]);
    compare(answer);
    size_t past = (LENS_SURFACES - many) * sizeof(LensInterval);
    if (!all_zero(t.heights + many, past) || !all_zero(t.slopes + many, past)) fail("trace within limits: not zero past the count");
}

/* the next answer, if it is to this line; a line that is out of form has none */
static int is_answer(const char *answer, const char *to) {
    const char *a = strchr(answer, ' '), *t = strchr(to, ' ');
    size_t n = 0;
    for (int spaces = 0; a && t && t[n] && (spaces += t[n] == ' ') < 3; n++) continue;
    return answer[0] == 'R' && n > 0 && strncmp(a, t, n) == 0 && a[n] == ' ';
}

int main(int argc, char **argv) {
    FILE *answers = argc > 1 ? fopen(argv[1], "r") : NULL;
    if (!answers) { fprintf(stderr, "lent: no file of answers\n"); return 1; }
    if (lens_abi() != LENS_ABI) { fprintf(stderr, "lent: the library has ABI %u, the header %d\n", lens_abi(), LENS_ABI); return 1; }
    char *text = NULL, *answer = NULL;
    size_t room = 0, answer_room = 0;
    int there = getline(&answer, &answer_room, answers) > 0;
    while (getline(&text, &room, stdin) > 0) {
        while (there && answer[0] != 'R') there = getline(&answer, &answer_room, answers) > 0;
        if (text[0] != 'J' || !there || !is_answer(answer, text)) continue;
        lines++;
        int whole = read_line(text, &line);
        unsigned wanted = 0;
        const char *refused = strstr(answer, " refused ");
        if (refused) wanted = (unsigned)atoi(refused + 9);
        if (!whole && wanted != LENS_BAD_COUNT) fail("too many entries, and refused with %u", wanted);
        LensJob *j = &line.request.job;
        if (line.request.kind <= 3) job(wanted, answer);
        /* too many of what a call does not take are refused by the oracle alone */
        else if (j->variable_count > 8 || (line.request.kind >= 5 && j->operand_count > 12)) skipped++;
        else if (line.request.kind == 4) evaluate(wanted, answer);
        else if (line.request.kind == 6) limits(wanted, answer);
        else trace(wanted, strstr(answer, " failed") != NULL, answer);
        there = getline(&answer, &answer_room, answers) > 0;
    }
    while (there && answer[0] != 'R') there = getline(&answer, &answer_room, answers) > 0;
    if (there) { fprintf(stderr, "lent: an answer has no line: %s", answer); return 1; }
    free(text), free(answer), fclose(answers);
    if (lines == 0) { fprintf(stderr, "lent: no line has an answer\n"); return 1; }
    printf("%zu lines (%zu skipped), %zu results the oracle's; refused as they must be, nothing changed: ", lines, skipped, results);
    printf("admit %zu, turn %zu, fetch %zu, release %zu, ", admits, turns, fetches, releases);
    printf("evaluate %zu, trace %zu, within limits %zu; listings %zu\n", evaluations, traces, within, listings);
    return 0;
}
