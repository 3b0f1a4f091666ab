/* lens_deal from C, on benches with the jobs of job lines (oracle/README.md). Each dealing is held against the same turns taken one by one on another bench:
   how many were dealt, and every byte of rows, next place and scratch. What it refuses is tried with a NaN of another payload in each f64 that the number
   does not hang on: every byte stays. Usage: deal < lines. Prints how many dealings of each sort were tried; ends with status 1 at the first that is wrong. */
#define PROGRAM "deal"
#include "tries.h"

enum { LONG = 300 };
static struct Lent {
    Bench bench;
    double scratch[LONG];
} now, before, other, safe;

static size_t jobs, dealings, none_dealt, turns_dealt, refused, runs, spoilt;

static size_t below(size_t n) {
    uint64_t drawn;
    mark(&drawn, sizeof drawn);
    return (size_t)((drawn >> 3 & 0xffffffffffff) % n);
}
static size_t some_turns(void) {
    static const size_t turns[] = {0, 1, 2, 3, 4, 5, 7, 50, 400, 65535};
    return turns[below(10)];
}

static int is_taken(size_t place) { return now.bench.rows[place].kind != 0; }
/* by a turn of it on another bench */
static int is_live(size_t place) {
    static Bench tried;
    double scratch[LENS_SCRATCH];
    tried = now.bench;
    return lens_turn(&tried.lent, place, scratch, LENS_SCRATCH) == LENS_DONE;
}
static uint64_t bound_of(const Row *r) {
    const uint64_t *s = r->count_settings;
    uint64_t enabled = 0;
    for (size_t i = 0; i < r->variable_count; i++) enabled += r->variables[i].enabled;
    uint64_t each = 2 * enabled + 10, run = 1 + s[0] * each;
    return r->kind == LENS_DAMPED ? run : r->kind == LENS_MULTI_START ? (1 + s[1]) * run : 1 + s[3] * s[2] + 1 + 25 * each;
}

/* ---- dealings that are taken */

/* the rule, by single turns: round the places from the next one on, until all are spent or four in a row have none to take */
static size_t one_by_one(Bench *bench, size_t turns) {
    double scratch[LENS_SCRATCH];
    size_t dealt = 0, missed = 0;
    for (size_t at = bench->next_place; dealt < turns && missed < 4; at = (at + 1) % 4) {
        if (lens_turn(&bench->lent, at, scratch, LENS_SCRATCH) == LENS_DONE) dealt++, missed = 0, bench->next_place = (at + 1) % 4;
        else missed++;
    }
    return dealt;
}

static size_t deal(size_t turns, size_t length) {
    MARK(now.scratch);
    memcpy(&other, &now, sizeof now);
    size_t dealt = one_by_one(&other.bench, turns);
    if (dealt > 0) memset(other.scratch, 0, LENS_SCRATCH * sizeof(double));
    LensDealt answer = lens_deal(&now.bench.lent, (uint16_t)turns, now.scratch, length);
    if (answer.number != LENS_DONE) fail("a dealing of %zu is refused with %u", turns, answer.number);
    if (answer.dealt != dealt) fail("of %zu turns %u are dealt, not %zu", turns, answer.dealt, dealt);
    if (now.bench.next_place != other.bench.next_place) fail("the next place is %zu, not %zu", now.bench.next_place, other.bench.next_place);
    if (memcmp(now.bench.rows, other.bench.rows, sizeof now.bench.rows) != 0) fail("the rows are others than after %zu single turns", dealt);
    if (memcmp(now.scratch, other.scratch, sizeof now.scratch) != 0) fail("scratch is another than after %zu single turns", dealt);
    dealings++, none_dealt += dealt == 0, turns_dealt += dealt;
    return dealt;
}

/* "two jobs unfinished and undamaged throughout differ by at most one in the turns dealt to them" */
static void run_of_dealings(void) {
    uint64_t began[4], least = UINT64_MAX, most = 0;
    for (size_t p = 0; p < 4; p++) began[p] = is_live(p) ? now.bench.rows[p].turns : UINT64_MAX;
    for (size_t many = 1 + below(6); many > 0; many--) {
        size_t turns = below(4) == 0 ? some_turns() : below(12), length = LENS_SCRATCH + below(LONG - LENS_SCRATCH + 1);
        deal(turns, length);
    }
    for (size_t p = 0; p < 4; p++) {
        if (began[p] == UINT64_MAX || !is_live(p)) continue;
        uint64_t had = now.bench.rows[p].turns - began[p];
        least = had < least ? had : least, most = had > most ? had : most;
    }
    if (most > least + 1) fail("in a run of dealings one job has %ju turns, and another %ju", (uintmax_t)most, (uintmax_t)least);
    runs++;
}

/* "an unfinished, undamaged job is served within four turns dealt", each by a dealing of its own */
static void within_four(void) {
    uint64_t began[4];
    for (size_t p = 0; p < 4; p++) began[p] = is_live(p) ? now.bench.rows[p].turns : UINT64_MAX;
    size_t dealt = 0;
    for (int i = 0; i < 4; i++) dealt += deal(1, LENS_SCRATCH);
    for (size_t p = 0; p < 4 && dealt == 4; p++)
        if (began[p] != UINT64_MAX && now.bench.rows[p].turns == began[p]) fail("place %zu is not served within four turns", p);
}

/* an empty row that holds anything else is empty: it is skipped, stays as it is, and is no cause of 12 */
static void spoil_empty(void) {
    for (size_t p = 0; p < 4; p++)
        if (!is_taken(p)) memset(&now.bench.rows[p], 0xa5, sizeof(Row)), now.bench.rows[p].kind = 0;
}

/* ---- dealings that are refused */
static void refuses(const char *what, size_t length, uint32_t wanted) {
    static const uint16_t turns[] = {0, 1, 5, 65535};
    for (size_t i = 0; i < 4; i++) {
        MARK(now.scratch);
        memcpy(&before, &now, sizeof now);
        LensDealt answer = lens_deal(&now.bench.lent, turns[i], now.scratch, length);
        if (answer.number != wanted || answer.dealt != 0) fail("%s: number %u and %u dealt, not %u and 0", what, answer.number, answer.dealt, wanted);
        if (memcmp(&before, &now, sizeof now) != 0) fail("%s: something has changed", what);
        refused++;
    }
}
static void refuses_short(const char *what) {
    static const size_t lengths[] = {0, 1, 64, LENS_SCRATCH - 1};
    for (size_t i = 0; i < 4; i++) refuses(what, lengths[i], LENS_SHORT_SCRATCH);
}
/* 12, and 9 in front of it */
static void refuses_damage(const char *what) {
    refuses(what, LENS_SCRATCH, LENS_DAMAGED);
    refuses(what, LONG, LENS_DAMAGED);
    refuses_short(what);
}

static void refusals(void) {
    static const size_t past[] = {4, 5, 255, (size_t)1 << 32, SIZE_MAX};
    memcpy(&safe, &now, sizeof now);
    for (size_t p = 0; p < 4; p++) is_taken(p) ? mark_unlooked(&now.bench.rows[p]) : mark_row(&now.bench.rows[p]);
    refuses_short("little scratch");
    size_t next_place = now.bench.next_place;
    for (size_t i = 0; i < 5; i++) now.bench.next_place = past[i], refuses_damage("a next place above 3");
    now.bench.next_place = next_place;
    for (size_t p = 0; p < 4; p++) {
        if (!is_taken(p)) continue;
        Row *row = &now.bench.rows[p], kept = *row;
        row->iteration = (1ull << 40) + 1, refuses_damage("a counter past its limit"), *row = kept;
        row->kind = 4, refuses_damage("a kind that is none"), *row = kept;
        row->phase = 7, refuses_damage("a phase that is none"), *row = kept;
        row->pupil = 0, refuses_damage("a pupil of 0"), *row = kept;
        row->variables[0].follows = 3, refuses_damage("a sign that is none"), *row = kept;
    }
    memcpy(&now, &safe, sizeof now);
}

/* "a row that comes to be damaged during the dealing is skipped from then on": its turns are one below its bound, and it is unfinished after its turn */
static void damaged_on_the_way(size_t place) {
    memcpy(&safe, &now, sizeof now);
    Row *row = &now.bench.rows[place];
    if (is_live(place)) {
        uint64_t bound = bound_of(row);
        row->turns = bound - 1;
        deal(4 + below(100), LENS_SCRATCH + 1);
        if (row->turns != bound) fail("place %zu is not served within four turns, with its turns at the bound less one", place);
        static LensResult result;
        if (lens_fetch(&now.bench.lent, place, &result) == LENS_DAMAGED) {
            refuses_damage("a row that is unfinished at its bound");
            if (lens_release(&now.bench.lent, place) != LENS_DONE) fail("release: refused");
            deal(some_turns(), LENS_SCRATCH);
            spoilt++;
        }
    }
    memcpy(&now, &safe, sizeof now);
}

/* a job comes to a place in the stead of the one that it has */
static void admit(size_t place) {
    if (is_taken(place) && lens_release(&now.bench.lent, place) != LENS_DONE) fail("release: refused");
    jobs += lens_admit(&now.bench.lent, place, &line.request) == LENS_DONE;
}

int main(void) {
    if (lens_abi() != LENS_ABI) { fprintf(stderr, "deal: the library has ABI %u, the header %d\n", lens_abi(), LENS_ABI); return 1; }
    char *text = NULL;
    size_t room = 0;
    while (getline(&text, &room, stdin) > 0) {
        if (text[0] != 'J') continue;
        lines++;
        if (!read_line(text, &line) || line.request.kind > LENS_ANNEALING) continue;
        admit(below(4));
        spoil_empty();
        if (lines % 8 == 0) refusals();
        damaged_on_the_way(below(4));
        run_of_dealings();
        within_four();
        if (below(8) == 0) deal(65535, LONG);
    }
    free(text);
    if (jobs == 0) { fprintf(stderr, "deal: no job was taken\n"); return 1; }
    printf("%zu jobs; %zu dealings as by single turns (%zu dealt nothing), %zu turns; ", jobs, dealings, none_dealt, turns_dealt);
    printf("%zu runs of dealings fair; %zu rows damaged on the way; refused as they must be, nothing changed: %zu\n", runs, spoilt, refused);
    return 0;
}
