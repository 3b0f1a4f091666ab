/* Job lines (oracle/README.md) through the exported calls: each job is admitted to a place in rotation, turned to its end, fetched
   and released. Usage: bench ROUNDS [TURNS] < jobs. With TURNS four jobs are there at a time, and take that many turns a dealing.
   Prints the turns and ns of all rounds, and a digest of the final merits. */
#include "../oracle/lines.h"
#include <time.h>

static LensBench bench;
static double scratch[LENS_SCRATCH];
static LensRequest *jobs;
static uint64_t turns, digest;

static double now(void) {
    struct timespec t;
    clock_gettime(CLOCK_MONOTONIC, &t);
    return t.tv_sec * 1e9 + t.tv_nsec;
}

static void must(int holds, size_t i, const char *what) {
    if (!holds) { fprintf(stderr, "bench: job %zu %s\n", i, what); exit(1); }
}
static void admit(size_t i) { must(lens_admit(&bench, i & 3, &jobs[i]) == LENS_DONE, i, "is refused"); }
static void take(size_t i) {
    static LensResult result;
    must(lens_fetch(&bench, i & 3, &result) == LENS_DONE, i, "has no result");
    must(lens_release(&bench, i & 3) == LENS_DONE, i, "is not released");
    uint64_t b;
    memcpy(&b, &result.final_merit, 8);
    digest = digest * 31 + b;
}

static void one_by_one(size_t many) {
    for (size_t i = 0; i < many; i++) {
        admit(i);
        while (lens_turn(&bench, i & 3, scratch, LENS_SCRATCH) == LENS_DONE) turns++;
        take(i);
    }
}

static void dealt(size_t many, uint16_t at_once) {
    for (size_t from = 0; from < many; from += 4) {
        size_t to = from + 4 < many ? from + 4 : many;
        for (size_t i = from; i < to; i++) admit(i);
        for (LensDealt d; (d = lens_deal(&bench, at_once, scratch, LENS_SCRATCH)).dealt > 0;) turns += d.dealt;
        for (size_t i = from; i < to; i++) take(i);
    }
}

int main(int argc, char **argv) {
    static Line read;
    int rounds = argc > 1 ? atoi(argv[1]) : 1, at_once = argc > 2 ? atoi(argv[2]) : 0;
    size_t many = 0, room = 0, length = 0;
    char *line = NULL;
    while (getline(&line, &length, stdin) > 0) {
        if (line[0] != 'J') continue;
        if (many == room) jobs = realloc(jobs, (room = room * 2 + 16) * sizeof *jobs);
        must(read_line(line, &read), many, "has too many entries");
        jobs[many++] = read.request;
    }
    double from = now();
    for (int r = 0; r < rounds; r++) {
        if (at_once > 0) dealt(many, (uint16_t)at_once);
        else one_by_one(many);
    }
    double ns = now() - from;
    printf("%llu %.0f %016llx\n", (unsigned long long)turns, ns, (unsigned long long)digest);
    return 0;
}
