/* What the drivers in C share that stop at the first call that is wrong. PROGRAM is the driver's name. */
#include "lines.h"
#include "rows.h"
#include <stdarg.h>

static Line line;
static size_t lines;

static void fail(const char *what, ...) {
    va_list rest;
    va_start(rest, what);
    printf(PROGRAM ": line %zu (%s): ", lines, line.name);
    vprintf(what, rest);
    printf("\n");
    va_end(rest);
    exit(1);
}
