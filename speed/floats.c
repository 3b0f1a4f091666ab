/* The square root and E against the hardware's root, C's own E and libm's exp: first that the bits are the
   same, then ns a call, each pair in one run. Usage: floats [COUNT [SEED]]. */
#include <math.h>
#include <stdint.h>
#include <stdio.h>
#include <stdlib.h>
#include <string.h>
#include <time.h>

double lens_sqrt(double);
double lens_exp_stand_in(double);

static uint64_t state = 88172645463325252ull;

static uint64_t draw(void) {
    state ^= state << 13;
    state ^= state >> 7;
    state ^= state << 17;
    return state;
}

static double of_bits(uint64_t b) {
    double x;
    memcpy(&x, &b, 8);
    return x;
}

static uint64_t to_bits(double x) {
    uint64_t b;
    memcpy(&b, &x, 8);
    return b;
}

static int same(double a, double b) {
    return (a != a && b != b) || to_bits(a) == to_bits(b);
}

static double __attribute__((noinline)) hardware_sqrt(double x) {
    return __builtin_sqrt(x);
}

static double __attribute__((noinline)) c_exp_stand_in(double x) {
    if (x < -700.0) return 0.0;
    if (x != x || x > 0.0) return 1.0;
    double y = x / 1024.0, s = 1.0;
    for (int k = 16; k >= 1; k--) s = 1.0 + (y * s) / (double)k;
    for (int i = 0; i < 10; i++) s = s * s;
    return s;
}

static double now(void) {
    struct timespec t;
    clock_gettime(CLOCK_MONOTONIC, &t);
    return t.tv_sec * 1e9 + t.tv_nsec;
}

/* any pattern, a positive one, a subnormal, a near-square of whole numbers, a near-square of 26 digits, an end of a binade */
static double sample(long i) {
    uint64_t b = draw();
    double d;
    switch (i % 6) {
    case 0: return of_bits(b);
    case 1: return of_bits(b & 0x7fffffffffffffffull);
    case 2: return of_bits(b & (0xfffffffffffffull >> (draw() % 52)));
    case 3:
        d = (double)(draw() >> (11 + draw() % 40));
        return of_bits(to_bits(d * d) + draw() % 3 - 1);
    case 4:
        d = of_bits(0x3ff0000000000000ull + ((draw() >> 12) & ~0x3ffffffull));
        return of_bits(to_bits(d * d) + ((draw() % 1000) << 52) * (draw() % 2) + draw() % 5 - 2);
    default:
        return of_bits(((draw() % 2047) << 52) + (draw() % 2 ? draw() % 4 : 0xfffffffffffffull - draw() % 4));
    }
}

#define N (1 << 20)
static double values[N];
static volatile double sink;

static double time_of(double (*f)(double), int chained) {
    double best = 1e30;
    for (int k = 0; k < 5; k++) {
        double z = 0.0, t = now();
        for (int i = 0; i < N; i++) z = chained ? f(z * 0.0 + values[i]) : z + f(values[i]);
        t = (now() - t) / N;
        sink = z;
        if (t < best) best = t;
    }
    return best;
}

static void compare_times(const char *what, double (*ours)(double), double (*theirs)(double), const char *whose) {
    double a = time_of(ours, 0), b = time_of(theirs, 0), c = time_of(ours, 1), d = time_of(theirs, 1);
    printf("%s: %.2f ns, %s %.2f ns, ratio %.2f; in a chain %.2f and %.2f ns, ratio %.2f\n", what, a, whose, b, a / b, c, d, c / d);
}

int main(int count, char **words) {
    long n = count > 1 ? atol(words[1]) : 10000000, roots = 0, exps = 0;
    state ^= count > 2 ? strtoull(words[2], 0, 10) : 0;
    static const double ends[] = {0.0, -0.0, INFINITY, -INFINITY, NAN, 1, 2, 4, 5e-324, 1e-323, 2.2250738585072014e-308, 2.225073858507201e-308, 1.7976931348623157e308, -1, -5e-324, -700.0, -700.0000000000001};
    long special = sizeof ends / sizeof *ends;
    for (long i = 0; i < n; i++) {
        double x = i < special ? ends[i] : sample(i);
        roots += !same(lens_sqrt(x), sqrt(x));
        double y = i < special ? ends[i] : -720.0 * ((double)(draw() >> 11) / 9007199254740992.0);
        exps += !same(lens_exp_stand_in(y), c_exp_stand_in(y));
    }
    printf("%ld numbers: %ld roots differ from the hardware's, %ld E from C's\n", n, roots, exps);
    for (int i = 0; i < N; i++) values[i] = (double)(draw() >> 44) / 64.0 + 0.5;
    compare_times("square root, 0.5 to 16384", lens_sqrt, hardware_sqrt, "hardware");
    for (int i = 0; i < N; i++) values[i] = of_bits(0x3000000000000000ull + (draw() >> 3));
    compare_times("square root, wide range", lens_sqrt, hardware_sqrt, "hardware");
    for (int i = 0; i < N; i++) values[i] = -20.0 * ((double)(draw() >> 11) / 9007199254740992.0);
    compare_times("E, -20 to 0", lens_exp_stand_in, c_exp_stand_in, "the same in C");
    return roots || exps;
}
