/* Times the library against ISA-L and Jerasure, over the same field (polynomial 11D, hexadecimal): rebuild, encode, decode.
   Every timed result is compared with a plain reference. Times are the best of many short rounds, with all contestants
   in turn in every round. Each of our functions is here three times, built for x86-64, x86-64-v3 and x86-64-v4. */
#include "bench.h"
#include <isa-l.h>
#include <stdio.h>
#include <stdlib.h>
#include <string.h>
#include <time.h>

int wide;

const struct level levels[LEVELS] = {
    {"x86-64", latsefidy_encode, latsefidy_decode, latsefidy_decode_near, latsefidy_local_pass, latsefidy_repair,
     latsefidy_rebuild, latsefidy_grade, latsefidy_preview, latsefidy_preview_sheet, 0},
    {"v3", latsefidy_encode_v3, latsefidy_decode_v3, latsefidy_decode_near_v3, latsefidy_local_pass_v3, latsefidy_repair_v3,
     latsefidy_rebuild_v3, latsefidy_grade_v3, latsefidy_preview_v3, latsefidy_preview_sheet_v3, 0},
    {"v4", latsefidy_encode_v4, latsefidy_decode_v4, latsefidy_decode_near_v4, latsefidy_local_pass_v4, latsefidy_repair_v4,
     latsefidy_rebuild_v4, latsefidy_grade_v4, latsefidy_preview_v4, latsefidy_preview_sheet_v4, 1}};

static double seconds(clockid_t clock) {
    struct timespec t;
    clock_gettime(clock, &t);
    return t.tv_sec + 1e-9 * t.tv_nsec;
}

double now(void) { return seconds(CLOCK_MONOTONIC); }
double own_time(void) { return seconds(CLOCK_THREAD_CPUTIME_ID); }

uint8_t mul(uint8_t a, uint8_t b) {
    uint8_t p = 0;
    for (; b; b >>= 1, a = (uint8_t)(a << 1 ^ (a >> 7) * 29))
        if (b & 1) p ^= a;
    return p;
}

uint8_t power(uint8_t a, int e) {
    uint8_t p = 1;
    while (e--) p = mul(p, a);
    return p;
}

/* ISA-L's functions for AVX-512 leave the upper halves of the vector registers in use, and code for plain x86-64 that comes
   after them then runs at a half or a third of its speed */
void clear_upper(void) { __asm__ volatile("vzeroupper"); }

void race(contestant *who, int count, int rounds, double turn) {
    int calls[32];
    for (int k = 0; k < count; k++) {
        who[k].best = 1e9;
        if (who[k].needs && !wide) continue;
        double t = now();
        who[k].call();
        t = now() - t;
        calls[k] = t > turn ? 1 : 1 + (int)(turn / (t + 1e-8));
    }
    for (int round = 0; round < rounds; round++)
        for (int k = 0; k < count; k++) {
            if (who[k].needs && !wide) continue;
            clear_upper();
            double t = now();
            for (int i = 0; i < calls[k]; i++) who[k].call();
            t = (now() - t) / calls[k];
            if (t < who[k].best) who[k].best = t;
        }
}

static int by_size(const void *a, const void *b) {
    double x = *(const double *)a, y = *(const double *)b;
    return (x > y) - (x < y);
}

void take_turns(int (*call)(int), double median[2]) {
    static const double turn = 2e-4; /* seconds, about */
    static double times[2][TURNS];
    double t = own_time();
    call(0);
    t = own_time() - t;
    int calls = t > turn ? 1 : 1 + (int)(turn / (t + 1e-8));
    for (int i = 0; i < 2 * TURNS; i++) {
        int w = i % 2;
        clear_upper();
        t = own_time();
        for (int c = 0; c < calls; c++) call(w);
        times[w][i / 2] = (own_time() - t) / calls;
    }
    for (int w = 0; w < 2; w++) {
        qsort(times[w], TURNS, sizeof times[w][0], by_size);
        median[w] = times[w][TURNS / 2];
    }
}

void differs(const char *name) {
    printf("%s differs from the reference\n", name);
    exit(1);
}

uint8_t point(int r, int group, int member) { return power(2, (group + member * (255 / (r + 1))) % 255); }

uint8_t vanishing(int r, int n, uint8_t x) {
    uint8_t h = 1;
    for (int i = n % (r + 1); i && i <= r; i++) h = mul(h, x ^ point(r, n / (r + 1), i));
    return h;
}

/* powers of g times powers of X, then h times powers of X; g is X to the power r + 1 less what that is on the last group */
static void generate_short(int r, int n, int k, uint8_t *generator) {
    int lead = k + 1 - n % (r + 1);
    for (int p = 0; p < n; p++) {
        uint8_t x = point(r, p / (r + 1), p % (r + 1)), h = vanishing(r, n, x);
        uint8_t g = power(x, r + 1) ^ power(point(r, n / (r + 1), 0), r + 1);
        for (int m = 0; m < k; m++)
            generator[p * k + m] = m < lead ? mul(power(g, 1 + m / r), power(x, m % r)) : mul(h, power(x, m - lead));
    }
}

/* slot p is member p mod (r + 1) of group p div (r + 1) */
void generate(int r, int n, int k, uint8_t *generator) {
    if (n % (r + 1)) {
        generate_short(r, n, k, generator);
        return;
    }
    for (int p = 0; p < n; p++)
        for (int m = 0; m < k; m++) generator[p * k + m] = power(point(r, p / (r + 1), p % (r + 1)), m / r * (r + 1) + m % r);
}

int invert_kept(int r, int n, int k, const uint8_t *generator, const uint8_t *marks, uint8_t *inverse, int *slots) {
    static uint8_t rows[N * N];
    int m = 0, own = 0;
    for (int p = 0; p < n && m < k; p++) {
        if (p % (r + 1) == 0) own = 0;
        if (!marks[p] && own++ < r) memcpy(rows + m * k, generator + p * k, k), slots[m++] = p;
    }
    return m < k || gf_invert_matrix(rows, inverse, k);
}

/* the tables that the words name; all of them without words */
int main(int argc, char **argv) {
    struct {
        const char *name;
        void (*print)(void);
    } tables[] = {{"rebuild", rebuild}, {"lengths", lengths},    {"mates", true_mates}, {"stripes", stripes}, {"strips", strips},
                  {"wired", wired},     {"short", short_groups}, {"grades", grades},    {"previews", previews},
                  {"near", near_home}};
    wide = __builtin_cpu_supports("avx512bw") && __builtin_cpu_supports("avx512vl") && __builtin_cpu_supports("avx512dq");
    for (size_t a = 0; a < sizeof tables / sizeof *tables; a++) {
        int named = argc == 1;
        for (int i = 1; i < argc; i++) named |= !strcmp(argv[i], tables[a].name);
        if (named) tables[a].print();
    }
    return 0;
}
