/* Rebuild: one lost strip from the r others of its group, slot 0. Two tables: against the peers, over bytes; and by the length
   of the strips, over both fields. The code has k = r, so that any mates are true and none is tested. */
#include "bench.h"
#include <isa-l.h>
#include <jerasure.h>
#include <stdio.h>
#include <stdlib.h>
#include <string.h>

/* ISA-L's kernels by instruction set */
void gf_vect_dot_prod_sse(int, int, unsigned char *, unsigned char **, unsigned char *);
void gf_vect_dot_prod_avx2(int, int, unsigned char *, unsigned char **, unsigned char *);
void gf_vect_dot_prod_avx512(int, int, unsigned char *, unsigned char **, unsigned char *);

enum { MOST = 4096, PASSES = 8 };

static uint8_t weights[16], reference[MOST], mates[16 * MOST] __attribute__((aligned(64))), output[MOST] __attribute__((aligned(64)));
static uint8_t tables[16 * 32], *sources[16], *outputs[1] = {output};
static int row[16], field, r, l;

static void kernel(void) { rebuild_strips(weights, r, mates, (size_t)r * l, output, l); }
static void kernel_v3(void) { rebuild_strips_v3(weights, r, mates, (size_t)r * l, output, l); }
static void kernel_v4(void) { rebuild_strips_v4(weights, r, mates, (size_t)r * l, output, l); }
static void call(void) { latsefidy_rebuild(field, r, r + 1, r, 0, 0, mates, (size_t)r * l, output, l); }
static void call_v3(void) { latsefidy_rebuild_v3(field, r, r + 1, r, 0, 0, mates, (size_t)r * l, output, l); }
static void call_v4(void) { latsefidy_rebuild_v4(field, r, r + 1, r, 0, 0, mates, (size_t)r * l, output, l); }
static void isal_base(void) { gf_vect_dot_prod_base(l, r, tables, sources, output); }
static void isal_sse(void) { gf_vect_dot_prod_sse(l, r, tables, sources, output); }
static void isal_avx2(void) { gf_vect_dot_prod_avx2(l, r, tables, sources, output); }
static void isal_avx512(void) { gf_vect_dot_prod_avx512(l, r, tables, sources, output); }
static void jerasure(void) { jerasure_matrix_dotprod(r, 8, row, NULL, r, (char **)sources, (char **)outputs, l); }

enum { KERNEL, KERNEL3, KERNEL4, CALL, CALL3, CALL4, BASE, SSE, AVX2, AVX512, JERASURE, REBUILDERS };
static contestant rebuilders[REBUILDERS] = {{"kernel", kernel, 0, 0},       {"kernel v3", kernel_v3, 0, 0}, {"kernel v4", kernel_v4, 1, 0},
                                            {"call", call, 0, 0},           {"call v3", call_v3, 0, 0},     {"call v4", call_v4, 1, 0},
                                            {"ISA-L base", isal_base, 0, 0}, {"SSE", isal_sse, 0, 0},        {"AVX2", isal_avx2, 0, 0},
                                            {"AVX512", isal_avx512, 1, 0},  {"Jerasure", jerasure, 0, 0}};

/* either field: bytes, or the numbers modulo 13 */
static uint8_t plus(uint8_t a, uint8_t b) { return field ? a ^ b : (a + b) % 13; }
static uint8_t minus(uint8_t a, uint8_t b) { return field ? a ^ b : (a + 13 - b) % 13; }
static uint8_t times(uint8_t a, uint8_t b) { return field ? mul(a, b) : a * b % 13; }
static uint8_t raised(uint8_t a, int e) {
    uint8_t p = 1;
    while (e--) p = times(p, a);
    return p;
}

static void plain(void) {
    for (int i = 0; i < l; i++) {
        uint8_t s = 0;
        for (int j = 0; j < r; j++) s = plus(s, times(weights[j], mates[j * l + i]));
        reference[i] = s;
    }
}

/* Lagrange's weights of member 0 of a group, whose points are the powers of a root of unity of order r + 1 */
static void prepare(void) {
    int order = field ? 256 : 13;
    uint8_t root = raised(2, (order - 1) / (r + 1));
    memset(weights, 0, sizeof weights);
    for (int m = 1; m <= r; m++) {
        uint8_t w = 1;
        for (int o = 1; o <= r; o++)
            if (o != m) w = times(w, times(minus(1, raised(root, o)), raised(minus(raised(root, m), raised(root, o)), order - 2)));
        weights[m - 1] = w;
    }
    for (int i = 0; i < r * l; i++) mates[i] = rand() % order;
    for (int j = 0; j < r; j++) sources[j] = mates + j * l, row[j] = weights[j];
    ec_init_tables(r, 1, weights, tables);
    plain();
}

/* each contestant that the machine can run writes the plain sums */
static void compare(contestant *who, int count) {
    for (int k = 0; k < count; k++) {
        if (who[k].needs && !wide) continue;
        memset(output, 0xaa, l);
        who[k].call();
        if (memcmp(output, reference, l)) differs(who[k].name);
    }
}

/* every length up to 300, every r, random weights, and for r 2 the code's own two in both orders: the kernels alone */
static void agree(void) {
    int rs[] = {1, 2, 3, 4, 14, 16};
    for (int a = 0; a < 6; a++)
        for (l = 1; l <= 300; l++)
            for (int k = KERNEL; k <= KERNEL4; k++) {
                if (rebuilders[k].needs && !wide) continue;
                r = rs[a];
                for (int i = 0; i < 16; i++) weights[i] = rand();
                if (r == 2 && l % 3) weights[0] = 213 + l % 3, weights[1] = weights[0] ^ 1;
                for (int i = 0; i < r * l; i++) mates[i] = rand();
                plain();
                memset(output, 0xaa, sizeof output);
                rebuilders[k].call();
                if (memcmp(output, reference, l) || output[l] != 0xaa) differs(rebuilders[k].name);
            }
}

/* the rows of the table */
enum { ROWS = 9 };
static int length_of(int a) { return (int[]){4096, 256, 64}[a / 3]; }
static int locality_of(int a) { return (int[]){2, 4, 16}[a % 3]; }

static void print_rates(double best[ROWS][REBUILDERS]) {
    printf("Rebuild, GB/s of mate bytes; ISA-L's tables are made before, our call makes its weights each time\n%5s %3s", "L", "r");
    for (int k = 0; k < REBUILDERS; k++) printf(" %10s", rebuilders[k].name);
    for (int a = 0; a < ROWS; a++) {
        printf("\n%5d %3d", length_of(a), locality_of(a));
        for (int k = 0; k < REBUILDERS; k++)
            printf(" %10.2f", rebuilders[k].needs && !wide ? 0 : 1e-9 * locality_of(a) * length_of(a) / best[a][k]);
    }
    printf("\n\n");
}

static void print_ratios(double best[ROWS][REBUILDERS]) {
    struct {
        int ours, theirs;
        const char *name;
    } ratios[] = {{KERNEL, SSE, "kernel/SSE"},       {KERNEL, JERASURE, "kernel/Jer."}, {KERNEL, BASE, "kernel/base"}, {CALL, SSE, "call/SSE"},
                  {KERNEL3, AVX2, "v3/AVX2"},        {CALL3, AVX2, "call v3/AVX2"},     {KERNEL4, AVX512, "v4/AVX512"},  {CALL4, AVX512, "call v4/AVX512"}};
    printf("Ratios\n%5s %3s", "L", "r");
    for (int k = 0; k < 8; k++) printf(" %14s", ratios[k].name);
    for (int a = 0; a < ROWS; a++) {
        printf("\n%5d %3d", length_of(a), locality_of(a));
        for (int k = 0; k < 8; k++)
            printf(" %14.2f", rebuilders[ratios[k].ours].needs && !wide ? 0 : best[a][ratios[k].theirs] / best[a][ratios[k].ours]);
    }
    printf("\n\n");
}

void rebuild(void) {
    double best[ROWS][REBUILDERS];
    field = 1;
    agree();
    /* several passes over all rows, so that a slow stretch of the machine spoils none */
    for (int turn = 0; turn < ROWS * PASSES; turn++) {
        int a = turn % ROWS;
        l = length_of(a), r = locality_of(a);
        srand(l + r);
        prepare();
        compare(rebuilders, REBUILDERS);
        race(rebuilders, REBUILDERS, 400, 4e-5);
        for (int k = 0; k < REBUILDERS; k++)
            if (turn < ROWS || rebuilders[k].best < best[a][k]) best[a][k] = rebuilders[k].best;
    }
    print_rates(best);
    print_ratios(best);
}

/* the weights alone: into a place of their own, since those here are Lagrange's */
static void weigh(void) {
    static uint8_t found[16];
    latsefidy_weights(field, r, r + 1, r, 0, 0, found, 16);
}
/* the strip as if each column made its own weights: by the call that repairs one symbol */
static void one_by_one(void) {
    uint8_t column[16];
    for (int i = 0; i < l; i++) {
        for (int j = 0; j < r; j++) column[j] = mates[j * l + i];
        output[i] = (uint8_t)latsefidy_repair(field, r, r + 1, r, 0, 0, column, r);
    }
}
/* its tables are made each time, from weights made before the clock starts */
static void isal(void) {
    ec_init_tables(r, 1, weights, tables);
    ec_encode_data(l, r, 1, tables, sources, outputs);
}

/* those before the weights write the strip over both fields, ISA-L over bytes */
enum { WEIGHTS = 4, ISAL, CONTESTANTS };
static contestant by_length[CONTESTANTS] = {{"x86-64", call, 0, 0},       {"v3", call_v3, 0, 0},     {"v4", call_v4, 1, 0},
                                            {"repair", one_by_one, 0, 0}, {"weights", weigh, 0, 0}, {"ISA-L", isal, 0, 0}};

enum { LENGTHS = 4 };
static const int columns[LENGTHS] = {1, 16, 256, MOST};

static void print_lengths(int k, double best[LENGTHS][CONTESTANTS]) {
    if (k == WEIGHTS || (k == ISAL && !field) || (by_length[k].needs && !wide)) return;
    printf("%5d %3d %8s", field, r, by_length[k].name);
    for (int b = 0; b < LENGTHS; b++) printf(" %9.0f", 1e9 * best[b][k]);
    printf(" %12.3f", 1e9 * (best[LENGTHS - 1][k] - best[0][k]) / (MOST - 1));
    if (k != ISAL) printf(" %9.0f", 1e9 * best[0][WEIGHTS]);
    printf("\n");
}

static void time_lengths(double best[LENGTHS][CONTESTANTS]) {
    for (int turn = 0; turn < LENGTHS * PASSES; turn++) {
        int b = turn % LENGTHS;
        l = columns[b];
        srand(l + r);
        prepare();
        compare(by_length, WEIGHTS);
        if (field) compare(by_length + ISAL, 1);
        race(by_length, field ? CONTESTANTS : ISAL, 200, 4e-5);
        for (int k = 0; k < CONTESTANTS; k++)
            if (turn < LENGTHS || by_length[k].best < best[b][k]) best[b][k] = by_length[k].best;
    }
}

void lengths(void) {
    /* field 0 has r 1, 2, 3, 5 and 11 alone: 3 and 11 stand in for 4 and 16 */
    int rows[6][2] = {{0, 2}, {0, 3}, {0, 11}, {1, 2}, {1, 4}, {1, 16}};
    double best[LENGTHS][CONTESTANTS];
    printf("Rebuild by length, ns a call; a further column: (L 4096 - L 1) / 4095; the weights alone, by their own call\n");
    printf("%5s %3s %8s %9s %9s %9s %9s %12s %9s\n", "field", "r", "", "L 1", "L 16", "L 256", "L 4096", "a column", "weights");
    for (int a = 0; a < 6; a++) {
        field = rows[a][0], r = rows[a][1];
        time_lengths(best);
        for (int k = 0; k < CONTESTANTS; k++) print_lengths(k, best);
    }
    printf("\n");
}
