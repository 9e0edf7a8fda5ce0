/* Wired: the calls of a code under wiring 0 and wiring 1, over bytes, in turns. Under both the same members of the same groups
   are lost. What a call makes is compared with the plain reference. */
#include "bench.h"
#include <stdio.h>
#include <stdlib.h>
#include <string.h>

enum { LONG = 4096, CODES = 3 };

static const int codes[CODES][3] = {{16, 255, 240}, {4, 20, 12}, {4, 60, 40}};

/* the code, the level, and what decode must answer */
static int r, n, k, level, expected;
/* by wiring: the codeword, the same with its losses, and their marks */
static uint8_t message[N], truth[2][N], word[2][N], marks[2][N];
/* the strips of the mates of group 0's member 1, of so many columns, and its own */
static uint8_t mates[16 * LONG], strip[LONG];
static int columns;
/* what a call made */
static uint8_t made[N], made_marks[N], back[N], out[LONG], work[N * (N + 1)];

/* the slot under wiring 1 of what stands in slot p under wiring 0 */
static int spread(int p) { return p / (r + 1) + p % (r + 1) * (n / (r + 1)); }

static void take_code(const int *code) {
    static uint8_t generator[N * N];
    r = code[0], n = code[1], k = code[2];
    generate(r, n, k, generator);
    for (int m = 0; m < k; m++) message[m] = rand() >> 8;
    for (int p = 0; p < n; p++) {
        uint8_t symbol = 0;
        for (int m = 0; m < k; m++) symbol ^= mul(message[m], generator[p * k + m]);
        truth[0][p] = truth[1][spread(p)] = symbol;
    }
}

/* loses count slots of wiring 0, step apart from the first on, and under wiring 1 the same members */
static void lose(int count, int step) {
    memcpy(word, truth, sizeof word);
    memset(marks, 0, sizeof marks);
    for (int p = 0; p < count * step; p += step) {
        marks[0][p] = marks[1][spread(p)] = 1;
        word[0][p] ^= 0x5a, word[1][spread(p)] ^= 0x5a;
    }
}

/* in each column a polynomial of degree below r over the points of group 0 */
static void take_strips(int length) {
    columns = length;
    for (int c = 0; c < length; c++) {
        uint8_t coefficients[16];
        for (int m = 0; m < r; m++) coefficients[m] = rand() >> 8;
        for (int i = 0; i <= r; i++) {
            uint8_t point = power(2, i * (255 / (r + 1))), symbol = 0;
            for (int m = r; m-- > 0;) symbol = mul(symbol, point) ^ coefficients[m];
            if (i == 1) strip[c] = symbol;
            else mates[(i > 1 ? i - 1 : 0) * length + c] = symbol;
        }
    }
}

/* ---- the calls, by wiring, and whether what they made is right */

static int encode(int w) { return levels[level].encode(1, r, n, k, w, message, k, made, n); }
static int encoded(int w) { return !memcmp(made, truth[w], n); }

static int decode(int w) {
    return levels[level].decode(1, r, n, k, w, word[w], n, marks[w], n, back, k, work, (size_t)n * (k + 1));
}
static int decoded(int w) { return (void)w, expected || !memcmp(back, message, k); }

/* the word and its marks are set each time, since the pass changes them */
static int pass(int w) {
    memcpy(made, word[w], n), memcpy(made_marks, marks[w], n);
    return levels[level].pass(1, r, n, k, w, made, n, made_marks, n) >> 32;
}
static int passed(int w) { return !memcmp(made, truth[w], n) && !memchr(made_marks, 1, n); }

static int rebuild_strip(int w) {
    return levels[level].rebuild(1, r, n, k, w, w ? spread(1) : 1, mates, (size_t)r * columns, out, columns);
}
static int rebuilt(int w) { return (void)w, !memcmp(out, strip, columns); }

/* ---- the races */

static void row(const char *name, int (*call)(int), int (*right)(int)) {
    printf("%3d %4d %4d  %-28s", r, n, k, name);
    for (level = 0; level < LEVELS; level++) {
        double median[2];
        if (levels[level].needs && !wide) {
            printf(" %9s %9s %6s", "-", "-", "-");
            continue;
        }
        for (int w = 0; w < 2; w++) {
            memset(made, 0xaa, sizeof made), memset(back, 0xaa, sizeof back), memset(out, 0xaa, sizeof out);
            if (call(w) != expected || !right(w)) differs(name);
        }
        take_turns(call, median);
        printf(" %9.2f %9.2f %6.2f", 1e6 * median[0], 1e6 * median[1], median[1] / median[0]);
    }
    printf("\n");
}

static void rows(void) {
    int groups = n / (r + 1), sure = n - k - (k + r - 1) / r + 1;
    expected = 0;
    row("encode", encode, encoded);
    lose(1, 1);
    row("decode, 1 lost", decode, decoded);
    lose(groups, r + 1);
    row("decode, 1 lost in each group", decode, decoded);
    row("local pass, 1 in each group", pass, passed);
    lose(sure, 1);
    if (sure > 1) row("decode, the guarantee lost", decode, decoded);
    /* whole groups first: what is kept of the others is one short of k */
    lose(sure + 1, 1);
    expected = 10;
    row("decode, 1 more lost", decode, decoded);
    expected = 0;
    take_strips(64);
    row("rebuild, 64 columns", rebuild_strip, rebuilt);
    take_strips(LONG);
    row("rebuild, 4,096 columns", rebuild_strip, rebuilt);
}

void wired(void) {
    printf("Wiring 0 and wiring 1, microseconds a call, and the ratio 1 / 0: medians of %d turns each, taken one after the other.\n"
           "The guarantee is 1, 6 and 11; one more loss leaves more than one message\n%3s %4s %4s  %-28s", TURNS, "r", "n", "k", "");
    for (int i = 0; i < LEVELS; i++) printf(" %7s 0 %9s %6s", levels[i].name, "1", "1 / 0");
    printf("\n");
    for (int a = 0; a < CODES; a++) {
        take_code(codes[a]);
        rows();
    }
    printf("\n");
}
