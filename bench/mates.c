/* Mates: the calls that mend a group, over bytes, of a code with k below r, whose mates are tested, in turns with those of the code
   with the same r and n and a k of r or more, whose mates are not. Both are handed the same symbols, of codewords of the first
   code, and make the same. What they make is compared with these codewords. */
#include "bench.h"
#include <stdio.h>
#include <stdlib.h>
#include <string.h>

enum { LONG = 4096, CODES = 6 };

/* r, n, and k without a test and with one; n 250 has a short last group */
static const int codes[CODES][4] = {{16, 255, 240, 8},  {16, 255, 240, 15}, {16, 250, 230, 12},
                                    {14, 255, 238, 7}, {4, 255, 204, 2},   {2, 255, 170, 1}};

/* the code, its k by w, 0 without a test and 1 with one, and the level */
static int r, n, k[2], level;
static uint8_t generator[N * N];
/* a codeword, the same with a slot of each group lost, and its marks */
static uint8_t truth[N], word[N], marks[N];
/* the strips of the mates of slot 1, of so many columns, and its own */
static uint8_t mates[16 * LONG], strip[LONG];
static int columns;
/* what a call made */
static uint8_t made[N], made_marks[N], out[LONG];

/* a codeword's symbols at the first slots */
static void codeword(uint8_t *to, int slots) {
    uint8_t message[N];
    for (int m = 0; m < k[1]; m++) message[m] = rand() >> 8;
    for (int p = 0; p < slots; p++) {
        to[p] = 0;
        for (int m = 0; m < k[1]; m++) to[p] ^= mul(message[m], generator[p * k[1] + m]);
    }
}

static void take_code(const int *code) {
    r = code[0], n = code[1], k[0] = code[2], k[1] = code[3];
    generate(r, n, k[1], generator);
    codeword(truth, n);
    memcpy(word, truth, sizeof word);
    memset(marks, 0, sizeof marks);
    for (int p = 0; p < n; p += r + 1) marks[p] = 1, word[p] ^= 0x5a;
}

static void take_strips(int length) {
    uint8_t group[17];
    columns = length;
    for (int c = 0; c < length; c++) {
        codeword(group, r + 1);
        for (int i = 0; i <= r; i++)
            if (i == 1) strip[c] = group[i];
            else mates[(i > 1 ? i - 1 : 0) * length + c] = group[i];
    }
}

/* ---- the calls, and whether what they made is right */

static int repair(int w) {
    uint64_t answer = levels[level].repair(1, r, n, k[w], 0, 1, mates, r);
    out[0] = (uint8_t)answer;
    return answer >> 32;
}
static int rebuild_strip(int w) { return levels[level].rebuild(1, r, n, k[w], 0, 1, mates, (size_t)r * columns, out, columns); }
static int rebuilt(void) { return !memcmp(out, strip, columns); }

/* the word and its marks are set each time, since the pass changes them */
static int pass(int w) {
    memcpy(made, word, n), memcpy(made_marks, marks, n);
    return levels[level].pass(1, r, n, k[w], 0, made, n, made_marks, n) >> 32;
}
static int passed(void) { return !memcmp(made, truth, n) && !memchr(made_marks, 1, n); }

/* ---- the rows */

/* the code with a test refuses strips whose last column alone is no codeword's, and the other does not */
static void refuses(void) {
    mates[columns - 1] ^= 1;
    for (level = 0; level < LEVELS; level++) {
        if (levels[level].needs && !wide) continue;
        memset(out, 0xaa, sizeof out);
        if (rebuild_strip(1) != 9 || out[0] != 0xaa || out[columns - 1] != 0xaa || rebuild_strip(0)) differs("a refused strip");
    }
    mates[columns - 1] ^= 1;
}

static void row(const char *name, int (*call)(int), int (*right)(void)) {
    printf("%3d %4d %4d %4d  %-28s", r, n, k[0], k[1], name);
    for (level = 0; level < LEVELS; level++) {
        double median[2];
        if (levels[level].needs && !wide) {
            printf(" %9s %9s %6s", "-", "-", "-");
            continue;
        }
        for (int w = 0; w < 2; w++) {
            memset(made, 0xaa, sizeof made), memset(out, 0xaa, sizeof out);
            if (call(w) || !right()) differs(name);
        }
        take_turns(call, median);
        printf(" %9.3f %9.3f %6.2f", 1e6 * median[0], 1e6 * median[1], median[1] / median[0]);
    }
    printf("\n");
}

static void rows(void) {
    take_strips(1);
    row("repair", repair, rebuilt);
    take_strips(64);
    refuses();
    row("rebuild, 64 columns", rebuild_strip, rebuilt);
    take_strips(LONG);
    refuses();
    row("rebuild, 4,096 columns", rebuild_strip, rebuilt);
    row("local pass, 1 in each group", pass, passed);
}

void true_mates(void) {
    printf("Mates without a test (u), where k is r or more, and with one (t), by r - k parity checks: microseconds a call, and the\n"
           "ratio t / u: medians of %d turns each, taken one after the other\n"
           "%13s %4s\n%3s %4s %4s %4s  %-28s", TURNS, "u", "t", "r", "n", "k", "k", "");
    for (int i = 0; i < LEVELS; i++) printf(" %7s u %9s %6s", levels[i].name, "t", "t / u");
    printf("\n");
    for (int a = 0; a < CODES; a++) {
        take_code(codes[a]);
        rows();
    }
    printf("\n");
}
