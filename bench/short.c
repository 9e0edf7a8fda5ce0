/* Short: the calls of a code whose last group is short, over bytes, in turns with those of the code of whole groups that has as
   many groups and the same guarantee: it has as many slots and message symbols more as the short group lacks. What a call makes
   is compared with the plain reference, which for the short code goes by its definition. */
#include "bench.h"
#include <stdio.h>
#include <stdlib.h>
#include <string.h>

enum { LONG = 4096, CODES = 5 };

static const int codes[CODES][3] = {{16, 250, 230}, {14, 250, 220}, {4, 248, 196}, {2, 254, 160}, {4, 8, 5}};

/* what the two codes share, the level, and what decode must answer */
static int r, groups, missing, sure, level, expected;
/* by code, 0 whole and 1 short: its numbers, a message, the codeword, the same with its losses, and their marks */
static int n[2], k[2];
static uint8_t message[2][N], truth[2][N], word[2][N], marks[2][N];
/* by code: the strips of the mates of a slot, as many as it has, and its own */
static uint8_t mates[2][16 * LONG], strip[2][LONG];
static int slot, count[2];
/* what a call made */
static uint8_t made[N], made_marks[N], back[N], out[LONG], work[N * (N + 1)];

static void take_code(const int *code) {
    static uint8_t generator[N * N];
    r = code[0], groups = (code[1] + r) / (r + 1), missing = groups * (r + 1) - code[1];
    for (int w = 0; w < 2; w++) {
        n[w] = code[1] + (w ? 0 : missing), k[w] = code[2] + (w ? 0 : missing);
        generate(r, n[w], k[w], generator);
        for (int m = 0; m < k[w]; m++) message[w][m] = rand() >> 8;
        for (int p = 0; p < n[w]; p++) {
            truth[w][p] = 0;
            for (int m = 0; m < k[w]; m++) truth[w][p] ^= mul(message[w][m], generator[p * k[w] + m]);
        }
    }
    sure = n[0] - k[0] - (k[0] + r - 1) / r + 1;
}

/* loses so many slots of both, step apart from the first on */
static void lose(int number, int step) {
    memcpy(word, truth, sizeof word);
    memset(marks, 0, sizeof marks);
    for (int w = 0; w < 2; w++)
        for (int p = 0; p < number * step; p += step) marks[w][p] = 1, word[w][p] ^= 0x5a;
}

/* in each column a polynomial of degree below r over the points of a group, for its member 1; that of a short group is h times
   another one */
static void take_strips(int group) {
    static uint8_t coefficients[LONG][16];
    slot = group * (r + 1) + 1;
    for (int w = 0; w < 2; w++) {
        int lacks = w && group == groups - 1 ? missing : 0;
        count[w] = r - lacks;
        for (int c = 0; c < LONG; c++)
            for (int m = 0; m < count[w]; m++) coefficients[c][m] = rand() >> 8;
        for (int i = 0; i <= count[w]; i++) {
            uint8_t x = point(r, group, i), h = lacks ? vanishing(r, n[1], x) : 1;
            uint8_t *to = i == 1 ? strip[w] : mates[w] + (i > 1 ? i - 1 : 0) * LONG;
            for (int c = 0; c < LONG; c++) {
                uint8_t symbol = 0;
                for (int m = count[w]; m-- > 0;) symbol = mul(symbol, x) ^ coefficients[c][m];
                to[c] = mul(symbol, h);
            }
        }
    }
}

/* ---- the calls, by code, and whether what they made is right */

static int encode(int w) { return levels[level].encode(1, r, n[w], k[w], 0, message[w], k[w], made, n[w]); }
static int encoded(int w) { return !memcmp(made, truth[w], n[w]); }

static int decode(int w) {
    return levels[level].decode(1, r, n[w], k[w], 0, word[w], n[w], marks[w], n[w], back, k[w], work, (size_t)n[w] * (k[w] + 1));
}
static int decoded(int w) { return expected || !memcmp(back, message[w], k[w]); }

/* the word and its marks are set each time, since the pass changes them */
static int pass(int w) {
    memcpy(made, word[w], n[w]), memcpy(made_marks, marks[w], n[w]);
    return levels[level].pass(1, r, n[w], k[w], 0, made, n[w], made_marks, n[w]) >> 32;
}
static int passed(int w) { return !memcmp(made, truth[w], n[w]) && !memchr(made_marks, 1, n[w]); }

static int rebuild_strip(int w) {
    return levels[level].rebuild(1, r, n[w], k[w], 0, slot, mates[w], (size_t)count[w] * LONG, out, LONG);
}
static int rebuilt(int w) { return !memcmp(out, strip[w], LONG); }

/* ---- the rows */

static void row(const char *name, int (*call)(int), int (*right)(int)) {
    printf("%3d %4d %4d %4d %4d  %-28s", r, n[0], k[0], n[1], k[1], name);
    for (level = 0; level < LEVELS; level++) {
        double median[2];
        if (levels[level].needs && !wide) {
            printf(" %9s %9s %7s", "-", "-", "-");
            continue;
        }
        for (int w = 0; w < 2; w++) {
            memset(made, 0xaa, sizeof made), memset(back, 0xaa, sizeof back), memset(out, 0xaa, sizeof out);
            if (call(w) != expected || !right(w)) differs(name);
        }
        take_turns(call, median);
        printf(" %9.2f %9.2f %7.2f", 1e6 * median[0], 1e6 * median[1], median[1] / median[0]);
    }
    printf("\n");
}

static void rows(void) {
    expected = 0;
    row("encode", encode, encoded);
    lose(0, 1);
    row("decode, nothing lost", decode, decoded);
    lose(sure, 1);
    row("decode, the guarantee lost", decode, decoded);
    /* whole groups first: what is kept of the others is one short of k */
    lose(sure + 1, 1);
    expected = 10;
    row("decode, 1 more lost", decode, decoded);
    expected = 0;
    lose(groups, r + 1);
    row("decode, 1 lost in each group", decode, decoded);
    row("local pass, 1 in each group", pass, passed);
    take_strips(0);
    row("rebuild, 4,096, first group", rebuild_strip, rebuilt);
    take_strips(groups - 1);
    row("rebuild, 4,096, last group", rebuild_strip, rebuilt);
}

void short_groups(void) {
    printf("Whole groups (w) and a short last group (s), microseconds a call, and the ratio s / w: medians of %d turns each, taken one\n"
           "after the other. The guarantee of the two is the same: 6, 14, 3, 14 and 2; one more loss leaves more than one message.\n"
           "A rebuild takes r strips of 4,096 columns; that of the short group takes as many fewer as the group lacks slots\n"
           "%13s %9s\n%3s %4s %4s %4s %4s  %-28s", TURNS, "w", "s", "r", "n", "k", "n", "k", "");
    for (int i = 0; i < LEVELS; i++) printf(" %7s w %9s %7s", levels[i].name, "s", "s / w");
    printf("\n");
    for (int a = 0; a < CODES; a++) {
        take_code(codes[a]);
        rows();
    }
    printf("\n");
}
