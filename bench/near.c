/* Near: decode_near of a codeword with losses, in turns with decode of the same. Both must answer what stands in the table, and
   decode_near the number of groups that it mended, 0 where it is refused; where they are not, both must give the message. */
#include "bench.h"
#include <stdio.h>
#include <stdlib.h>
#include <string.h>

enum { CONTESTANTS = 2 * LEVELS, ROUNDS = 60 };

/* one in each group and then another, round by round; or all in group 0 and on into the next where that is full */
enum pattern { SPREAD, TOGETHER };

/* lost slots: so many by the pattern; how many groups are mended, and what is answered */
static const struct {
    int r, k, lost;
    enum pattern pattern;
    int mended, answer;
    const char *name;
} rows[] = {
    {16, 240, 1, SPREAD, 1, 0, "1 lost"},
    {16, 240, 15, SPREAD, 15, 0, "15 lost, 1 in each group"},
    {16, 240, 15, TOGETHER, 0, 10, "15 lost in a group"},
    {16, 240, 16, SPREAD, 0, 10, "2 in a group, 1 in each other"},
    {16, 200, 1, SPREAD, 1, 0, "1 lost"},
    {16, 200, 15, SPREAD, 15, 0, "15 lost, 1 in each group"},
    {16, 200, 15, TOGETHER, 0, 0, "15 lost in a group"},
    {16, 200, 45, SPREAD, 0, 0, "45 lost, 3 in each group"},
    {16, 200, 45, TOGETHER, 0, 10, "45 lost in 3 groups"},
    {4, 200, 1, SPREAD, 1, 0, "1 lost"},
    {4, 200, 15, SPREAD, 15, 0, "15 lost, 1 in a group"},
    {4, 200, 15, TOGETHER, 0, 10, "15 lost, 3 whole groups"},
    {4, 200, 45, SPREAD, 45, 0, "45 lost, 1 in a group"},
    {4, 200, 45, TOGETHER, 0, 10, "45 lost, 9 whole groups"},
    {4, 204, 52, SPREAD, 0, 10, "2 in a group, 1 in each other"},
};

static int r, k;
static size_t used;
static uint64_t answer;
static uint8_t message[N], truth[N], word[N], marks[N], back[N], work[N * (N + 1)];

static void stripe(void) {
    static uint8_t generator[N * N];
    used = (size_t)N * (k + 1);
    generate(r, N, k, generator);
    for (int m = 0; m < k; m++) message[m] = rand() >> 8;
    for (int p = 0; p < N; p++) {
        truth[p] = 0;
        for (int m = 0; m < k; m++) truth[p] ^= mul(message[m], generator[p * k + m]);
    }
}

static void lose(int count, enum pattern pattern) {
    int groups = N / (r + 1);
    memcpy(word, truth, N);
    memset(marks, 0, N);
    for (int i = 0; i < count; i++) {
        int slot = pattern == SPREAD ? i % groups * (r + 1) + i / groups : i;
        marks[slot] = 1, word[slot] ^= 0x5a;
    }
}

/* ---- the contestants: both at each level */

static void near(int level) { answer = levels[level].near(1, r, N, k, 0, word, N, marks, N, back, k, work, used); }
static void decode(int level) { answer = levels[level].decode(1, r, N, k, 0, word, N, marks, N, back, k, work, used); }
static void near_base(void) { near(0); }
static void near_v3(void) { near(1); }
static void near_v4(void) { near(2); }
static void decode_base(void) { decode(0); }
static void decode_v3(void) { decode(1); }
static void decode_v4(void) { decode(2); }

static contestant who[CONTESTANTS] = {{"near", near_base, 0, 0}, {"decode", decode_base, 0, 0},
                                      {"near v3", near_v3, 0, 0}, {"decode v3", decode_v3, 0, 0},
                                      {"near v4", near_v4, 1, 0}, {"decode v4", decode_v4, 1, 0}};

/* each call once, on work and a message that are not clear; a refused one leaves the message */
static void check(int mended, int refusal, const char *name) {
    static uint8_t clear[N * (N + 1)], filled[N];
    memset(filled, 0xaa, N);
    for (int i = 0; i < CONTESTANTS; i++) {
        if (who[i].needs && !wide) continue;
        memset(work, 0xaa, used), memset(back, 0xaa, N);
        who[i].call();
        if (answer != (i % 2 ? (uint64_t)refusal : (uint64_t)refusal << 32 | (uint64_t)mended)) differs(name);
        if (memcmp(back, refusal ? filled : message, k) || memcmp(work, clear, used)) differs(name);
    }
}

void near_home(void) {
    printf("Decode_near beside decode of the same losses at n 255, microseconds a call, decode_near first of each build; mended is\n"
           "the number of groups that it answers, 0 where it is refused; answer is that of both, 10 where the kept slots do not decide\n"
           "%3s %4s  %-30s %6s %6s", "r", "k", "", "mended", "answer");
    for (int i = 0; i < LEVELS; i++) printf(" %10s %9s", levels[i].name, "decode");
    printf("\n");
    for (size_t a = 0; a < sizeof rows / sizeof *rows; a++) {
        if (!a || r != rows[a].r || k != rows[a].k) r = rows[a].r, k = rows[a].k, stripe();
        lose(rows[a].lost, rows[a].pattern);
        check(rows[a].mended, rows[a].answer, rows[a].name);
        race(who, CONTESTANTS, ROUNDS, 1e-4);
        printf("%3d %4d  %-30s %6d %6d", r, k, rows[a].name, rows[a].mended, rows[a].answer);
        for (int i = 0; i < CONTESTANTS; i++)
            printf(i % 2 ? " %9.2f" : " %10.2f", who[i].needs && !wide ? 0 : 1e6 * who[i].best);
        printf("\n");
    }
    printf("\n");
}
