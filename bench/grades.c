/* Grades: the grade of losses, in turns with decode of a codeword that has them, and with clearing the work that both leave
   clear. What a grade must be stands in the table; decode must answer 10 for grade 4 alone, and else give the message. */
#include "bench.h"
#include <stdio.h>
#include <stdlib.h>
#include <string.h>

enum { CONTESTANTS = 2 * LEVELS + 1, ROUNDS = 60 };

/* lost slots: so many, step apart from the first on, and one more, slot 1, where it is asked */
static const struct {
    int r, k, lost, step, more, grade;
    const char *name;
} rows[] = {
    {16, 240, 0, 1, 0, 0, "nothing lost"},
    {16, 240, 15, 17, 0, 1, "15 lost, 1 in each group"},
    {16, 240, 2, 1, 0, 4, "2 lost in a group"},
    {16, 240, 15, 17, 1, 4, "2 in a group, 1 in each other"},
    {16, 200, 2, 1, 0, 2, "2 lost in a group"},
    {16, 200, 43, 1, 0, 2, "43 lost, the guarantee"},
    {16, 200, 44, 1, 0, 4, "44 lost, side by side"},
    {16, 200, 45, 5, 0, 3, "45 lost, every fifth"},
    {16, 200, 51, 5, 0, 3, "51 lost, every fifth"},
    {4, 204, 51, 5, 0, 1, "51 lost, 1 in each group"},
    {4, 204, 2, 1, 0, 4, "2 lost in a group"},
    {4, 204, 51, 5, 1, 4, "2 in a group, 1 in each other"},
    {4, 180, 31, 1, 0, 2, "31 lost, the guarantee"},
    {4, 180, 32, 1, 0, 4, "32 lost, side by side"},
    {4, 180, 64, 4, 0, 3, "64 lost, every fourth"},
    {2, 170, 85, 3, 0, 1, "85 lost, 1 in each group"},
    {2, 170, 2, 1, 0, 4, "2 lost in a group"},
    {2, 170, 85, 3, 1, 4, "2 in a group, 1 in each other"},
    {2, 150, 31, 1, 0, 2, "31 lost, the guarantee"},
    {2, 150, 32, 1, 0, 4, "32 lost, side by side"},
    {2, 150, 40, 2, 0, 3, "40 lost, every other"},
    {2, 150, 62, 2, 0, 4, "62 lost, every other"},
};

static int r, k;
static size_t used;
static uint64_t answer;
static uint8_t message[N], truth[N], word[N], marks[N], back[N], work[N * (N + 1)];

static void stripe(void) {
    static uint8_t generator[N * N];
    used = (size_t)N * (k + 1);
    generate(r, N, k, generator);
    for (int m = 0; m < k; m++) message[m] = rand() >> 8;
    for (int p = 0; p < N; p++) {
        truth[p] = 0;
        for (int m = 0; m < k; m++) truth[p] ^= mul(message[m], generator[p * k + m]);
    }
}

static void lose(int count, int step, int more) {
    memcpy(word, truth, N);
    memset(marks, 0, N);
    for (int i = 0; i < count; i++) marks[i * step] = 1;
    if (more) marks[1] = 1;
    for (int p = 0; p < N; p++)
        if (marks[p]) word[p] ^= 0x5a;
}

/* ---- the contestants: grade and decode at each level, and what both do besides */

static void grade(int level) { answer = levels[level].grade(1, r, N, k, 0, marks, N, work, used); }
static void decode(int level) { answer = levels[level].decode(1, r, N, k, 0, word, N, marks, N, back, k, work, used); }
static void grade_base(void) { grade(0); }
static void grade_v3(void) { grade(1); }
static void grade_v4(void) { grade(2); }
static void decode_base(void) { decode(0); }
static void decode_v3(void) { decode(1); }
static void decode_v4(void) { decode(2); }
static void clear(void) {
    memset(work, 0, used);
    __asm__ volatile("" : : "r"(work) : "memory");
}

static contestant who[CONTESTANTS] = {{"grade", grade_base, 0, 0}, {"decode", decode_base, 0, 0}, {"v3", grade_v3, 0, 0},
                                      {"decode", decode_v3, 0, 0}, {"v4", grade_v4, 1, 0},        {"decode", decode_v4, 1, 0},
                                      {"clear", clear, 0, 0}};

static int cleared(void) {
    for (size_t i = 0; i < used; i++)
        if (work[i]) return 0;
    return 1;
}

/* each call once, on work and a message that are not clear */
static void check(int expected, const char *name) {
    for (int i = 0; i < 2 * LEVELS; i++) {
        if (who[i].needs && !wide) continue;
        memset(work, 0xaa, used), memset(back, 0xaa, N);
        who[i].call();
        uint64_t right = i % 2 == 0 ? (uint64_t)expected : expected == 4 ? 10 : 0;
        if (answer != right || !cleared()) differs(name);
        if (i % 2 && !right && memcmp(back, message, k)) differs(name);
    }
}

void grades(void) {
    printf("Grade of losses at n 255, and decode of a codeword with them, microseconds a call; both leave n (k + 1) bytes of work clear,\n"
           "which alone takes what the last column has. Grade 3 is past the guarantee and decided, grade 4 undecided\n"
           "%3s %4s  %-30s %5s", "r", "k", "", "grade");
    for (int i = 0; i < LEVELS; i++) printf(" %10s %9s", levels[i].name, "decode");
    printf(" %8s\n", "clear");
    for (size_t a = 0; a < sizeof rows / sizeof *rows; a++) {
        if (!a || r != rows[a].r || k != rows[a].k) r = rows[a].r, k = rows[a].k, stripe();
        lose(rows[a].lost, rows[a].step, rows[a].more);
        check(rows[a].grade, rows[a].name);
        race(who, CONTESTANTS, ROUNDS, 1e-4);
        printf("%3d %4d  %-30s %5d", r, k, rows[a].name, rows[a].grade);
        for (int i = 0; i < 2 * LEVELS; i++)
            printf(i % 2 ? " %9.2f" : " %10.2f", who[i].needs && !wide ? 0 : 1e6 * who[i].best);
        printf(" %8.2f\n", 1e6 * who[CONTESTANTS - 1].best);
    }
    printf("\n");
}
