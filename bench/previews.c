/* Previews: the preview of a slot, in turns with the grade of the marks with that slot lost; then the previews of a whole sheet.
   What a grade must be stands in the table. A sheet's text must be that of the previews of its kept slots, one by one. */
#include "bench.h"
#include <stdio.h>
#include <string.h>

enum { SINGLE = 2 * LEVELS, SHEETS = LEVELS, ROUNDS = 60, TEXT = 8420 };

/* lost slots: so many, step apart from the first on; the slot of the preview, and the grade that follows */
static const struct {
    int r, k, lost, step, slot, grade;
    const char *name;
} rows[] = {
    {16, 240, 0, 1, 0, 1, "nothing lost"},
    {16, 240, 14, 17, 238, 1, "1 in each group but one: the last"},
    {16, 240, 1, 1, 1, 4, "the guarantee, 1: one past it"},
    {16, 240, 15, 17, 1, 4, "1 in each group: another"},
    {16, 200, 0, 1, 0, 1, "nothing lost"},
    {16, 200, 42, 1, 42, 2, "42 lost: the guarantee"},
    {16, 200, 43, 1, 43, 4, "the guarantee, 43: one past it"},
    {16, 200, 43, 5, 215, 3, "the same, every fifth"},
    {16, 200, 45, 5, 0, 3, "45 lost, every fifth: a lost one"},
    {4, 180, 30, 1, 30, 2, "30 lost: the guarantee"},
    {4, 180, 31, 1, 31, 4, "the guarantee, 31: one past it"},
    {4, 180, 63, 4, 252, 3, "63 lost, every fourth: another"},
    {2, 150, 30, 1, 30, 2, "30 lost: the guarantee"},
    {2, 150, 31, 1, 31, 4, "the guarantee, 31: one past it"},
    {2, 150, 39, 2, 78, 3, "39 lost, every other: another"},
};

/* sheets: lost slots as above */
static const struct {
    int r, k, lost, step;
    const char *name;
} sheets[] = {
    {16, 240, 0, 1, "nothing lost"},
    {16, 240, 1, 1, "the guarantee, 1"},
    {16, 240, 15, 17, "1 in each group"},
    {16, 200, 20, 1, "20 lost, within the guarantee"},
    {16, 200, 43, 1, "the guarantee, 43"},
    {16, 200, 45, 5, "45 lost, every fifth"},
    {4, 180, 31, 1, "the guarantee, 31"},
    {2, 150, 31, 1, "the guarantee, 31"},
    {2, 150, 40, 2, "40 lost, every other"},
};

static int r, k, slot;
static size_t used, length;
static uint64_t answer;
static uint32_t found[3];
static uint8_t before[N], after[N], work[N * (N + 1)], sheet[4 * (N + 2)], text[TEXT];

static void lose(int count, int step) {
    used = (size_t)N * (k + 1);
    memset(before, 0, N);
    for (int i = 0; i < count; i++) before[i * step] = 1;
    memcpy(after, before, N);
    after[slot] = 1;
}

/* ---- the contestants, at each level */

static void preview(int level) { answer = levels[level].preview(1, r, N, k, 0, slot, before, N, work, used, found, 3); }
static void grade(int level) { answer = levels[level].grade(1, r, N, k, 0, after, N, work, used); }
static void write_previews(int level) { answer = levels[level].preview_sheet(sheet, sizeof sheet, text, TEXT); }
static void preview_base(void) { preview(0); }
static void preview_v3(void) { preview(1); }
static void preview_v4(void) { preview(2); }
static void grade_base(void) { grade(0); }
static void grade_v3(void) { grade(1); }
static void grade_v4(void) { grade(2); }
static void sheet_base(void) { write_previews(0); }
static void sheet_v3(void) { write_previews(1); }
static void sheet_v4(void) { write_previews(2); }

static contestant single[SINGLE] = {{"preview", preview_base, 0, 0}, {"grade", grade_base, 0, 0}, {"v3", preview_v3, 0, 0},
                                    {"grade", grade_v3, 0, 0},       {"v4", preview_v4, 1, 0},    {"grade", grade_v4, 1, 0}};
static contestant whole[SHEETS] = {{"preview", sheet_base, 0, 0}, {"v3", sheet_v3, 0, 0}, {"v4", sheet_v4, 1, 0}};

/* ---- what they must make */

static int lost_of(const uint8_t *marks) {
    int count = 0;
    for (int p = 0; p < N; p++) count += marks[p];
    return count;
}

/* the first group with two or more losses, under wiring 0 */
static uint32_t first_of(const uint8_t *marks) {
    for (int p = 0, own = 0; p < N; p++) {
        if (p % (r + 1) == 0) own = 0;
        own += marks[p];
        if (own > 1) return p / (r + 1);
    }
    return 255;
}

static int cleared(void) {
    for (size_t i = 0; i < used; i++)
        if (work[i]) return 0;
    return 1;
}

static void check(int expected, const char *name) {
    const int lost = lost_of(before);
    for (int i = 0; i < SINGLE; i++) {
        if (single[i].needs && !wide) continue;
        memset(work, 0xaa, used), memset(found, 0xaa, sizeof found);
        single[i].call();
        if (answer != (i % 2 ? (uint64_t)expected : 0) || !cleared() || lost_of(before) != lost) differs(name);
        if (i % 2) continue;
        if (found[0] != (uint32_t)lost_of(after) || found[1] != (uint32_t)expected || found[2] != first_of(after)) differs(name);
    }
}

/* a sheet whose kept symbols are all 0 */
static void write_sheet(void) {
    memset(sheet, 0, sizeof sheet);
    sheet[0] = 0x11, sheet[1] = (uint8_t)r, sheet[2] = N, sheet[3] = (uint8_t)k;
    for (int p = 0; p < N; p++) sheet[4 * p + 4] = before[p] ? 0x30 : 0x20, sheet[4 * p + 6] = (uint8_t)p;
    sheet[4 * N + 4] = 0x40, sheet[4 * N + 7] = N;
}

/* the text of the previews, one by one */
static void write_text(char *to) {
    char safe[5 * N];
    size_t end = sprintf(safe, "safe");
    length = 0;
    for (slot = 0; slot < N; slot++) {
        if (before[slot]) continue;
        preview(0);
        length += sprintf(to + length, "slot %d grade %u first %u\n", slot, found[1], found[2]);
        if (found[1] < 4) end += sprintf(safe + end, " %d", slot);
    }
    length += sprintf(to + length, "%s\n", safe);
}

static void check_sheet(const char *name) {
    static char made[2 * TEXT];
    write_text(made);
    for (int i = 0; i < SHEETS; i++) {
        if (whole[i].needs && !wide) continue;
        memset(text, 0xaa, TEXT);
        whole[i].call();
        if (answer != length || memcmp(text, made, length)) differs(name);
    }
}

/* ---- the races */

static void print_previews(void) {
    printf("Preview of a slot at n 255, and the grade with that slot lost, microseconds a call\n"
           "%3s %4s  %-34s %5s", "r", "k", "", "grade");
    for (int i = 0; i < LEVELS; i++) printf(" %10s %9s", levels[i].name, "grade");
    printf("\n");
    for (size_t a = 0; a < sizeof rows / sizeof *rows; a++) {
        r = rows[a].r, k = rows[a].k, slot = rows[a].slot;
        lose(rows[a].lost, rows[a].step);
        check(rows[a].grade, rows[a].name);
        race(single, SINGLE, ROUNDS, 1e-4);
        printf("%3d %4d  %-34s %5d", r, k, rows[a].name, rows[a].grade);
        for (int i = 0; i < SINGLE; i++)
            printf(i % 2 ? " %9.2f" : " %10.2f", single[i].needs && !wide ? 0 : 1e6 * single[i].best);
        printf("\n");
    }
    printf("\n");
}

static void print_sheets(void) {
    printf("Previews of a whole sheet at n 255, microseconds a call\n"
           "%3s %4s  %-34s %5s", "r", "k", "", "kept");
    for (int i = 0; i < LEVELS; i++) printf(" %10s", levels[i].name);
    printf("\n");
    for (size_t a = 0; a < sizeof sheets / sizeof *sheets; a++) {
        r = sheets[a].r, k = sheets[a].k, slot = 0;
        lose(sheets[a].lost, sheets[a].step);
        write_sheet();
        check_sheet(sheets[a].name);
        race(whole, SHEETS, ROUNDS, 1e-3);
        printf("%3d %4d  %-34s %5d", r, k, sheets[a].name, N - lost_of(before));
        for (int i = 0; i < SHEETS; i++) printf(" %10.1f", whole[i].needs && !wide ? 0 : 1e6 * whole[i].best);
        printf("\n");
    }
    printf("\n");
}

void previews(void) {
    print_previews();
    print_sheets();
}
