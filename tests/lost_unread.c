/* Lost symbols are never read, of the compiled code. Run it under valgrind (tests/lost-unread).
 *
 * Every stripe is handed to the calls four times: with 0x00, 0xFF and random bytes in its lost slots, and then with
 * these slots out of reach, so that valgrind reports every load of one. All four must answer the same and leave the
 * same bytes. The local pass writes the lost symbol of a group with exactly one loss: that byte is undefined instead,
 * and may be written but not used; where no codeword has the group's kept symbols it stays. The group view reads no
 * symbol at all. Each code is tried under both wirings, one with a short last group under wiring 0 alone.
 */
#include <stdint.h>
#include <stdio.h>
#include <stdlib.h>
#include <string.h>
#include <valgrind/memcheck.h>

#include "latsefidy.h"

#define SLOTS 255
#define SEED 2014u

typedef struct {
    uint32_t field, r, n, k, wiring;
} Code;

typedef struct {
    Code code;
    const char *kind;
    int foreign;
    uint8_t message[SLOTS], word[SLOTS], marks[SLOTS];
} Stripe;

/* All that a call leaves in buffers other than the word. */
typedef struct {
    uint64_t answer;
    uint32_t record[LATSEFIDY_RECORD];
    uint8_t marks[SLOTS], message[SLOTS], sheet[4 * (SLOTS + 2)], work[LATSEFIDY_WORK_MOST];
} Left;

enum { DECODE, DECODE_NEAR, RECORD, WRITE_SHEET, LOCAL_PASS, VIEW, CALLS };
static const char *const call_name[CALLS] = {"decode", "decode_near", "record", "write_sheet", "local_pass", "view"};

enum { ZEROS, ONES, RANDOM, OUT_OF_REACH, FILLINGS };

static const Code codes[] = {
    {0, 2, 9, 4, 0},    {0, 2, 9, 6, 0},    {0, 1, 12, 5, 0},     {0, 3, 12, 7, 0},     {0, 5, 12, 8, 0},
    {0, 11, 12, 11, 0}, {0, 2, 12, 1, 0},   {1, 2, 9, 5, 0},      {1, 4, 10, 3, 0},     {1, 4, 50, 37, 0},
    {1, 14, 45, 30, 0}, {1, 16, 34, 20, 0}, {1, 2, 255, 160, 0},  {1, 16, 255, 200, 0}, {1, 16, 255, 240, 0},
    {0, 2, 11, 5, 0},   {0, 3, 6, 2, 0},    {0, 5, 11, 9, 0},     {0, 11, 5, 4, 0},     {1, 2, 8, 4, 0},
    {1, 4, 8, 5, 0},    {1, 14, 29, 20, 0}, {1, 14, 13, 12, 0},   {1, 16, 250, 230, 0}, {1, 16, 34, 8, 0},
    {1, 14, 29, 13, 0},
};

static uint32_t state = SEED;
static unsigned long guarded, answers[11], mended, left_alone, near;

static uint32_t random_below(uint32_t most) {
    state ^= state << 13;
    state ^= state >> 17;
    state ^= state << 5;
    return state % most;
}

static void fail(const Stripe *s, int call, const char *what) {
    fprintf(stderr, "lost-unread: %s, %s, code %u %u %u %u %u: %s\n", call_name[call], s->kind, s->code.field,
            s->code.r, s->code.n, s->code.k, s->code.wiring, what);
    exit(1);
}

static uint32_t order(const Stripe *s) { return s->code.field == 0 ? 13 : 256; }

/* Where the last group is short n is no multiple of r + 1. */
static int is_short(Code c) { return c.n % (c.r + 1) != 0; }

static uint32_t groups(const Stripe *s) { return (s->code.n + s->code.r) / (s->code.r + 1); }

/* The members that a short last group lacks count as symbols of the message. */
static uint32_t guarantee(const Stripe *s) {
    const Code c = s->code;
    const uint32_t filled = c.k + groups(s) * (c.r + 1) - c.n;
    return c.n - c.k - (filled + c.r - 1) / c.r + 1;
}

static uint32_t group_of(const Stripe *s, uint32_t slot) {
    return s->code.wiring ? slot % groups(s) : slot / (s->code.r + 1);
}

static uint32_t group_losses(const Stripe *s, uint32_t slot) {
    uint32_t lost = 0;
    for (uint32_t p = 0; p < s->code.n; p++) lost += group_of(s, p) == group_of(s, slot) && s->marks[p];
    return lost;
}

static uint32_t group_size(const Stripe *s, uint32_t group) {
    const uint32_t size = s->code.r + 1;
    return is_short(s->code) && group == groups(s) - 1 ? s->code.n % size : size;
}

/* Any slot of a group. */
static uint32_t random_member(const Stripe *s, uint32_t group) {
    const uint32_t i = random_below(group_size(s, group));
    return s->code.wiring ? group + i * groups(s) : group * (s->code.r + 1) + i;
}

/* Marks so many more slots, at most all of them. */
static void lose(Stripe *s, uint32_t number) {
    uint32_t kept = 0;
    for (uint32_t p = 0; p < s->code.n; p++) kept += !s->marks[p];
    for (; number > 0 && kept > 0; number--, kept--) {
        uint32_t p;
        do p = random_below(s->code.n);
        while (s->marks[p]);
        s->marks[p] = 1;
    }
}

static void lose_within(Stripe *s) { lose(s, 1 + random_below(guarantee(s))); }

static void lose_one_a_group(Stripe *s) {
    for (uint32_t g = 0; g < groups(s); g++) s->marks[random_member(s, g)] = 1;
}

static void lose_beyond(Stripe *s) {
    const uint32_t sure = guarantee(s), most = s->code.n - s->code.k;
    lose(s, sure + 1 + (most > sure + 1 ? random_below(most - sure) : 0));
}

/* 0, 1 or more losses in each group. */
static void lose_mixed(Stripe *s) {
    for (uint32_t g = 0; g < groups(s); g++)
        for (uint32_t i = random_below(4); i > 0; i--) s->marks[random_member(s, g)] = 1;
}

static void lose_too_many(Stripe *s) { lose(s, s->code.n - s->code.k + 1 + random_below(s->code.k)); }

static void lose_all(Stripe *s) { lose(s, s->code.n); }

static const struct {
    const char *name;
    void (*lose)(Stripe *);
    int foreign, too_large;
} kinds[] = {
    {"within the guarantee", lose_within, 0, 0},
    {"one loss in each group", lose_one_a_group, 0, 0},
    {"beyond the guarantee", lose_beyond, 0, 0},
    {"none, one or more in a group", lose_mixed, 0, 0},
    {"fewer than k kept", lose_too_many, 0, 0},
    {"all lost", lose_all, 0, 0},
    {"foreign within the guarantee", lose_within, 1, 0},
    {"foreign with one loss in each group", lose_one_a_group, 1, 0},
    {"foreign beyond the guarantee", lose_beyond, 1, 0},
    {"a kept symbol of q or more", lose_mixed, 0, 1},
};

#define COUNT(a) (sizeof(a) / sizeof(a)[0])

static void make_stripe(Stripe *s, Code code, size_t kind) {
    memset(s, 0, sizeof *s);
    s->code = code;
    s->kind = kinds[kind].name;
    s->foreign = kinds[kind].foreign;
    for (uint32_t m = 0; m < code.k; m++) s->message[m] = (uint8_t)random_below(order(s));
    if (latsefidy_encode(code.field, code.r, code.n, code.k, code.wiring, s->message, code.k, s->word, code.n) != 0) {
        fprintf(stderr, "lost-unread: a code of the test is refused\n");
        exit(1);
    }
    kinds[kind].lose(s);
    for (uint32_t p = 0; p < code.n; p++) {
        if (s->foreign) s->word[p] = (uint8_t)random_below(order(s));
        if (kinds[kind].too_large && !s->marks[p] && code.field == 0) s->word[p] = (uint8_t)(13 + random_below(243));
    }
}

/* The word of a stripe in memory of its own: n bytes, with the lost ones so filled. */
static uint8_t *filled(const Stripe *s, int filling) {
    uint8_t *word = malloc(s->code.n);
    if (word == NULL) exit(2);
    for (uint32_t p = 0; p < s->code.n; p++) {
        const uint8_t other = filling == ZEROS ? 0 : filling == ONES ? 0xFF : (uint8_t)random_below(256);
        word[p] = s->marks[p] ? other : s->word[p];
    }
    return word;
}

static void put_out_of_reach(const Stripe *s, int call, uint8_t *word) {
    for (uint32_t p = 0; p < s->code.n; p++) {
        if (!s->marks[p] && call != VIEW) continue;
        if (call == LOCAL_PASS && group_losses(s, p) == 1)
            (void)VALGRIND_MAKE_MEM_UNDEFINED(word + p, 1);
        else
            (void)VALGRIND_MAKE_MEM_NOACCESS(word + p, 1);
    }
}

static uint64_t make_call(int call, const Stripe *s, uint8_t *word, uint8_t *marks, Left *left) {
    const Code c = s->code;
    const uint32_t n = c.n, k = c.k, w = c.wiring;
    switch (call) {
    case DECODE:
        return latsefidy_decode(c.field, c.r, n, k, w, word, n, marks, n, left->message, k, left->work, n * (k + 1));
    case DECODE_NEAR:
        return latsefidy_decode_near(c.field, c.r, n, k, w, word, n, marks, n, left->message, k, left->work,
                                     n * (k + 1));
    case RECORD:
        return latsefidy_record(c.field, c.r, n, k, w, word, n, marks, n, left->message, k, left->work, n * (k + 1),
                                left->record, LATSEFIDY_RECORD);
    case WRITE_SHEET:
        return latsefidy_write_sheet(c.field, c.r, n, k, w, word, n, marks, n, left->sheet, 4 * (n + 2));
    case LOCAL_PASS:
        return latsefidy_local_pass(c.field, c.r, n, k, w, word, n, marks, n);
    default:
        return latsefidy_view(c.field, c.r, n, k, w, n - 1, word, n);
    }
}

/* Makes the call. What it leaves goes to left, and to after the word, with 0 in the slots that are lost still. */
static void run(int call, const Stripe *s, int filling, Left *left, uint8_t after[SLOTS]) {
    const uint32_t n = s->code.n;
    uint8_t *word = filled(s, filling), *marks = malloc(n), before[SLOTS];
    if (marks == NULL) exit(2);
    memcpy(before, word, n);
    memcpy(marks, s->marks, n);
    memset(left, 0xA5, sizeof *left);
    memset(after, 0, SLOTS);
    if (filling == OUT_OF_REACH) put_out_of_reach(s, call, word);
    left->answer = make_call(call, s, word, marks, left);
    if (filling == OUT_OF_REACH && call == VIEW) (void)VALGRIND_MAKE_MEM_DEFINED(word, n);
    memcpy(left->marks, marks, n);
    if (call != LOCAL_PASS && memcmp(marks, s->marks, n) != 0) fail(s, call, "a mark was changed");
    for (uint32_t p = 0; p < n; p++) {
        if (marks[p] == 0) {
            after[p] = word[p];
            if (s->marks[p] == 0 && after[p] != before[p]) fail(s, call, "a kept symbol was changed");
            if (s->marks[p] == 0) continue;
            if (VALGRIND_CHECK_MEM_IS_DEFINED(word + p, 1)) fail(s, call, "a mended symbol was made of a lost one");
            mended++;
        } else {
            if (filling == OUT_OF_REACH) (void)VALGRIND_MAKE_MEM_DEFINED(word + p, 1);
            if (word[p] != before[p]) fail(s, call, "a byte that is lost still was changed");
            left_alone += call == LOCAL_PASS && left->answer >> 32 == 0 && group_losses(s, p) == 1;
        }
    }
    free(word);
    free(marks);
}

/* decode_near refuses what decode refuses; else its number is that of the groups with exactly one loss. */
static void compare_near(const Stripe *s, uint64_t refusal, uint32_t number) {
    static Left decoded;
    uint8_t word[SLOTS];
    uint32_t single = 0;
    for (uint32_t p = 0; p < s->code.n; p++) single += s->marks[p] && group_losses(s, p) == 1;
    run(DECODE, s, ZEROS, &decoded, word);
    if (refusal != decoded.answer) fail(s, DECODE_NEAR, "not the refusal of decode");
    if (number != (refusal == 0 ? single : 0)) fail(s, DECODE_NEAR, "not the number of groups with one loss");
    near += number;
}

static void compare(int call, const Stripe *s) {
    static Left first, next;
    uint8_t word[SLOTS], other[SLOTS];
    run(call, s, OUT_OF_REACH, &first, word);
    guarded++;
    for (int filling = ZEROS; filling < OUT_OF_REACH; filling++) {
        run(call, s, filling, &next, other);
        if (next.answer != first.answer) fail(s, call, "the answer depends on the lost bytes");
        if (memcmp(&next, &first, sizeof next) != 0) fail(s, call, "a buffer depends on the lost bytes");
        if (memcmp(other, word, sizeof word) != 0) fail(s, call, "the word depends on the lost bytes");
    }
    if (call != DECODE && call != DECODE_NEAR) return;
    const uint64_t refusal = call == DECODE ? first.answer : first.answer >> 32;
    if (refusal > 10) fail(s, call, "no such answer");
    if (refusal == 0 && !s->foreign && memcmp(first.message, s->message, s->code.k) != 0)
        fail(s, call, "another message");
    if (call == DECODE) answers[refusal]++;
    else compare_near(s, refusal, (uint32_t)first.answer);
}

/* A load of a byte that is out of reach: valgrind must report it. */
static int probe(void) {
    volatile uint8_t *byte = malloc(1);
    if (byte == NULL) return 2;
    *byte = 0;
    (void)VALGRIND_MAKE_MEM_NOACCESS(byte, 1);
    return *byte;
}

int main(int argc, char **argv) {
    if (!RUNNING_ON_VALGRIND) {
        fprintf(stderr, "lost-unread: shows nothing without valgrind\n");
        return 2;
    }
    if (argc > 1 && strcmp(argv[1], "probe") == 0) return probe();
    Stripe s;
    size_t whole = 0;
    for (size_t i = 0; i < COUNT(codes); i++) whole += !is_short(codes[i]);
    for (size_t i = 0; i < 2 * COUNT(codes) * COUNT(kinds); i++) {
        Code code = codes[i / COUNT(kinds) / 2];
        code.wiring = i / COUNT(kinds) % 2;
        if (code.wiring && is_short(code)) continue;
        make_stripe(&s, code, i % COUNT(kinds));
        for (int call = 0; call < CALLS; call++) compare(call, &s);
    }
    if (!answers[0] || !answers[6] || !answers[9] || !answers[10] || !mended || !left_alone || !near) {
        fprintf(stderr, "lost-unread: an answer was never met\n");
        return 1;
    }
    printf("lost-unread: %lu calls with lost bytes out of reach, %zu codes by 2 wirings, %zu with a short last group, ",
           guarded, whole, COUNT(codes) - whole);
    printf("%zu patterns; ", COUNT(kinds));
    printf("decode answered 0 %lu times, 6 %lu, 9 %lu, 10 %lu\n", answers[0], answers[6], answers[9], answers[10]);
    return 0;
}
