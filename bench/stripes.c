/* Stripes: encode and decode of one stripe of symbols. */
#include "bench.h"
#include <isa-l.h>
#include <stdio.h>
#include <stdlib.h>
#include <string.h>

static int r, n, k, lost, answer;
static uint8_t message[N], back[N], codeword[N], word[N], marks[N], work[N * (N + 1)], truth[N];
static uint8_t generator[N * N], inverse[N * N], *symbols[N], *places[N], *kept[N], *recovered[N];
static uint8_t tables[32 * N * N];

/* a message of the code, and what its codeword must be */
static void stripe(void) {
    generate(r, n, k, generator);
    for (int m = 0; m < k; m++) message[m] = rand();
    for (int p = 0; p < n; p++) {
        truth[p] = 0;
        for (int m = 0; m < k; m++) truth[p] ^= mul(message[m], generator[p * k + m]);
    }
    for (int m = 0; m < k; m++) symbols[m] = message + m;
    for (int p = 0; p < n; p++) places[p] = codeword + p;
    ec_init_tables(k, n, generator, tables);
}

static void encode(void) { answer = latsefidy_encode(1, r, n, k, 0, message, k, codeword, n); }
static void encode_v3(void) { answer = latsefidy_encode_v3(1, r, n, k, 0, message, k, codeword, n); }
static void encode_v4(void) { answer = latsefidy_encode_v4(1, r, n, k, 0, message, k, codeword, n); }
static void isal_encode(void) { answer = 0, ec_encode_data(1, k, n, tables, symbols, places); }
static void isal_parity(void) { answer = 0, ec_encode_data(1, k, n - k, tables, symbols, places); }

static contestant encoders[] = {{"latsefidy", encode, 0, 0}, {"v3", encode_v3, 0, 0}, {"v4", encode_v4, 1, 0}, {"ISA-L", isal_encode, 0, 0}, {"ISA-L n-k rows", isal_parity, 0, 0}};

static void encodes(void) {
    int cases[][2] = {{16, 240}, {16, 200}, {4, 204}, {2, 170}};
    printf("Encode one stripe of n 255 symbols, microseconds; ISA-L is ec_encode_data at length 1 with the same 255 rows,\n"
           "tables made before; its last column computes only n - k of them, as a systematic code would\n%3s %4s", "r", "k");
    for (int i = 0; i < 5; i++) printf(" %14s", encoders[i].name);
    printf(" %14s", "ISA-L/latsefidy");
    for (int a = 0; a < 4; a++) {
        n = N, r = cases[a][0], k = cases[a][1];
        stripe();
        for (int i = 0; i < 4; i++) {
            if (encoders[i].needs && !wide) continue;
            memset(codeword, 0xaa, n);
            encoders[i].call();
            if (answer || memcmp(codeword, truth, n)) differs(encoders[i].name);
        }
        race(encoders, 5, 300, 2e-4);
        printf("\n%3d %4d", r, k);
        for (int i = 0; i < 5; i++) printf(" %14.1f", encoders[i].needs && !wide ? 0 : 1e6 * encoders[i].best);
        printf(" %14.2f", encoders[3].best / encoders[0].best);
    }
    printf("\n\n");
}

#define DECODE(s) answer = latsefidy_decode##s(1, r, n, k, 0, word, n, marks, n, back, k, work, (size_t)n * (k + 1))
static void decode(void) { DECODE(); }
static void decode_v3(void) { DECODE(_v3); }
static void decode_v4(void) { DECODE(_v4); }
/* the rows of k kept slots inverted, and the message from their symbols */
static void isal_decode(void) {
    int slots[N];
    answer = invert_kept(r, n, k, generator, marks, inverse, slots) ? 10 : 0;
    if (answer) return;
    for (int m = 0; m < k; m++) kept[m] = word + slots[m], recovered[m] = back + m;
    ec_init_tables(k, k, inverse, tables);
    ec_encode_data(1, k, k, tables, kept, recovered);
}

static contestant decoders[] = {{"latsefidy", decode, 0, 0}, {"v3", decode_v3, 0, 0}, {"v4", decode_v4, 1, 0}, {"ISA-L", isal_decode, 0, 0}};

/* what the losses must give, and the times of the first so many contestants; ISA-L's way needs a message that is decided */
static void decodes(int expected, int count, int rounds) {
    for (int i = 0; i < count; i++) {
        if (decoders[i].needs && !wide) continue;
        memset(back, 0, k);
        decoders[i].call();
        if (answer != expected || (!expected && memcmp(back, message, k))) differs(decoders[i].name);
    }
    race(decoders, count, rounds, 1e-4);
    for (int i = 0; i < count; i++) printf(" %10.1f", decoders[i].needs && !wide ? 0 : 1e6 * decoders[i].best);
    printf("\n");
}

/* loses count slots, step apart from the first on */
static void lose(int count, int step) {
    lost = count;
    memcpy(word, truth, n);
    memset(marks, 0, n);
    for (int i = 0; i < lost; i++) marks[i * step] = 1, word[i * step] ^= 0x5a;
}

static void decoding(void) {
    struct {
        int k, lost, step, expected, count;
        const char *name;
    } rows[] = {{240, 0, 1, 0, 4, "nothing lost"},
                {240, 1, 1, 0, 4, "1 lost, within"},
                {240, 2, 17, 0, 4, "2 lost in 2 groups"},
                {240, 15, 17, 0, 4, "15 lost in 15 groups"},
                {240, 2, 1, 10, 3, "2 lost in 1 group"},
                {200, 43, 1, 0, 3, "43 lost, within"},
                {200, 45, 5, 0, 3, "45 lost, every fifth"}};
    int groups[] = {3, 6, 9, 12, 15};
    n = N, r = 16;
    printf("Decode one stripe, n 255, r 16, microseconds; the guarantee is 1 at k 240 and 43 at k 200. Two lost in one group at k 240\n"
           "leave more than one message. ISA-L is gf_invert_matrix of k independent kept rows, and ec_encode_data: it tests nothing, and\n"
           "a store would keep the inverse for a pattern of losses\n%4s %22s", "k", "");
    for (int i = 0; i < 4; i++) printf(" %10s", decoders[i].name);
    printf("\n");
    for (int a = 0; a < 7; a++) {
        if (!a || k != rows[a].k) k = rows[a].k, stripe();
        lose(rows[a].lost, rows[a].step);
        printf("%4d %22s", k, rows[a].name);
        decodes(rows[a].expected, rows[a].count, rows[a].count == 4 ? 8 : 60);
    }
    printf("\nDecode within the guarantee as n grows: r 16, k = 16 n / 17 - 8, 4 lost, microseconds\n%27s", "n");
    for (int i = 0; i < 3; i++) printf(" %10s", decoders[i].name);
    printf("\n");
    for (int a = 0; a < 5; a++) {
        n = 17 * groups[a], k = 16 * groups[a] - 8;
        stripe();
        lose(4, 1);
        printf("%27d", n);
        decodes(0, 3, 40);
    }
}

void stripes(void) {
    encodes();
    decoding();
    printf("\n");
}
