/* Strips: encode and decode of many stripes that lie as strips of 4 and 64 KB, a strip for each slot. Our calls take one stripe:
   the symbols of a column are gathered from the strips, and those of the answer scattered into strips. "End to end" are stripes
   that lie one after the other, so that nothing is gathered: it shows the cost of the call alone. ISA-L takes whole strips.
   Our turns are of 64 stripes and go along the strips; ISA-L's are of all columns and take up to 100 ms, so the clock leaves out
   what the machine does for others. Every turn's result is compared with the reference, off the clock. */
#include "bench.h"
#include <isa-l.h>
#include <stdio.h>
#include <stdlib.h>
#include <string.h>

enum {
    LONG = 65536, /* columns of the longest strips */
    GAP = 64,     /* bytes between two strips: without them a column falls into one set of the cache, which slows ISA-L most */
    ROOM = N * (LONG + GAP),
    TURN = 64,    /* stripes of one turn of ours: a line of the cache in each strip */
    PASSES = 3,
    CODES = 3,
    LAYOUTS = 3,
    ISAL = LEVELS,
    ALL
};
#define ALIGNED __attribute__((aligned(64)))
static const double SECONDS = 1.4; /* for one race: a row in one pass */

static const struct {
    int r, n, k, lost;
} codes[CODES] = {{16, 255, 240, 1}, {4, 20, 12, 6}, {4, 255, 204, 1}};

static const struct {
    const char *name;
    int stripes, strips; /* how many stripes; whether in strips */
} layouts[LAYOUTS] = {{"strips of 4 KB", 4096, 1}, {"strips of 64 KB", LONG, 1}, {"end to end", 4096, 0}};

/* the code, its losses, and what ISA-L is given before the clock starts */
static int r, n, k, slots[N];
static uint8_t marks[N], generator[N * N], encode_tables[32 * N * N], decode_tables[32 * N * N];
/* the stripes by the plain reference, a strip for each symbol */
static uint8_t plain_message[N][LONG], plain_codeword[N][LONG];
/* the same in the layout of the race, the codewords also with their losses, and what a contestant made */
static uint8_t messages[ROOM] ALIGNED, codewords[ROOM] ALIGNED, kept[ROOM] ALIGNED, made[ROOM] ALIGNED;
static int stripe_count, in_strips, refused;

/* where symbol j of stripe c lies, of so many symbols a stripe */
static size_t place(int symbols, int j, int c) {
    return in_strips ? (size_t)j * (stripe_count + GAP) + c : (size_t)c * symbols + j;
}

static void plain(void) {
    uint8_t times[256];
    for (int m = 0; m < k; m++)
        for (int c = 0; c < LONG; c++) plain_message[m][c] = rand() >> 8;
    memset(plain_codeword, 0, sizeof plain_codeword);
    for (int p = 0; p < n; p++)
        for (int m = 0; m < k; m++) {
            for (int x = 0; x < 256; x++) times[x] = mul(generator[p * k + m], x);
            for (int c = 0; c < LONG; c++) plain_codeword[p][c] ^= times[plain_message[m][c]];
        }
}

static void take_code(int a) {
    uint8_t inverse[N * N];
    r = codes[a].r, n = codes[a].n, k = codes[a].k;
    generate(r, n, k, generator);
    plain();
    for (int p = 0; p < n; p++) marks[p] = p < codes[a].lost;
    if (invert_kept(r, n, k, generator, marks, inverse, slots)) differs("ISA-L's inverse");
    ec_init_tables(k, n, generator, encode_tables);
    ec_init_tables(k, k, inverse, decode_tables);
}

static void lay_out(int b) {
    stripe_count = layouts[b].stripes, in_strips = layouts[b].strips;
    for (int m = 0; m < k; m++)
        for (int c = 0; c < stripe_count; c++) messages[place(k, m, c)] = plain_message[m][c];
    for (int p = 0; p < n; p++)
        for (int c = 0; c < stripe_count; c++) {
            codewords[place(n, p, c)] = plain_codeword[p][c];
            kept[place(n, p, c)] = plain_codeword[p][c] ^ (marks[p] ? 0x5a : 0);
        }
}

/* ---- the contestants: ours by level, over the turn's stripes from c on */

static void gather(uint8_t *stripe, const uint8_t *strip, int symbols, const uint8_t *skip) {
    for (int j = 0; j < symbols; j++, strip += stripe_count + GAP)
        if (!skip || !skip[j]) stripe[j] = *strip;
}

static void scatter(const uint8_t *stripe, uint8_t *strip, int symbols) {
    for (int j = 0; j < symbols; j++, strip += stripe_count + GAP) *strip = stripe[j];
}

static void encode(int level, int c) {
    uint8_t message[N], codeword[N];
    for (int end = c + TURN; c < end; c++)
        if (in_strips) {
            gather(message, messages + c, k, NULL);
            refused |= levels[level].encode(1, r, n, k, 0, message, k, codeword, n);
            scatter(codeword, made + c, n);
        } else
            refused |= levels[level].encode(1, r, n, k, 0, messages + c * k, k, made + c * n, n);
}

static void decode(int level, int c) {
    static uint8_t lent[N * (N + 1)];
    uint8_t word[N] = {0}, message[N];
    size_t most = (size_t)n * (k + 1);
    for (int end = c + TURN; c < end; c++)
        if (in_strips) {
            gather(word, kept + c, n, marks);
            refused |= levels[level].decode(1, r, n, k, 0, word, n, marks, n, message, k, lent, most);
            scatter(message, made + c, k);
        } else
            refused |= levels[level].decode(1, r, n, k, 0, kept + c * n, n, marks, n, made + c * k, k, lent, most);
}

static void isal(int decoding) {
    uint8_t *from[N], *to[N];
    for (int m = 0; m < k; m++) from[m] = decoding ? kept + place(n, slots[m], 0) : messages + place(k, m, 0);
    for (int p = 0; p < n; p++) to[p] = made + place(n, p, 0);
    ec_encode_data(stripe_count, k, decoding ? k : n, decoding ? decode_tables : encode_tables, from, to);
}

/* ---- the races */

/* whether a turn made what it must, of so many stripes from c on */
static int made_right(int decoding, int c, int count) {
    int symbols = decoding ? k : n, right = !refused;
    for (int j = 0; j < (in_strips ? symbols : 1); j++) {
        size_t at = place(symbols, j, c);
        right &= !memcmp(made + at, (decoding ? messages : codewords) + at, in_strips ? count : count * symbols);
    }
    return right;
}

static void work(int who, int decoding, int c) {
    if (who == ISAL) isal(decoding);
    else if (decoding) decode(who, c);
    else encode(who, c);
}

/* the seconds a stripe of one turn. Before ours comes one that is not timed, over the stripes before: so the turn finds the pages
   known and the lines of its columns not, as it would along the strips */
static double turn(int who, int decoding, int c) {
    int count = who == ISAL ? stripe_count : TURN;
    refused = 0;
    memset(made, 0xaa, (size_t)(decoding ? k : n) * (stripe_count + GAP));
    clear_upper();
    if (who != ISAL) work(who, decoding, c - TURN);
    double t = own_time();
    work(who, decoding, c);
    t = own_time() - t;
    if (!made_right(decoding, who == ISAL ? 0 : c, count)) differs(who == ISAL ? "ISA-L" : levels[who].name);
    return t / count;
}

/* each round begins with another contestant, so that none has always the same one before it */
static void race_strips(int decoding, double *best) {
    double start = now();
    int c = 0;
    for (int round = 0; now() < start + SECONDS; round++) {
        c = c + 2 * TURN < stripe_count ? c + TURN : TURN;
        for (int i = 0; i < ALL; i++) {
            int who = (round + i) % ALL;
            if (who == ISAL ? !in_strips : levels[who].needs && !wide) continue;
            double t = turn(who, decoding, c);
            if (!best[who] || t < best[who]) best[who] = t;
        }
    }
}

/* a column that was not timed is a dash */
static void print_number(const char *form, double number) {
    char text[32] = "-";
    if (number) snprintf(text, sizeof text, form, number);
    printf(" %12s", text);
}

static void print_table(int decoding, double best[CODES][LAYOUTS][ALL]) {
    printf("%s, MB/s of message bytes\n%3s %4s %4s %4s %16s", decoding ? "Decode" : "Encode", "r", "n", "k", "lost", "");
    for (int who = 0; who < ALL; who++) printf(" %12s", who == ISAL ? "ISA-L" : levels[who].name);
    for (int who = 0; who < LEVELS; who++) printf(" %6s/ISA-L", levels[who].name);
    for (int a = 0; a < CODES; a++)
        for (int b = 0; b < LAYOUTS; b++) {
            const double *t = best[a][b];
            printf("\n%3d %4d %4d %4d %16s", codes[a].r, codes[a].n, codes[a].k, decoding ? codes[a].lost : 0, layouts[b].name);
            for (int who = 0; who < ALL; who++) print_number("%.1f", t[who] ? 1e-6 * codes[a].k / t[who] : 0);
            for (int who = 0; who < LEVELS; who++) print_number("%#.2g", t[who] ? t[ISAL] / t[who] : 0);
        }
    printf("\n\n");
}

void strips(void) {
    static double best[2][CODES][LAYOUTS][ALL];
    for (int a = 0; a < CODES; a++) {
        take_code(a);
        /* several passes over the rows of a code, so that a slow stretch of the machine spoils none */
        for (int row = 0; row < 2 * LAYOUTS * PASSES; row++) {
            int decoding = row % 2, b = row / 2 % LAYOUTS;
            if (!decoding) lay_out(b);
            race_strips(decoding, best[decoding][a][b]);
        }
    }
    printf("Strips: our calls take one stripe, gathered from the strips and scattered into them; end to end nothing is gathered.\n"
           "ISA-L is ec_encode_data over whole strips, by the same n x k matrix, or for decode by the inverse of k independent kept\n"
           "rows; its tables and the inverse are made before, and it tests no other kept symbol. The clock is the thread's own time\n\n");
    print_table(0, best[0]);
    print_table(1, best[1]);
}
