/* Calls each C function with the vectors on standard input (format: vectors.py) and compares the
 * answer and every byte of every buffer. Each call is made twice: its buffers stand first against
 * an unmapped page at their end, then against one at their start, with guard bytes on the other
 * side. Exit status 1: a mismatch, a touched guard, a broken stream, or a function without calls.
 */
#define _DEFAULT_SOURCE
#include <signal.h>
#include <stdarg.h>
#include <stdio.h>
#include <stdlib.h>
#include <string.h>
#include <sys/mman.h>
#include <unistd.h>

#include "../include/latsefidy.h"

enum { CALLS = 16, BUFFERS = 5, LONGEST = 65600, GUARD = 64, GUARD_BYTE = 0xA5, SHOWN = 20 };

static const char *const NAMES[CALLS + 1] = {
    "",       "encode", "weights", "repair",     "rebuild",     "view",   "local_pass",
    "decode", "grade",  "record",  "read_sheet", "write_sheet", "report", "preview",
    "preview_sheet", "decode_near", "encode_strips"};
static const uint32_t COUNTS[CALLS + 1] = {0, 2, 1, 1, 2, 1, 2, 4, 2, 5, 4, 3, 2, 3, 2, 4, 2};

/* A buffer: what it holds before and after, and the memory that it is lent in. */
struct buffer {
    uint8_t *arena; /* room bytes between two unmapped pages */
    size_t length;
    uint8_t before[LONGEST], after[LONGEST];
    uint8_t *at; /* where it stands in this call */
};

static struct buffer buffers[BUFFERS];
static size_t room;
static unsigned long record_number, calls[CALLS + 1], refused[CALLS + 1], wrong[CALLS + 1];
static uint32_t call, numbers[6]; /* field r n k wiring slot */

/* The record that is being read, and the place in it. */
static uint8_t *record;
static size_t record_size, cursor;

static void die(const char *what) {
    fprintf(stderr, "record %lu: %s\n", record_number, what);
    exit(1);
}

static void on_fault(int signal_number) {
    char line[128];
    int size = snprintf(line, sizeof line, "record %lu: %s left its buffers\n", record_number, NAMES[call]);
    (void)signal_number;
    if (write(2, line, (size_t)size) < 0) _exit(2);
    _exit(1);
}

static void mismatch(const char *format, ...) {
    va_list arguments;
    if (wrong[call]++ >= SHOWN) return;
    fprintf(stderr, "record %lu: %s field %u r %u n %u k %u wiring %u slot %u: ", record_number,
            NAMES[call], numbers[0], numbers[1], numbers[2], numbers[3], numbers[4], numbers[5]);
    va_start(arguments, format);
    vfprintf(stderr, format, arguments);
    va_end(arguments);
    fputc('\n', stderr);
}

static uint32_t big_endian(const uint8_t *p) {
    return (uint32_t)p[0] << 24 | (uint32_t)p[1] << 16 | (uint32_t)p[2] << 8 | p[3];
}

static void put_big_endian(uint8_t *p, uint32_t v) {
    for (int i = 0; i < 4; i++) p[i] = (uint8_t)(v >> (24 - 8 * i));
}

static uint32_t next_number(void) {
    if (record_size - cursor < 4) die("the record ends early");
    cursor += 4;
    return big_endian(record + cursor - 4);
}

/* Length, given, given bytes: the first bytes of a buffer. */
static size_t next_bytes(uint8_t *to) {
    size_t length = next_number(), given = next_number();
    if (length > LONGEST || given > length || (given == 0) != (length == 0)) die("bad buffer");
    if (record_size - cursor < given) die("the record ends early");
    for (size_t i = 0; i < length; i++) to[i] = record[cursor + i % given];
    cursor += given;
    return length;
}

/* Reads one record's bytes; 0 at the end of the stream. */
static int next_record(void) {
    uint8_t head[4];
    if (fread(head, 1, 4, stdin) != 4) die("the stream ends without its 0");
    record_size = big_endian(head);
    cursor = 0;
    if (record_size == 0) return 0;
    if (record_size > 16 * LONGEST) die("the record is too long");
    record = realloc(record, record_size);
    if (!record || fread(record, 1, record_size, stdin) != record_size) die("the stream ends early");
    return 1;
}

/* A buffer of 32-bit numbers: the last of record, of read_sheet and of preview. */
static int is_wide(uint32_t i) { return (call == 9 && i == 4) || (call == 10 && i == 3) || (call == 13 && i == 2); }

/* Lends the buffer at the end (side 0) or the start (side 1) of its arena. */
static void place(uint32_t i, int side) {
    struct buffer *b = &buffers[i];
    b->at = side ? b->arena : b->arena + room - b->length;
    memset(side ? b->at + b->length : b->at - GUARD, GUARD_BYTE, GUARD);
    memcpy(b->at, b->before, b->length);
    if (!is_wide(i)) return;
    for (size_t j = 0; j < b->length; j += 4) {
        uint32_t v = big_endian(b->before + j);
        memcpy(b->at + j, &v, 4);
    }
}

/* Compares the buffer and its guard with what they should be. */
static void compare(uint32_t i, int side) {
    struct buffer *b = &buffers[i];
    const uint8_t *guard = side ? b->at + b->length : b->at - GUARD;
    for (int j = 0; j < GUARD; j++)
        if (guard[j] != GUARD_BYTE) {
            mismatch("buffer %u: guard byte touched", i);
            return;
        }
    for (size_t j = 0; is_wide(i) && j < b->length; j += 4) {
        uint32_t v;
        memcpy(&v, b->at + j, 4);
        put_big_endian(b->at + j, v);
    }
    for (size_t j = 0; j < b->length; j++)
        if (b->at[j] != b->after[j]) {
            mismatch("buffer %u byte %zu is %u, not %u", i, j, b->at[j], b->after[j]);
            return;
        }
}

static uint64_t refusal_only(uint32_t refusal) { return (uint64_t)refusal << 32; }

#define BYTES(i) buffers[i].at, buffers[i].length
#define NUMBERS(i) (uint32_t *)(void *)buffers[i].at, buffers[i].length / 4
#define CODE numbers[0], numbers[1], numbers[2], numbers[3], numbers[4]
#define SLOT numbers[5]

/* Makes the call: refusal in the high half, value in the low. */
static uint64_t answer(void) {
    switch (call) {
    case 1: return refusal_only(latsefidy_encode(CODE, BYTES(0), BYTES(1)));
    case 2: return refusal_only(latsefidy_weights(CODE, SLOT, BYTES(0)));
    case 3: return latsefidy_repair(CODE, SLOT, BYTES(0));
    case 4: return refusal_only(latsefidy_rebuild(CODE, SLOT, BYTES(0), BYTES(1)));
    case 5: return latsefidy_view(CODE, SLOT, BYTES(0));
    case 6: return latsefidy_local_pass(CODE, BYTES(0), BYTES(1));
    case 7: return refusal_only(latsefidy_decode(CODE, BYTES(0), BYTES(1), BYTES(2), BYTES(3)));
    case 8: return latsefidy_grade(CODE, BYTES(0), BYTES(1));
    case 9: return refusal_only(latsefidy_record(CODE, BYTES(0), BYTES(1), BYTES(2), BYTES(3), NUMBERS(4)));
    case 10: return refusal_only(latsefidy_read_sheet(BYTES(0), BYTES(1), BYTES(2), NUMBERS(3)));
    case 11: return refusal_only(latsefidy_write_sheet(CODE, BYTES(0), BYTES(1), BYTES(2)));
    case 12: return latsefidy_report(BYTES(0), BYTES(1));
    case 13: return refusal_only(latsefidy_preview(CODE, SLOT, BYTES(0), BYTES(1), NUMBERS(2)));
    case 14: return latsefidy_preview_sheet(BYTES(0), BYTES(1));
    case 15: return latsefidy_decode_near(CODE, BYTES(0), BYTES(1), BYTES(2), BYTES(3));
    default: return refusal_only(latsefidy_encode_strips(CODE, BYTES(0), BYTES(1)));
    }
}

/* One call on one side, compared with the record. */
static void check(uint32_t refusal, uint32_t value, int side) {
    for (uint32_t i = 0; i < COUNTS[call]; i++) place(i, side);
    uint64_t got = answer();
    if (got != ((uint64_t)refusal << 32 | value))
        mismatch("answers %u %u, not %u %u", latsefidy_refusal(got), latsefidy_value(got), refusal, value);
    for (uint32_t i = 0; i < COUNTS[call]; i++) compare(i, side);
}

static void run_record(void) {
    call = next_number();
    if (call < 1 || call > CALLS) die("no such call");
    for (int i = 0; i < 6; i++) numbers[i] = next_number();
    if (next_number() != COUNTS[call]) die("bad count of buffers");
    for (uint32_t i = 0; i < COUNTS[call]; i++) buffers[i].length = next_bytes(buffers[i].before);
    uint32_t refusal = next_number(), value = next_number();
    for (uint32_t i = 0; i < COUNTS[call]; i++) {
        memcpy(buffers[i].after, buffers[i].before, buffers[i].length);
        if (next_bytes(buffers[i].after) > buffers[i].length) die("more changed than there is");
    }
    if (cursor != record_size) die("bytes left in the record");
    calls[call]++;
    refused[call] += refusal != 0;
    for (int side = 0; side < 2; side++) check(refusal, value, side);
}

static void make_arenas(void) {
    size_t page = (size_t)sysconf(_SC_PAGESIZE);
    room = (LONGEST + GUARD + page - 1) / page * page;
    for (int i = 0; i < BUFFERS; i++) {
        uint8_t *p = mmap(NULL, room + 2 * page, PROT_NONE, MAP_PRIVATE | MAP_ANONYMOUS, -1, 0);
        if (p == MAP_FAILED || mprotect(p + page, room, PROT_READ | PROT_WRITE)) die("no memory");
        buffers[i].arena = p + page;
    }
}

int main(void) {
    int failed = 0;
    make_arenas();
    signal(SIGSEGV, on_fault);
    signal(SIGBUS, on_fault);
    for (; next_record(); record_number++) run_record();
    printf("%-13s %8s %8s %10s\n", "function", "calls", "refused", "mismatches");
    for (call = 1; call <= CALLS; call++) {
        printf("%-13s %8lu %8lu %10lu\n", NAMES[call], calls[call], refused[call], wrong[call]);
        failed |= wrong[call] != 0 || calls[call] == 0;
    }
    puts(failed ? "FAILED" : "all agree");
    return failed;
}
