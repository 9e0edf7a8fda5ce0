/* latsefidy.h: a locally repairable erasure code (Tamo and Barg, 2014), proved
 *
 * A code is five numbers: field, r, n, k, wiring. A message of k symbols becomes a codeword of n
 * symbols, one for each drive slot, 0 to n - 1. Field 0 has the q = 13 symbols 0 to 12, field 1 the
 * q = 256 bytes. A symbol is one byte. The slots are in groups; any one symbol of a group is
 * repaired from the others, its mates. Up to the guarantee any lost symbols are decoded.
 *
 * Marks are a byte a slot: 0 kept, 1 lost. A lost slot may hold any byte; it is never read. A wrong
 * symbol in a slot that is marked as kept is not covered: a call may refuse it (9), or give another
 * message or symbol.
 *
 * Groups. A whole group has r + 1 slots, each with r mates. Where n is a multiple of r + 1 all
 * groups are whole, and the guarantee is n - k - ceil(k / r) + 1. Else the last group is short: it
 * has the s = n mod (r + 1) slots that are left, each with s - 1 mates, and the guarantee is
 * n - k - ceil((k + r + 1 - s) / r) + 1. The polynomial of a codeword is 0 at the r + 1 - s points
 * that the short group lacks. There are G = ceil(n / (r + 1)) groups.
 *
 * Mates. What stands at the mates of a slot is true where some codeword has these symbols there.
 * Where k is r or more, and in a short last group, any symbols below q are. In the whole groups of
 * a code with k below r only q^k of the q^r sets are true: repair and rebuild refuse the others
 * (9), and the local pass leaves the group.
 *
 * Wiring. It says which slots make a group. Under wiring 0 they stand side by side: slot p is
 * member p mod (r + 1) of group p div (r + 1). Under wiring 1 the groups are spread: slot p is
 * member p div G of group p mod G, so that G slots side by side, as on a shelf, have one of each
 * group. The symbol of a member of a group is the same under both; only its slot differs. Wiring 1
 * wants whole groups.
 *
 * Buffers. Each is a pointer and a length. Pointers point to that many readable elements (writable
 * where not const), and the buffers of one call do not overlap. Pointers are never null, not even
 * for length 0: a buffer is a reference of the library's language, which is never null, and nothing
 * in the toolchain's contract covers a caller that passes null. For length 0 pass any pointer that
 * is not null. Lengths count elements: bytes, or 32-bit numbers where the buffer holds those.
 * Nothing is read or written outside the buffers, nothing is allocated or kept from call to call,
 * and every call ends.
 *
 * Threads. The library has no variables of its own, only constants: any calls may run at once, as
 * long as no buffer that one of them writes is a buffer of another.
 *
 * Alignment. Bytes may stand anywhere; a buffer of 32-bit numbers is aligned as uint32_t is.
 *
 * Stack. Encode_strips takes about 107 kilobytes, report and preview_sheet about 66, rebuild about
 * 10 where k is below r and less than 3 where not, decode, decode_near and record less than 6,
 * grade and preview less than 4, the others less than 3. No other memory is needed but the buffers.
 * (Measured on the compiled code; no proof covers it.)
 *
 * Processors. The archive is for x86-64 and uses SSE2 alone, which each of them has. One built for
 * newer processors (tools/build-for) does not test where it runs: on an older one the program ends
 * by an illegal instruction.
 *
 * Refusals. A call asks questions; the first "no" ends it with that number, and every buffer is
 * then as it was. (Under 9 and 10 alone decode and decode_near clear the front of work.) 0 is no
 * refusal. Every call with a code first asks of it, in this order:
 *   1   is field 0 or 1?
 *   2   is r from 1 to 16, and does r + 1 divide q - 1? (field 0: 1 2 3 5 11; field 1: 2 4 14 16)
 *   3   is n from 1 to q - 1, and not 1 more than a multiple of r + 1?
 *   4   is k from 1 to r * n / (r + 1), rounded down, and for a short last group s - 1 or more?
 *   17  is the wiring 0, or 1 with n a multiple of r + 1?
 *
 * Where a call answers a value, the refusal is in the high 32 bits and the value in the low; the
 * value of a refused call is 0.
 */
#ifndef LATSEFIDY_H
#define LATSEFIDY_H

#include <stddef.h>
#include <stdint.h>

#ifdef __cplusplus
extern "C" {
#endif

#define LATSEFIDY_VERSION_MAJOR 0
#define LATSEFIDY_VERSION_MINOR 6
#define LATSEFIDY_VERSION_PATCH 2
#define LATSEFIDY_VERSION "0.6.2"

#define LATSEFIDY_WEIGHTS 16        /* length of a weights buffer */
#define LATSEFIDY_STRIP_MOST 4096   /* most symbols of one strip */
#define LATSEFIDY_WORK_MOST 61455   /* work that is enough for every code */
#define LATSEFIDY_PREVIEW 3         /* numbers of a preview */
#define LATSEFIDY_RECORD 10         /* numbers of a record */
#define LATSEFIDY_CODE 5            /* numbers of a code */
#define LATSEFIDY_SHEET_LEAST 255   /* least word and marks of the sheet reader */
#define LATSEFIDY_REPORT_MOST 1032  /* most bytes of input that report and preview_sheet judge */
#define LATSEFIDY_REPORT_TEXT 1032  /* least text buffer of the report */
#define LATSEFIDY_PREVIEW_TEXT 8420 /* least text buffer of preview_sheet */

/* The number of each refusal; 16 is none. */
enum latsefidy_refusals {
    LATSEFIDY_OK = 0,
    LATSEFIDY_REFUSAL_FIELD = 1,
    LATSEFIDY_REFUSAL_R = 2,
    LATSEFIDY_REFUSAL_N = 3,
    LATSEFIDY_REFUSAL_K = 4,
    LATSEFIDY_REFUSAL_LENGTH = 5,
    LATSEFIDY_REFUSAL_SYMBOL = 6,
    LATSEFIDY_REFUSAL_SLOT = 7,
    LATSEFIDY_REFUSAL_MARK = 8,
    LATSEFIDY_REFUSAL_FOREIGN = 9,
    LATSEFIDY_REFUSAL_UNDECIDED = 10,
    LATSEFIDY_REFUSAL_SHEET_LENGTH = 11,
    LATSEFIDY_REFUSAL_SHEET_START = 12,
    LATSEFIDY_REFUSAL_SHEET_COUNT = 13,
    LATSEFIDY_REFUSAL_SHEET_SLOT = 14,
    LATSEFIDY_REFUSAL_SHEET_END = 15,
    LATSEFIDY_REFUSAL_WIRING = 17,
    LATSEFIDY_REFUSAL_VIEW_WIRED = 18
};

/* What a refusal says, in English, without its number. */
static inline const char *latsefidy_refusal_text(uint32_t number) {
    switch (number) {
    case LATSEFIDY_OK: return "no refusal";
    case LATSEFIDY_REFUSAL_FIELD: return "the field is neither 0 nor 1";
    case LATSEFIDY_REFUSAL_R: return "r is not from 1 to 16, or r + 1 does not divide q - 1";
    case LATSEFIDY_REFUSAL_N: return "n is not from 1 to q - 1, or 1 more than a multiple of r + 1";
    case LATSEFIDY_REFUSAL_K: return "k is not from 1 to r * n / (r + 1), or below n mod (r + 1) - 1";
    case LATSEFIDY_REFUSAL_LENGTH: return "a buffer has a wrong length";
    case LATSEFIDY_REFUSAL_SYMBOL: return "a symbol is q or more";
    case LATSEFIDY_REFUSAL_SLOT: return "the slot is n or more";
    case LATSEFIDY_REFUSAL_MARK: return "a mark is neither 0 nor 1";
    case LATSEFIDY_REFUSAL_FOREIGN: return "no codeword agrees with every kept symbol";
    case LATSEFIDY_REFUSAL_UNDECIDED: return "more than one codeword agrees with every kept symbol";
    case LATSEFIDY_REFUSAL_SHEET_LENGTH: return "the sheet's length is no multiple of 4";
    case LATSEFIDY_REFUSAL_SHEET_START: return "the sheet does not start with a code word";
    case LATSEFIDY_REFUSAL_SHEET_COUNT: return "the sheet has not n + 2 words";
    case LATSEFIDY_REFUSAL_SHEET_SLOT: return "a middle word of the sheet is wrong";
    case LATSEFIDY_REFUSAL_SHEET_END: return "the last word of the sheet is wrong";
    case LATSEFIDY_REFUSAL_WIRING: return "the wiring is above 1, or 1 with n no multiple of r + 1";
    case LATSEFIDY_REFUSAL_VIEW_WIRED: return "a group view wants wiring 0";
    default: return "no such refusal";
    }
}

/* The refusal of an answer with a value: its high half. */
static inline uint32_t latsefidy_refusal(uint64_t answer) { return (uint32_t)(answer >> 32); }

/* The value of such an answer: its low half. */
static inline uint32_t latsefidy_value(uint64_t answer) { return (uint32_t)answer; }

/* Encodes a message.
 *   message   k symbols
 *   codeword  n symbols, written
 * Returns 0 or the refusal, asked in the order 1 2 3 4 17 5 6:
 *   1 to 4  the code, and 17 its wiring
 *   5       message_len is not k, or codeword_len is not n
 *   6       a message symbol is q or more
 */
uint32_t latsefidy_encode(uint32_t field, uint32_t r, uint32_t n, uint32_t k, uint32_t wiring,
                          const uint8_t *message, size_t message_len,
                          uint8_t *codeword, size_t codeword_len);

/* Encodes strips, many messages at once: column c of the codewords, symbol c of each strip, is what
 * encode writes of column c of the messages. Over field 1, with whole groups and k up to 16 * r,
 * one call on long strips costs far less than a call of encode for each column; else about as much.
 * L, the symbols of one strip, is codewords_len / n, from 1 to 4,096.
 *   messages   k * L symbols: a strip for each symbol of a message, end to end
 *   codewords  n * L symbols, written: a strip for each slot, in slot order, end to end
 * Returns 0 or the refusal, asked in the order 1 2 3 4 17 5 6:
 *   1 to 4  the code, and 17 its wiring
 *   5       codewords_len is not n * L with L from 1 to 4,096, or messages_len is not k * L
 *   6       a symbol of the messages is q or more
 */
uint32_t latsefidy_encode_strips(uint32_t field, uint32_t r, uint32_t n, uint32_t k,
                                 uint32_t wiring, const uint8_t *messages, size_t messages_len,
                                 uint8_t *codewords, size_t codewords_len);

/* The repair weights of a slot, one a mate, in slot order of its mates: the slot's symbol is the
 * sum of weight times mate.
 *   weights   16 bytes, written: r weights, in a short last group s - 1, and then zeros
 * Returns 0 or the refusal, asked in the order 1 2 3 4 17 5 7:
 *   1 to 4  the code, and 17 its wiring
 *   5       weights_len is not 16
 *   7       slot is n or more
 */
uint32_t latsefidy_weights(uint32_t field, uint32_t r, uint32_t n, uint32_t k, uint32_t wiring,
                           uint32_t slot, uint8_t *weights, size_t weights_len);

/* Repairs one symbol from true mates: the value, at the slot's point, of the polynomial of degree
 * below r through the mates; in a short last group the one that is also 0 at the points that the
 * group lacks. Every codeword that has the mates has that symbol in the slot.
 *   mates     r symbols, in a short last group s - 1: the other members of the slot's group, in
 *             slot order
 * Returns the refusal (high) and the slot's symbol (low). Asked in the order 1 2 3 4 17 5 7 6 9:
 *   1 to 4  the code, and 17 its wiring
 *   5       mates_len is not r, or for a slot of a short last group not s - 1 (a slot of n or more
 *           wants r)
 *   7       slot is n or more
 *   6       a mate is q or more
 *   9       no codeword has the mates
 */
uint64_t latsefidy_repair(uint32_t field, uint32_t r, uint32_t n, uint32_t k, uint32_t wiring,
                          uint32_t slot, const uint8_t *mates, size_t mates_len);

/* Rebuilds a strip, many symbols of one slot: symbol c of the strip is the repair of symbol c of
 * each mate's strip. One such column that is not true refuses the whole strip. The repair weights
 * are worked out once a call, not for each symbol.
 *   strips    r * out_len symbols, in a short last group (s - 1) * out_len: the mates' strips in
 *             slot order, end to end
 *   out       1 to 4,096 symbols, written
 * Returns 0 or the refusal, asked in the order 1 2 3 4 17 5 7 6 9:
 *   1 to 4  the code, and 17 its wiring
 *   5       out_len is 0 or above 4,096, or strips_len is not r * out_len, or for a slot of a short
 *           last group not (s - 1) * out_len (a slot of n or more wants r * out_len)
 *   7       slot is n or more
 *   6       a symbol of the strips is q or more
 *   9       of some column no codeword has the mates; asked where every symbol is below q
 */
uint32_t latsefidy_rebuild(uint32_t field, uint32_t r, uint32_t n, uint32_t k, uint32_t wiring,
                           uint32_t slot, const uint8_t *strips, size_t strips_len,
                           uint8_t *out, size_t out_len);

/* Finds the group of a slot in a word, under wiring 0. Its symbols start at the slot that is
 * answered, first: there are min(r + 1, n - first) of them, r + 1 or in a short last group s.
 *   word      n symbols, not read
 * Returns the refusal (high) and the first slot of the group (low). Asked in the order
 * 1 2 3 4 17 18 5 7:
 *   1 to 4  the code, and 17 its wiring
 *   18      the wiring is 1: the group is no stretch of the word
 *   5       word_len is not n
 *   7       slot is n or more
 */
uint64_t latsefidy_view(uint32_t field, uint32_t r, uint32_t n, uint32_t k, uint32_t wiring,
                        uint32_t slot, const uint8_t *word, size_t word_len);

/* Repairs the lost symbol of each group with exactly one loss, in the group's own slots, and sets
 * its mark to 0. All else stays, also a group with one loss whose kept symbols no codeword has: k
 * is below r then, and decode answers 9 for the word.
 *   word      n symbols, changed
 *   marks     n marks, changed
 * Returns the refusal (high) and the number of groups repaired (low). Asked in the order
 * 1 2 3 4 17 5 8 6:
 *   1 to 4  the code, and 17 its wiring
 *   5       word_len or marks_len is not n
 *   8       a mark is neither 0 nor 1
 *   6       a kept symbol of a group with exactly one loss is q or more, repaired or not
 */
uint64_t latsefidy_local_pass(uint32_t field, uint32_t r, uint32_t n, uint32_t k, uint32_t wiring,
                              uint8_t *word, size_t word_len,
                              uint8_t *marks, size_t marks_len);

/* Decodes: the message of the one codeword that agrees with every kept symbol.
 *   word      n symbols, unchanged
 *   marks     n marks, unchanged
 *   message   k symbols, written where the answer is 0
 *   work      at least n * (k + 1) bytes; 61,455 are enough for every code. Where the answer is 0,
 *             9 or 10 the first n * (k + 1) are 0 at the end; the rest is unchanged
 * Returns 0 or the refusal, asked in the order 1 2 3 4 17 5 8 6 9 10:
 *   1 to 4  the code, and 17 its wiring
 *   5       word_len or marks_len is not n, message_len is not k, or work_len is below n * (k + 1)
 *   8       a mark is neither 0 nor 1
 *   6       a kept symbol is q or more
 *   9       no codeword agrees with every kept symbol
 *   10      more than one does
 */
uint32_t latsefidy_decode(uint32_t field, uint32_t r, uint32_t n, uint32_t k, uint32_t wiring,
                          const uint8_t *word, size_t word_len,
                          const uint8_t *marks, size_t marks_len,
                          uint8_t *message, size_t message_len,
                          uint8_t *work, size_t work_len);

/* Decodes after the local pass: on a copy of its own it mends each group with exactly one loss, as
 * the local pass does, and then decodes what that copy keeps. For every input the refusal, message
 * and work are those of decode.
 *   word      n symbols, unchanged
 *   marks     n marks, unchanged
 *   message   k symbols, written where the refusal is 0
 *   work      at least n * (k + 1) bytes; 61,455 are enough for every code. Where the refusal is 0,
 *             9 or 10 the first n * (k + 1) are 0 at the end; the rest is unchanged
 * Returns the refusal (high) and the number of groups mended (low): those with exactly one loss,
 * and 0 under any refusal. Asked in the order 1 2 3 4 17 5 8 6 9 10:
 *   1 to 4  the code, and 17 its wiring
 *   5       word_len or marks_len is not n, message_len is not k, or work_len is below n * (k + 1)
 *   8       a mark is neither 0 nor 1
 *   6       a kept symbol is q or more
 *   9       no codeword agrees with every kept symbol
 *   10      more than one does
 */
uint64_t latsefidy_decode_near(uint32_t field, uint32_t r, uint32_t n, uint32_t k, uint32_t wiring,
                               const uint8_t *word, size_t word_len,
                               const uint8_t *marks, size_t marks_len,
                               uint8_t *message, size_t message_len,
                               uint8_t *work, size_t work_len);

/* Grades the losses, by the code and the marks alone:
 *   0  nothing is lost
 *   1  else, no group has more than one loss: the local pass repairs all of a codeword
 *   2  else, the number lost is at most the guarantee
 *   3  else, past the guarantee, but the kept slots still decide: no two codewords agree on them
 *   4  some two different codewords agree on the kept slots
 * Up to grade 3 the codeword is the only one with its kept symbols, and decode gives its message
 * back; under grade 4 decode answers 10 for it. Kept symbols of no codeword are 9 under any grade.
 *   marks     n marks, unchanged
 *   work      at least n * (k + 1) bytes; 61,455 are enough for every code. Where the refusal is 0
 *             the first n * (k + 1) are 0 at the end, whatever the grade; the rest is unchanged
 * Returns the refusal (high) and the grade (low). Asked in the order 1 2 3 4 17 5 8:
 *   1 to 4  the code, and 17 its wiring
 *   5       marks_len is not n, or work_len is below n * (k + 1)
 *   8       a mark is neither 0 nor 1
 */
uint64_t latsefidy_grade(uint32_t field, uint32_t r, uint32_t n, uint32_t k, uint32_t wiring,
                         const uint8_t *marks, size_t marks_len,
                         uint8_t *work, size_t work_len);

/* Previews a loss, as before a drive is pulled: what marking the slot on a copy of the marks, and
 * counting and grading the copy, gives. A slot that is lost already changes nothing.
 *   marks     n marks, unchanged
 *   work      at least n * (k + 1) bytes; 61,455 are enough for every code. Where the answer is 0
 *             the first n * (k + 1) are 0 at the end, whatever the grade; the rest is unchanged
 *   preview   3 numbers, written where the answer is 0: number lost, grade (1 to 4, as above),
 *             first group with two or more losses (255 if none), all with the slot lost too
 * Returns 0 or the refusal, asked in the order 1 2 3 4 17 5 7 8:
 *   1 to 4  the code, and 17 its wiring
 *   5       marks_len is not n, work_len is below n * (k + 1), or preview_len is not 3
 *   7       slot is n or more
 *   8       a mark is neither 0 nor 1
 */
uint32_t latsefidy_preview(uint32_t field, uint32_t r, uint32_t n, uint32_t k, uint32_t wiring,
                           uint32_t slot, const uint8_t *marks, size_t marks_len,
                           uint8_t *work, size_t work_len,
                           uint32_t *preview, size_t preview_len);

/* Decodes and fills the stripe's record.
 *   word, marks, message, work   as in decode; message is unchanged where the outcome is not 0, and
 *             where the answer is 0 the first n * (k + 1) bytes of work are 0 at the end
 *   record    10 numbers, written where the answer is 0:
 *             field, r, n, k, wiring, number lost, guarantee, grade (0 to 4, as above), first group
 *             with two or more losses (255 if none), outcome: 0 decided, 9 foreign (no codeword
 *             agrees), 10 undecided (more than one does)
 * Returns 0 or the refusal, asked in the order 1 2 3 4 17 5 8 6:
 *   1 to 4  the code, and 17 its wiring
 *   5       a length is not as in decode, or record_len is not 10
 *   8       a mark is neither 0 nor 1
 *   6       a kept symbol is q or more
 */
uint32_t latsefidy_record(uint32_t field, uint32_t r, uint32_t n, uint32_t k, uint32_t wiring,
                          const uint8_t *word, size_t word_len,
                          const uint8_t *marks, size_t marks_len,
                          uint8_t *message, size_t message_len,
                          uint8_t *work, size_t work_len,
                          uint32_t *record, size_t record_len);

/* Reads a stripe sheet: words of 32 bits, high byte first. The top four bits are the kind, bits
 * that are not named are 0.
 *   kind 1, code  bit 27 wiring, bits 26-24 field, 23-16 r, 15-8 n, 7-0 k
 *   kind 2, kept  bits 15-8 slot, 7-0 symbol
 *   kind 3, lost  bits 15-8 slot
 *   kind 4, end   bits 15-0 n
 * One code word, then slots 0 to n - 1 in order, then the end.
 *   sheet     the sheet, of any length
 *   word      at least 255 bytes; its first n are written, with 0 for a lost symbol
 *   marks     at least 255 bytes; its first n are written
 *   code      5 numbers, written: field, r, n, k, wiring
 * Returns 0 or the refusal, asked in the order 5 11 12 1 2 3 4 17 13 14 6 15:
 *   5       word_len or marks_len is below 255, or code_len is not 5
 *   11      sheet_len is no multiple of 4
 *   12      there is no first word, or it is not of kind 1
 *   1 to 4  the code, and 17 its wiring
 *   13      there are not n + 2 words
 *   14      a middle word is not of kind 2 or 3 for its slot, or has an unnamed bit
 *   6       a kept symbol is q or more
 *   15      the last word is not the end
 */
uint32_t latsefidy_read_sheet(const uint8_t *sheet, size_t sheet_len,
                              uint8_t *word, size_t word_len,
                              uint8_t *marks, size_t marks_len,
                              uint32_t *code, size_t code_len);

/* Writes a stripe sheet; lost slots go without their symbols.
 *   word      n symbols
 *   marks     n marks
 *   sheet     4 * (n + 2) bytes, written
 * Returns 0 or the refusal, asked in the order 1 2 3 4 17 5 8 6:
 *   1 to 4  the code, and 17 its wiring
 *   5       word_len or marks_len is not n, or sheet_len is not 4 * (n + 2)
 *   8       a mark is neither 0 nor 1
 *   6       a kept symbol is q or more
 */
uint32_t latsefidy_write_sheet(uint32_t field, uint32_t r, uint32_t n, uint32_t k, uint32_t wiring,
                               const uint8_t *word, size_t word_len,
                               const uint8_t *marks, size_t marks_len,
                               uint8_t *sheet, size_t sheet_len);

/* Writes what the report program prints for a sheet: its code, its losses, its message. The code is
 * field, r, n, k, and under wiring 1 alone the wiring after them. A refused sheet is no refusal of
 * the call: its text is "refused" and the number. The text has no byte 0 at its end. The call takes
 * about 66 kilobytes of stack.
 *   input     the sheet, of any length; the first 1,032 bytes are judged
 *   text      at least 1,032 bytes; the text is written at its front and the rest is unchanged
 * Returns the refusal (high) and the length of the text (low). Asked:
 *   5       text_len is below 1,032
 */
uint64_t latsefidy_report(const uint8_t *input, size_t input_len,
                          uint8_t *text, size_t text_len);

/* Writes what the preview program prints for a sheet: the preview of each kept slot, a line each,
 * "slot" and its number, "grade" and "first" as they are with that slot lost too. The last line is
 * "safe" and the slots whose loss leaves the message decided: the grade that follows is 3 or less.
 * Code and marks alone count, so the kept symbols may be those of no codeword. A refused sheet is
 * no refusal of the call: its text is "refused" and the number, as in the report. The text has no
 * byte 0 at its end. The call takes about 66 kilobytes of stack.
 *   input     the sheet, of any length; the first 1,032 bytes are judged
 *   text      at least 8,420 bytes; the text is written at its front and the rest is unchanged
 * Returns the refusal (high) and the length of the text (low). Asked:
 *   5       text_len is below 8,420
 */
uint64_t latsefidy_preview_sheet(const uint8_t *input, size_t input_len,
                                 uint8_t *text, size_t text_len);

#ifdef __cplusplus
}
#endif

#endif
