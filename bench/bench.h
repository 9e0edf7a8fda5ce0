/* What the tables share: the library at its three levels, the clock, the field and the code. */
#ifndef BENCH_H
#define BENCH_H

#include <stddef.h>
#include <stdint.h>

/* the strip kernel and the calls, at each level */
#define LEVEL(s)                                                                                                            \
    _Bool rebuild_strips##s(const uint8_t *weights, size_t r, const uint8_t *strips, size_t strips_len, uint8_t *output,    \
                            size_t output_len);                                                                             \
    uint32_t latsefidy_rebuild##s(uint32_t field, uint32_t r, uint32_t n, uint32_t k, uint32_t wiring, uint32_t slot,       \
                                  const uint8_t *strips, size_t strips_len, uint8_t *out, size_t out_len);                  \
    uint64_t latsefidy_repair##s(uint32_t field, uint32_t r, uint32_t n, uint32_t k, uint32_t wiring, uint32_t slot,        \
                                 const uint8_t *mates, size_t mates_len);                                                   \
    uint32_t latsefidy_weights##s(uint32_t field, uint32_t r, uint32_t n, uint32_t k, uint32_t wiring, uint32_t slot,       \
                                  uint8_t *weights, size_t weights_len);                                                    \
    uint32_t latsefidy_encode##s(uint32_t field, uint32_t r, uint32_t n, uint32_t k, uint32_t wiring,                       \
                                 const uint8_t *message, size_t message_len, uint8_t *codeword, size_t codeword_len);       \
    uint64_t latsefidy_local_pass##s(uint32_t field, uint32_t r, uint32_t n, uint32_t k, uint32_t wiring, uint8_t *word,    \
                                     size_t word_len, uint8_t *marks, size_t marks_len);                                    \
    uint32_t latsefidy_decode##s(uint32_t field, uint32_t r, uint32_t n, uint32_t k, uint32_t wiring, const uint8_t *word,  \
                                 size_t word_len, const uint8_t *marks, size_t marks_len, uint8_t *message,                 \
                                 size_t message_len, uint8_t *work, size_t work_len);                                       \
    uint64_t latsefidy_decode_near##s(uint32_t field, uint32_t r, uint32_t n, uint32_t k, uint32_t wiring,                  \
                                      const uint8_t *word, size_t word_len, const uint8_t *marks, size_t marks_len,         \
                                      uint8_t *message, size_t message_len, uint8_t *work, size_t work_len);                \
    uint64_t latsefidy_grade##s(uint32_t field, uint32_t r, uint32_t n, uint32_t k, uint32_t wiring, const uint8_t *marks,  \
                                size_t marks_len, uint8_t *work, size_t work_len);                                          \
    uint32_t latsefidy_preview##s(uint32_t field, uint32_t r, uint32_t n, uint32_t k, uint32_t wiring, uint32_t slot,       \
                                  const uint8_t *marks, size_t marks_len, uint8_t *work, size_t work_len,                   \
                                  uint32_t *preview, size_t preview_len);                                                   \
    uint64_t latsefidy_preview_sheet##s(const uint8_t *input, size_t input_len, uint8_t *text, size_t text_len);
LEVEL()
LEVEL(_v3)
LEVEL(_v4)

enum { N = 255, LEVELS = 3, TURNS = 201 };

extern const struct level {
    const char *name;
    __typeof__(latsefidy_encode) *encode;
    __typeof__(latsefidy_decode) *decode;
    __typeof__(latsefidy_decode_near) *near;
    __typeof__(latsefidy_local_pass) *pass;
    __typeof__(latsefidy_repair) *repair;
    __typeof__(latsefidy_rebuild) *rebuild;
    __typeof__(latsefidy_grade) *grade;
    __typeof__(latsefidy_preview) *preview;
    __typeof__(latsefidy_preview_sheet) *preview_sheet;
    int needs; /* AVX-512 */
} levels[LEVELS];

extern int wide; /* the machine has what x86-64-v4 asks */

typedef struct {
    const char *name;
    void (*call)(void);
    int needs; /* AVX-512 */
    double best;
} contestant;

double now(void);
double own_time(void); /* of this thread alone; a look at it takes 0.2 microseconds */
void clear_upper(void); /* before a turn: what the one before left in the vector registers */
/* the best time of each, over rounds in which each has its turn for about so many seconds */
void race(contestant *who, int count, int rounds, double turn);
/* the median times of call(0) and call(1), by the thread's own time: turns of the two are taken one after the other, so that a
   slow stretch of the machine falls on both */
void take_turns(int (*call)(int), double median[2]);
_Noreturn void differs(const char *name);

/* bytes with polynomial 11D, bit by bit */
uint8_t mul(uint8_t a, uint8_t b);
uint8_t power(uint8_t a, int e);

/* the point of a member of a group; h at x, the product of x less each point that the last group lacks, 1 where it lacks none */
uint8_t point(int r, int group, int member);
uint8_t vanishing(int r, int n, uint8_t x);
/* the generator matrix, n rows of k: column m is the codeword of the message with 1 at m and else 0 */
void generate(int r, int n, int k, uint8_t *generator);
/* by ISA-L: the inverse of the rows of the first k kept slots, at most r of a group, and these slots; 0 if there is one */
int invert_kept(int r, int n, int k, const uint8_t *generator, const uint8_t *marks, uint8_t *inverse, int *slots);

/* the tables */
void rebuild(void);
void lengths(void);
void true_mates(void);
void stripes(void);
void strips(void);
void wired(void);
void short_groups(void);
void grades(void);
void previews(void);
void near_home(void);

#endif
