/* store: keeps a file on many drives, loses some, and gets the file back.
 *
 * Build, with the library installed (tools/install PREFIX), or from its folder after tools/staticlib:
 *
 *     cc -std=c11 -O2 examples/store.c $(pkg-config --cflags --libs latsefidy) -o store
 *     cc -std=c11 -O2 -Iinclude examples/store.c target/staticlib/liblatsefidy.a -o store
 *
 * Here a drive is a file, drive-P in a folder. Byte s of drive-P is symbol P of codeword s, which encodes bytes s * K to
 * s * K + K - 1 of the file, with zeros after its end. stripe.txt has the code and the file's length. Under wiring 0 the
 * drives of a group stand side by side, and the last group may be short; wiring 1 spreads them, so that a shelf of drives
 * can fail and each is rebuilt. The Rust example of the same name has the same commands and files.
 */
#define _POSIX_C_SOURCE 200809L

#include <latsefidy.h>

#include <dirent.h>
#include <errno.h>
#include <fcntl.h>
#include <inttypes.h>
#include <signal.h>
#include <stdarg.h>
#include <stdio.h>
#include <stdlib.h>
#include <string.h>
#include <sys/stat.h>
#include <time.h>
#include <unistd.h>

enum { DONE = 0, REFUSED = 1, FAILED = 2 }; /* exit status */
enum { BYTES = 1, DRIVES_MOST = 255, GROUP_MOST = 17, TEXT_MOST = 128, NAME_MOST = 24 };
#define LENGTH_MOST (UINT64_C(1) << 48) /* most bytes of a file: n * length stays far below 2^64 */
#define TEXT_NAME "stripe.txt"

static const char usage[] =
    "usage: store store FILE FOLDER [R N K [WIRING]]   spreads FILE over N drives, files in FOLDER;\n"
    "                                                  default R 4 N 20 K 12 WIRING 0\n"
    "       store lose FOLDER SLOT...                  deletes the drives of these slots\n"
    "       store load FOLDER FILE                     writes the file back to FILE, from the drives that are left\n"
    "WIRING 0 has the drives of a group side by side; WIRING 1 spreads them, for drives on shelves.\n"
    "Groups have R + 1 drives. Under WIRING 0 the last one may have fewer, but not 1: N 18 with R 4 has groups of 5 5 5 3.\n"
    "FOLDER must be new or empty to store; load makes FILE anew. Nothing is ever overwritten.\n"
    "A wrong byte on a drive that is there is found only if no codeword fits it (refusal 9); else FILE may be wrong.\n"
    "Exit status: 0 done, 1 refused, 2 reading or writing failed, or usage.\n";

/* A code over bytes and the length of a file that is stored by it. */
struct layout {
    uint32_t r, n, k, wiring;
    uint64_t length;
    size_t stripes;
};

struct bytes {
    uint8_t *at;
    size_t length;
};

/* ---- signals, messages, progress ---- */

static volatile sig_atomic_t caught;

static void on_signal(int number) { caught = number; }

/* Signals only set a flag, which loops look at, so that what was made is removed again. */
static void catch_signals(void) {
    struct sigaction action = {.sa_handler = on_signal};
    sigemptyset(&action.sa_mask);
    const int numbers[] = {SIGINT, SIGTERM, SIGHUP};
    for (size_t i = 0; i < sizeof numbers / sizeof *numbers; i++) {
        struct sigaction before;
        if (sigaction(numbers[i], NULL, &before) == 0 && before.sa_handler != SIG_IGN) sigaction(numbers[i], &action, NULL);
    }
    signal(SIGPIPE, SIG_IGN); /* a closed pipe is a failed write */
}

/* On a terminal, rewrites a line of progress in place; a message or the end clears it. */
static int percent_shown = -1;

static void clear_progress(void) {
    if (percent_shown >= 0) fputs("\r\033[K", stderr);
    percent_shown = -1;
}

static void progress(const char *command, size_t done, size_t of) {
    int percent = (int)(100.0 * (double)done / (double)of);
    if (done == of) clear_progress();
    else if (percent != percent_shown && isatty(STDERR_FILENO)) {
        fprintf(stderr, "\r%s: %d%%", command, percent);
        percent_shown = percent;
    }
}

static int refuse(const char *form, ...) {
    va_list words;
    clear_progress();
    va_start(words, form);
    fputs("store: ", stderr);
    vfprintf(stderr, form, words);
    fputc('\n', stderr);
    va_end(words);
    return REFUSED;
}

/* Says that a step failed, by errno; a signal is no more than that here. */
static int fail(const char *step, const char *name) {
    const char *why = caught ? "stopped by a signal" : strerror(errno);
    clear_progress();
    fprintf(stderr, "store: cannot %s %s: %s\n", step, name, why);
    return FAILED;
}

/* A number with commas. */
static const char *grouped(uint64_t number, char text[32]) {
    char digits[24];
    int length = snprintf(digits, sizeof digits, "%" PRIu64, number), to = 0;
    for (int i = 0; i < length; i++) {
        if (i > 0 && (length - i) % 3 == 0) text[to++] = ',';
        text[to++] = digits[i];
    }
    text[to] = '\0';
    return text;
}

static double seconds(void) {
    struct timespec now;
    clock_gettime(CLOCK_MONOTONIC, &now);
    return (double)now.tv_sec + (double)now.tv_nsec / 1e9;
}

static double megabytes_a_second(uint64_t length, double start) {
    double spent = seconds() - start;
    return spent > 0 ? (double)length / 1e6 / spent : 0;
}

/* ---- files ---- */

static int write_all(int file, const uint8_t *at, size_t length) {
    while (length > 0 && !caught) {
        ssize_t wrote = write(file, at, length < 1 << 20 ? length : 1 << 20);
        if (wrote < 0 && errno != EINTR) return -1;
        if (wrote > 0) at += wrote, length -= (size_t)wrote;
    }
    return caught ? -1 : 0;
}

/* Reads at most `most` bytes; answers how many, or -1. */
static ssize_t read_most(int file, uint8_t *to, size_t most) {
    size_t length = 0;
    while (length < most && !caught) {
        ssize_t got = read(file, to + length, most - length);
        if (got == 0) break;
        if (got < 0 && errno != EINTR) return -1;
        if (got > 0) length += (size_t)got;
    }
    return caught ? -1 : (ssize_t)length;
}

static int grow(struct bytes *bytes, size_t *room) {
    *room = *room == 0 ? 1 << 16 : 2 * *room;
    uint8_t *more = realloc(bytes->at, *room);
    if (more == NULL) return -1;
    bytes->at = more;
    return 0;
}

/* Reads a file of any length. The bytes are the caller's to free, also where it fails. */
static int read_file(const char *name, struct bytes *bytes) {
    int file = open(name, O_RDONLY);
    if (file < 0) return fail("open", name);
    int status = DONE;
    for (size_t room = 0;;) {
        if (bytes->length == room && grow(bytes, &room) != 0) {
            status = fail("keep in memory", name);
            break;
        }
        ssize_t got = read_most(file, bytes->at + bytes->length, room - bytes->length);
        if (got < 0) status = fail("read", name);
        if (got <= 0) break;
        bytes->length += (size_t)got;
    }
    close(file);
    if (status == DONE && bytes->length > LENGTH_MOST) status = refuse("%s is too long", name);
    return status;
}

/* Ends a file that was written: a late error shows at its close. */
static int close_written(int file, int status, const char *name) {
    return close(file) != 0 && status == DONE ? fail("write", name) : status;
}

static void drive_name(uint32_t slot, char name[NAME_MOST]) { snprintf(name, NAME_MOST, "drive-%" PRIu32, slot); }

/* ---- the code ---- */

static uint8_t work[LATSEFIDY_WORK_MOST]; /* lent to decode and grade */

static uint32_t groups(const struct layout *l) { return (l->n + l->r) / (l->r + 1); }

/* How many members a group has: r + 1, or in a short last group those that are left. */
static uint32_t members(const struct layout *l, uint32_t group) {
    uint32_t left = l->n - group * (l->r + 1);
    return left < l->r + 1 ? left : l->r + 1;
}

/* The members that a short last group lacks count as message symbols. */
static uint32_t guarantee(const struct layout *l) {
    uint32_t missing = groups(l) * (l->r + 1) - l->n;
    return l->n - l->k - (l->k + missing + l->r - 1) / l->r + 1;
}

/* The slot of a member of a group; members in order are slots in order. */
static uint32_t slot_of(const struct layout *l, uint32_t group, uint32_t member) {
    return l->wiring ? group + member * groups(l) : group * (l->r + 1) + member;
}

static size_t stripes_of(uint64_t length, uint32_t k) { return (size_t)((length + k - 1) / k); }

/* The refusal of a code: slot 0 of an accepted one has weights, so what is refused is the code. */
static uint32_t code_refusal(const struct layout *l) {
    uint8_t weights[LATSEFIDY_WEIGHTS];
    return latsefidy_weights(BYTES, l->r, l->n, l->k, l->wiring, 0, weights, sizeof weights);
}

/* Decimal digits alone, up to `most`: moves over them and answers 0, else -1. */
static int number(const char **at, uint64_t most, uint64_t *value) {
    const char *from = *at;
    *value = 0;
    for (; **at >= '0' && **at <= '9'; ++*at) {
        uint64_t digit = (uint64_t)(**at - '0');
        if (digit > most || *value > (most - digit) / 10) return -1;
        *value = 10 * *value + digit;
    }
    return *at == from ? -1 : 0;
}

static int whole_number(const char *text, uint64_t most, uint32_t *value) {
    uint64_t wide = 0;
    if (number(&text, most, &wide) != 0 || *text != '\0') return -1;
    *value = (uint32_t)wide;
    return 0;
}

/* R, N, K and WIRING, as many as there are. */
static int code_of(int count, char **words, struct layout *l) {
    static const char *const names[] = {"R", "N", "K", "WIRING"};
    uint32_t *numbers[] = {&l->r, &l->n, &l->k, &l->wiring};
    for (int i = 0; i < count; i++)
        if (whole_number(words[i], UINT32_MAX, numbers[i]) != 0)
            return refuse("%s is \"%s\", not a decimal number up to 4,294,967,295", names[i], words[i]);
    uint32_t refused = code_refusal(l);
    if (refused == 0) return DONE;
    return refuse("the code R %" PRIu32 " N %" PRIu32 " K %" PRIu32 " WIRING %" PRIu32 " is refused, %" PRIu32 ": %s", l->r,
                  l->n, l->k, l->wiring, refused, latsefidy_refusal_text(refused));
}

/* ---- stripe.txt ---- */

/* The line of the code is field, r, n, k, and under wiring 1 alone the wiring after them. */
static int text_of(const struct layout *l, char text[TEXT_MOST]) {
    return snprintf(text, TEXT_MOST, "latsefidy store 1\ncode 1 %" PRIu32 " %" PRIu32 " %" PRIu32 "%s\nbytes %" PRIu64 "\n",
                    l->r, l->n, l->k, l->wiring ? " 1" : "", l->length);
}

/* Understands a text if it is just the one that store would write. */
static int understand(const char *text, struct layout *l) {
    uint64_t r, n, k, wiring = 0;
    char again[TEXT_MOST];
    const char *at = strchr(text, '\n');
    if (at == NULL || strncmp(at, "\ncode 1 ", 8) != 0) return -1;
    at += 8;
    if (number(&at, DRIVES_MOST, &r) != 0 || *at++ != ' ') return -1;
    if (number(&at, DRIVES_MOST, &n) != 0 || *at++ != ' ') return -1;
    if (number(&at, DRIVES_MOST, &k) != 0) return -1;
    if (*at == ' ' && (++at, number(&at, 1, &wiring)) != 0) return -1;
    if (strncmp(at, "\nbytes ", 7) != 0) return -1;
    at += 7;
    if (number(&at, LENGTH_MOST, &l->length) != 0) return -1;
    l->r = (uint32_t)r, l->n = (uint32_t)n, l->k = (uint32_t)k, l->wiring = (uint32_t)wiring;
    if (code_refusal(l) != 0) return -1;
    l->stripes = stripes_of(l->length, l->k);
    text_of(l, again);
    return strcmp(text, again) == 0 ? 0 : -1;
}

/* Opens a folder that store made and reads its stripe.txt. The folder is the caller's to close where it is 0 or more. */
static int open_store(const char *name, int *folder, struct layout *l) {
    char text[TEXT_MOST];
    *folder = open(name, O_RDONLY | O_DIRECTORY);
    if (*folder < 0 && errno == ENOTDIR) return refuse("%s is no folder", name);
    if (*folder < 0) return fail("open", name);
    int file = openat(*folder, TEXT_NAME, O_RDONLY);
    if (file < 0 && errno == ENOENT) return refuse("%s has no %s: it is not a store", name, TEXT_NAME);
    if (file < 0) return fail("open", TEXT_NAME);
    ssize_t got = read_most(file, (uint8_t *)text, sizeof text - 1);
    close(file);
    if (got < 0) return fail("read", TEXT_NAME);
    text[got] = '\0';
    if (strlen(text) != (size_t)got || understand(text, l) != 0)
        return refuse("%s of %s is not as store writes it", TEXT_NAME, name);
    return DONE;
}

/* ---- store ---- */

/* What a run made, so that it can be removed again. */
struct made {
    const char *name;
    int folder; /* descriptor */
    int own;    /* the folder itself */
    uint32_t drives;
    int text;
};

static void undo(const struct made *made) {
    char name[NAME_MOST];
    if (made->text) unlinkat(made->folder, TEXT_NAME, 0);
    for (uint32_t p = 0; p < made->drives; p++) {
        drive_name(p, name);
        unlinkat(made->folder, name, 0);
    }
    if (made->own) rmdir(made->name);
}

static int is_empty(int folder) {
    int again = openat(folder, ".", O_RDONLY | O_DIRECTORY);
    DIR *list = again < 0 ? NULL : fdopendir(again);
    if (list == NULL) {
        if (again >= 0) close(again);
        return -1;
    }
    int empty = 1;
    for (struct dirent *entry; empty && (entry = readdir(list)) != NULL;)
        empty = strcmp(entry->d_name, ".") == 0 || strcmp(entry->d_name, "..") == 0;
    closedir(list);
    return empty;
}

/* Makes the folder, or takes an empty one. */
static int take_folder(struct made *made) {
    made->own = mkdir(made->name, 0777) == 0;
    if (!made->own && errno != EEXIST) return fail("make", made->name);
    made->folder = open(made->name, O_RDONLY | O_DIRECTORY);
    if (made->folder < 0 && errno == ENOTDIR) return refuse("%s is there and is no folder", made->name);
    if (made->folder < 0) return fail("open", made->name);
    int empty = made->own ? 1 : is_empty(made->folder);
    if (empty < 0) return fail("read", made->name);
    return empty ? DONE : refuse("%s is not empty: nothing was changed", made->name);
}

/* Makes a file that was not there; `mine` is set once it is. */
static int make_file(int folder, const char *name, const uint8_t *at, size_t length, int *mine) {
    int file = openat(folder, name, O_WRONLY | O_CREAT | O_EXCL, 0666);
    if (file < 0 && errno == EEXIST) return refuse("%s is in the folder: it is not touched", name);
    if (file < 0) return fail("make", name);
    *mine = 1;
    return close_written(file, write_all(file, at, length) == 0 ? DONE : fail("write", name), name);
}

/* The drives, then stripe.txt: a folder without it is not a store. */
static int write_folder(struct made *made, const struct layout *l, const uint8_t *drives) {
    char name[NAME_MOST], text[TEXT_MOST];
    for (uint32_t p = 0; p < l->n; p++) {
        int mine = 0;
        drive_name(p, name);
        int status = make_file(made->folder, name, drives + p * l->stripes, l->stripes, &mine);
        made->drives += (uint32_t)mine;
        if (status != DONE) return status;
    }
    int length = text_of(l, text);
    return make_file(made->folder, TEXT_NAME, (const uint8_t *)text, (size_t)length, &made->text);
}

/* Encodes all stripes: the drives' bytes, end to end in slot order. */
static int encode_all(const struct layout *l, const uint8_t *file, uint8_t *drives) {
    uint8_t message[DRIVES_MOST], word[DRIVES_MOST];
    for (size_t s = 0; s < l->stripes; s++) {
        if (caught) return fail("go on", "encoding");
        size_t from = s * l->k, kept = l->length - from < l->k ? (size_t)(l->length - from) : l->k;
        memset(message, 0, sizeof message);
        memcpy(message, file + from, kept);
        uint32_t refused = latsefidy_encode(BYTES, l->r, l->n, l->k, l->wiring, message, l->k, word, l->n);
        if (refused != 0)
            return refuse("stripe %zu is refused, %" PRIu32 ": %s", s, refused, latsefidy_refusal_text(refused));
        for (uint32_t p = 0; p < l->n; p++) drives[p * l->stripes + s] = word[p];
        progress("store", s + 1, l->stripes);
    }
    return DONE;
}

/* What a lost drive is rebuilt from; one of a short last group has fewer others. */
static const char *others(const struct layout *l, char text[32]) {
    uint32_t most = members(l, 0) - 1, least = members(l, groups(l) - 1) - 1;
    snprintf(text, 32, "%s%" PRIu32 " other%s", least < most ? "at most " : "", most, most == 1 ? "" : "s");
    return text;
}

static void say_stored(const struct layout *l, double start) {
    char length[32], stripes[32], from[32];
    uint32_t sure = guarantee(l);
    printf("store: %s bytes on %" PRIu32 " drives of %s bytes: %.1f MB/s (file bytes encoded and written a second)\n",
           grouped(l->length, length), l->n, grouped(l->stripes, stripes), megabytes_a_second(l->length, start));
    printf("store: any %" PRIu32 " drive%s can be lost and the file still loads; one lost drive is rebuilt from %s\n", sure,
           sure == 1 ? "" : "s", others(l, from));
}

static int store_bytes(const struct bytes *bytes, const char *folder, struct layout *l, double start) {
    l->length = bytes->length;
    l->stripes = stripes_of(l->length, l->k);
    struct made made = {.name = folder, .folder = -1};
    uint8_t *drives = malloc(l->n * l->stripes + 1);
    int status = drives == NULL ? fail("keep in memory", "the drives") : take_folder(&made);
    if (status == DONE) status = encode_all(l, bytes->at, drives);
    if (status == DONE) status = write_folder(&made, l, drives);
    if (status == DONE) say_stored(l, start);
    else undo(&made);
    if (made.folder >= 0) close(made.folder);
    free(drives);
    return status;
}

static int command_store(int count, char **words) {
    struct layout l = {.r = 4, .n = 20, .k = 12};
    struct bytes bytes = {NULL, 0};
    double start = seconds();
    int status = code_of(count - 2, words + 2, &l);
    if (status == DONE) status = read_file(words[0], &bytes);
    if (status == DONE) status = store_bytes(&bytes, words[1], &l, start);
    free(bytes.at);
    return status;
}

/* ---- lose ---- */

/* Deletes a drive; one that is gone already is no error. */
static int lose_drive(int folder, uint32_t slot) {
    char name[NAME_MOST];
    drive_name(slot, name);
    if (unlinkat(folder, name, 0) == 0) printf("lose: drive %" PRIu32 " deleted\n", slot);
    else if (errno == ENOENT) printf("lose: drive %" PRIu32 " was gone already\n", slot);
    else return fail("delete", name);
    return DONE;
}

/* Marks the drives that are gone; answers how many. */
static uint32_t mark_gone(int folder, const struct layout *l, uint8_t marks[DRIVES_MOST]) {
    char name[NAME_MOST];
    struct stat found;
    uint32_t gone = 0;
    for (uint32_t p = 0; p < l->n; p++) {
        drive_name(p, name);
        marks[p] = fstatat(folder, name, &found, 0) != 0;
        gone += marks[p];
    }
    return gone;
}

/* What the losses mean for the file, by their grade. */
static int say_lost(int folder, const struct layout *l) {
    uint8_t marks[DRIVES_MOST];
    char from[32];
    uint32_t gone = mark_gone(folder, l, marks), sure = guarantee(l);
    uint64_t grade = latsefidy_grade(BYTES, l->r, l->n, l->k, l->wiring, marks, l->n, work, sizeof work);
    uint32_t refused = latsefidy_refusal(grade);
    if (refused != 0) return refuse("the losses are refused, %" PRIu32 ": %s", refused, latsefidy_refusal_text(refused));
    printf("lose: %" PRIu32 " of %" PRIu32 " drives gone: ", gone, l->n);
    switch (latsefidy_value(grade)) {
    case 0:
    case 1: printf("each is rebuilt from %s\n", others(l, from)); break;
    case 2: printf("within the guarantee of %" PRIu32 ", the file still loads\n", sure); break;
    case 3: printf("past the guarantee of %" PRIu32 ", but the rest still decides every stripe: the file loads\n", sure); break;
    default: printf("past the guarantee of %" PRIu32 ", and the rest decides no stripe\n", sure);
    }
    return DONE;
}

static int lose_all(int folder, const struct layout *l, int count, char **words) {
    uint32_t slot = 0;
    for (int i = 0; i < count; i++)
        if (whole_number(words[i], l->n - 1, &slot) != 0)
            return refuse("\"%s\" is no slot: slots are 0 to %" PRIu32 "; nothing was deleted", words[i], l->n - 1);
    for (int i = 0; i < count; i++) {
        whole_number(words[i], l->n - 1, &slot);
        int status = lose_drive(folder, slot);
        if (status != DONE) return status;
    }
    return say_lost(folder, l);
}

static int command_lose(int count, char **words) {
    struct layout l;
    int folder;
    int status = open_store(words[0], &folder, &l);
    if (status == DONE) status = lose_all(folder, &l, count - 1, words + 1);
    if (folder >= 0) close(folder);
    return status;
}

/* ---- load ---- */

/* The drives of a store in memory; a lost one is NULL. */
struct drives {
    uint8_t *at[DRIVES_MOST];
    uint32_t sound; /* read from the folder */
};

/* Reads a drive that is there and has its length; any other is lost. */
static int read_drive(int folder, const struct layout *l, uint32_t slot, struct drives *drives) {
    char name[NAME_MOST], has[32], wants[32];
    struct stat found;
    drive_name(slot, name);
    if (fstatat(folder, name, &found, 0) != 0) return errno == ENOENT ? DONE : fail("look at", name);
    if (!S_ISREG(found.st_mode) || (uint64_t)found.st_size != l->stripes) {
        printf("load: drive %" PRIu32 " has %s bytes, not %s: it counts as lost\n", slot,
               grouped((uint64_t)found.st_size, has), grouped(l->stripes, wants));
        return DONE;
    }
    int file = openat(folder, name, O_RDONLY);
    if (file < 0) return fail("open", name);
    uint8_t *at = drives->at[slot] = malloc(l->stripes + 1);
    ssize_t got = at == NULL ? -1 : read_most(file, at, l->stripes);
    if (got >= 0) errno = EIO; /* what a file gives that became shorter */
    int status = got == (ssize_t)l->stripes ? DONE : fail("read", name);
    close(file);
    drives->sound += status == DONE;
    return status;
}

static int read_drives(int folder, const struct layout *l, struct drives *drives) {
    int status = DONE;
    for (uint32_t p = 0; p < l->n && status == DONE; p++) status = read_drive(folder, l, p, drives);
    return status;
}

/* Rebuilds the drive of a slot from its mates, so many, strip by strip. Where no codeword has some stripe's mates the drive
   stays lost: decode then says which stripe is refused. */
static int rebuild(const struct layout *l, uint32_t slot, const uint32_t *mates, uint32_t count, struct drives *drives) {
    static uint8_t strips[16 * LATSEFIDY_STRIP_MOST];
    uint8_t *out = malloc(l->stripes + 1);
    if (out == NULL) return fail("keep in memory", "a drive");
    for (size_t from = 0, length; from < l->stripes; from += length) {
        length = l->stripes - from < LATSEFIDY_STRIP_MOST ? l->stripes - from : LATSEFIDY_STRIP_MOST;
        for (uint32_t i = 0; i < count; i++) memcpy(strips + i * length, drives->at[mates[i]] + from, length);
        uint32_t refused = latsefidy_rebuild(BYTES, l->r, l->n, l->k, l->wiring, slot, strips, count * length, out + from,
                                             length);
        if (refused != 0) {
            free(out);
            if (refused == LATSEFIDY_REFUSAL_FOREIGN) return DONE;
            return refuse("drive %" PRIu32 " is refused, %" PRIu32 ": %s", slot, refused, latsefidy_refusal_text(refused));
        }
    }
    drives->at[slot] = out;
    printf("load: drive %" PRIu32 " rebuilt from drives", slot);
    for (uint32_t i = 0; i < count; i++) printf(" %" PRIu32, mates[i]);
    printf("\n");
    return DONE;
}

/* Rebuilds the lost drive of each group with exactly one. */
static int rebuild_groups(const struct layout *l, struct drives *drives) {
    for (uint32_t group = 0; group < groups(l); group++) {
        uint32_t lost = 0, slot = 0, kept = 0, mates[GROUP_MOST];
        for (uint32_t i = 0; i < members(l, group); i++) {
            uint32_t p = slot_of(l, group, i);
            if (drives->at[p] == NULL) lost++, slot = p;
            else mates[kept++] = p;
        }
        int status = lost == 1 ? rebuild(l, slot, mates, kept, drives) : DONE;
        if (status != DONE) return status;
    }
    return DONE;
}

/* Decodes a stripe to a message of k bytes. */
static int decode_stripe(const struct layout *l, const struct drives *drives, size_t s, uint8_t *message) {
    uint8_t word[DRIVES_MOST], marks[DRIVES_MOST];
    for (uint32_t p = 0; p < l->n; p++) {
        marks[p] = drives->at[p] == NULL;
        word[p] = marks[p] ? 0 : drives->at[p][s];
    }
    uint32_t refused = latsefidy_decode(BYTES, l->r, l->n, l->k, l->wiring, word, l->n, marks, l->n, message, l->k, work,
                                        sizeof work);
    if (refused == 0) return DONE;
    return refuse("stripe %zu is refused, %" PRIu32 ": %s", s, refused, latsefidy_refusal_text(refused));
}

/* Decodes all stripes and writes the file, some hundred stripes at a time. */
static int decode_all(const struct layout *l, const struct drives *drives, int file, const char *name) {
    enum { AT_ONCE = 256 };
    static uint8_t messages[AT_ONCE * DRIVES_MOST];
    for (size_t s = 0; s < l->stripes;) {
        uint64_t from = (uint64_t)s * l->k, left = l->length - from;
        size_t filled = 0;
        for (; filled < (size_t)AT_ONCE * l->k && s < l->stripes; s++, filled += l->k) {
            int status = caught ? fail("go on", "decoding") : decode_stripe(l, drives, s, messages + filled);
            if (status != DONE) return status;
        }
        if (write_all(file, messages, left < filled ? (size_t)left : filled) != 0) return fail("write", name);
        progress("load", s, l->stripes);
    }
    return DONE;
}

static int load_all(int folder, const struct layout *l, struct drives *drives, int file, const char *name) {
    int status = read_drives(folder, l, drives);
    if (status == DONE) status = rebuild_groups(l, drives);
    return status == DONE ? decode_all(l, drives, file, name) : status;
}

/* Loads into a file that is made here, and removed again if it cannot be finished. */
static int load_file(int folder, const struct layout *l, const char *name) {
    struct drives drives = {.sound = 0};
    double start = seconds();
    char length[32];
    int file = open(name, O_WRONLY | O_CREAT | O_EXCL, 0666);
    if (file < 0 && errno == EEXIST) return refuse("%s is there already: it is not touched", name);
    if (file < 0) return fail("make", name);
    int status = close_written(file, load_all(folder, l, &drives, file, name), name);
    if (status == DONE)
        printf("load: %s bytes from %" PRIu32 " of %" PRIu32 " drives: %.1f MB/s (file bytes rebuilt, decoded and written a "
               "second)\n", grouped(l->length, length), drives.sound, l->n, megabytes_a_second(l->length, start));
    else unlink(name);
    for (uint32_t p = 0; p < l->n; p++) free(drives.at[p]);
    return status;
}

static int command_load(char **words) {
    struct layout l;
    int folder;
    int status = open_store(words[0], &folder, &l);
    if (status == DONE) status = load_file(folder, &l, words[1]);
    if (folder >= 0) close(folder);
    return status;
}

/* ---- the command line ---- */

static int is(const char *word, const char *name) { return strcmp(word, name) == 0; }

static int run(int count, char **words) {
    for (int i = 1; i < count; i++)
        if (is(words[i], "--help") || is(words[i], "-h")) return fputs(usage, stdout), DONE;
    if ((count == 4 || count == 7 || count == 8) && is(words[1], "store")) return command_store(count - 2, words + 2);
    if (count >= 4 && is(words[1], "lose")) return command_lose(count - 2, words + 2);
    if (count == 4 && is(words[1], "load")) return command_load(words + 2);
    fputs(usage, stderr);
    return FAILED;
}

int main(int count, char **words) {
    catch_signals();
    int status = run(count, words);
    if ((fflush(stdout) != 0 || ferror(stdout)) && status == DONE) status = fail("write", "standard output");
    if (caught && status != DONE) {
        signal(caught, SIG_DFL);
        raise(caught);
    }
    return status;
}
