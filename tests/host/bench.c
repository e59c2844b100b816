/* The test bench of the library for programs in C: a call a line in, its answer a line out. LINES.md, beside this
 * file, says how they are written; one space stands between two fields.
 *
 * A call with slices is made twice. Once each slice ends where memory begins that may not be touched, once it begins
 * where such memory ends; on its other side the bytes must stay as they are, and so must a slice that is only read.
 * Both calls must answer the same.
 *
 * The status is 0; 1 where a call touches what it may not, or answers the two ways differently; 2 where a line or an
 * option cannot be read; 3 where the input, the output or memory fails. An option breaks one of these rules on purpose,
 * at the first slice of each call, so that a test can see that the bench notices:
 *
 *     --trap-end  --trap-start       reads the byte beyond the slice's end, before its start
 *     --around-end  --around-start   alters the byte next to the slice, where it stands at the end, at the start
 *     --differ                       alters the slice in one of the two calls */
#define _DEFAULT_SOURCE
#include "dogrzewin.h"

#include <inttypes.h>
#include <signal.h>
#include <stdio.h>
#include <stdlib.h>
#include <string.h>
#include <sys/mman.h>
#include <unistd.h>

enum { SAME = 0, WRONG = 1, UNREAD = 2, LOST = 3 };

/* A region is as wide as the widest page that Linux has on x86-64 or Arm, so that it can be shut off on either. */
enum { REGION = 0x10000, AROUND = 256, MOST_BYTES = 32800, MOST_FIELDS = 10, MOST_SLICES = 5 };

/* ---- messages */

static unsigned long line_number;

/* About a line: what was answered before it is written too. */
static void stop(int status, const char *what) {
    fflush(stdout);
    fprintf(stderr, "line %lu: %s\n", line_number, what);
    exit(status);
}

/* About no line. */
static void fail(int status, const char *what) {
    fprintf(stderr, "bench: %s\n", what);
    exit(status);
}

/* What the handler of a trap writes stands ready before each line's calls: it may call next to nothing. */
static char trap_text[80];
static int trap_length;

static void prepare_trap_text(void) {
    trap_length = snprintf(trap_text, sizeof trap_text, "line %lu: touched memory outside a slice\n", line_number);
}

static void on_trap(int signal_number) {
    ssize_t written = write(STDERR_FILENO, trap_text, (size_t)trap_length);
    (void)signal_number;
    (void)written;
    _exit(WRONG);
}

static void catch_traps(void) {
    struct sigaction action;
    memset(&action, 0, sizeof action);
    action.sa_handler = on_trap;
    sigemptyset(&action.sa_mask);
    if (sigaction(SIGSEGV, &action, NULL) != 0 || sigaction(SIGBUS, &action, NULL) != 0) {
        fail(LOST, "traps cannot be caught");
    }
}

/* ---- reading a line */

/* A slice before the call: a NULL pointer, or so many bytes. */
struct slice {
    int is_null, is_read_only;
    size_t length;
    uint8_t bytes[MOST_BYTES];
};

struct arguments {
    uint64_t number[2];
    int32_t coordinate[3];
    int slices;
    struct slice slice[MOST_SLICES];
};

/* A number of digits only, at most `most`. */
static uint64_t read_digits(const char *text, unsigned base, uint64_t most) {
    static const char digits[] = "0123456789abcdef";
    uint64_t number = 0;
    if (*text == '\0') {
        stop(UNREAD, "a number has no digit");
    }
    for (; *text != '\0'; text++) {
        char lower = *text >= 'A' && *text <= 'F' ? (char)(*text - 'A' + 'a') : *text;
        const char *found = memchr(digits, lower, base);
        uint64_t digit = found == NULL ? 0 : (uint64_t)(found - digits);
        if (found == NULL) {
            stop(UNREAD, "a number has a character that is no digit");
        }
        if (number > (most - digit) / base) {
            stop(UNREAD, "a number is too large");
        }
        number = number * base + digit;
    }
    return number;
}

static uint64_t read_word(const char *text) {
    if (strncmp(text, "0x", 2) != 0 || strlen(text) > 18) {
        stop(UNREAD, "a word is 0x and 1 to 16 hexadecimal digits");
    }
    return read_digits(text + 2, 16, UINT64_MAX);
}

static uint64_t read_small_word(const char *text) {
    if (strncmp(text, "0x", 2) != 0 || strlen(text) > 10) {
        stop(UNREAD, "a small word is 0x and 1 to 8 hexadecimal digits");
    }
    return read_digits(text + 2, 16, UINT32_MAX);
}

static int32_t read_coordinate(const char *text) {
    if (*text == '-') {
        return (int32_t)-(int64_t)read_digits(text + 1, 10, (uint64_t)INT32_MAX + 1);
    }
    return (int32_t)read_digits(text, 10, INT32_MAX);
}

/* Cuts a line at its spaces; two of them in a row have an empty field between them, which nothing reads. */
static int cut(char *line, char *fields[MOST_FIELDS]) {
    int count = 0;
    while (line != NULL) {
        if (count == MOST_FIELDS) {
            stop(UNREAD, "too many fields");
        }
        fields[count++] = line;
        line = strchr(line, ' ');
        if (line != NULL) {
            *line++ = '\0';
        }
    }
    return count;
}

/* A lent slice, 'LENGTH FIRST' or 'null': answers how many fields it takes. */
static int read_lent(char **fields, int count, struct slice *into) {
    uint8_t first;
    into->is_read_only = 0;
    into->is_null = strcmp(fields[0], "null") == 0;
    into->length = 0;
    if (into->is_null) {
        return 1;
    }
    if (count < 2) {
        stop(UNREAD, "a slice is 'LENGTH FIRST' or 'null'");
    }
    into->length = (size_t)read_digits(fields[0], 10, MOST_BYTES);
    first = (uint8_t)read_digits(fields[1], 10, UINT8_MAX);
    for (size_t k = 0; k < into->length; k++) {
        into->bytes[k] = (uint8_t)(first + k);
    }
    return 2;
}

/* A slice that is only read: two hexadecimal digits a byte, 'empty' or 'null'. */
static void read_bytes(const char *text, struct slice *into) {
    into->is_read_only = 1;
    into->is_null = strcmp(text, "null") == 0;
    into->length = 0;
    if (into->is_null || strcmp(text, "empty") == 0) {
        return;
    }
    into->length = strlen(text) / 2;
    if (strlen(text) % 2 != 0 || into->length > MOST_BYTES) {
        stop(UNREAD, "bytes are two digits each, and at most 32800");
    }
    for (size_t k = 0; k < into->length; k++) {
        char digits[3] = {text[2 * k], text[2 * k + 1], '\0'};
        into->bytes[k] = (uint8_t)read_digits(digits, 16, UINT8_MAX);
    }
}

/* ---- the calls: their names, a letter for each argument (w a word, s a small word, n a number, c a coordinate, r a
 * slice that is only read, o a lent one) */

/* Where the slices of a call stand. */
typedef uint64_t call_function(const struct arguments *a, uint8_t *const at[MOST_SLICES]);

static uint64_t check_triangle(const struct arguments *a, uint8_t *const at[MOST_SLICES]) {
    (void)at;
    return grid_check_triangle(a->number[0]);
}

static uint64_t check_name(const struct arguments *a, uint8_t *const at[MOST_SLICES]) {
    (void)at;
    return grid_check_name(a->number[0]);
}

static uint64_t cross(const struct arguments *a, uint8_t *const at[MOST_SLICES]) {
    return grid_cross(a->number[0], a->number[1], at[0], a->slice[0].length);
}

static uint64_t file(const struct arguments *a, uint8_t *const at[MOST_SLICES]) {
    const int32_t *c = a->coordinate;
    return grid_file(a->number[0], c[0], c[1], c[2], at[0], a->slice[0].length);
}

static uint64_t list(const struct arguments *a, uint8_t *const at[MOST_SLICES]) {
    const int32_t *c = a->coordinate;
    return grid_list(a->number[0], c[0], c[1], c[2], at[0], a->slice[0].length);
}

static uint64_t sweep(const struct arguments *a, uint8_t *const at[MOST_SLICES]) {
    const struct slice *s = a->slice;
    return grid_sweep(a->number[0], at[0], s[0].length, at[1], s[1].length, at[2], s[2].length);
}

static uint64_t check_cells(const struct arguments *a, uint8_t *const at[MOST_SLICES]) {
    return grid_check_cells(at[0], a->slice[0].length, at[1], a->slice[1].length);
}

static uint64_t mend_cells(const struct arguments *a, uint8_t *const at[MOST_SLICES]) {
    const struct slice *s = a->slice;
    return grid_mend_cells(at[0], s[0].length, at[1], s[1].length, at[2], s[2].length, at[3], s[3].length, at[4],
                           s[4].length);
}

static uint64_t small(const struct arguments *a, uint8_t *const at[MOST_SLICES]) {
    return grid_small(a->number[0], at[0], a->slice[0].length);
}

static uint64_t large(const struct arguments *a, uint8_t *const at[MOST_SLICES]) {
    return grid_large((uint32_t)a->number[0], at[0], a->slice[0].length);
}

static uint64_t check_small(const struct arguments *a, uint8_t *const at[MOST_SLICES]) {
    (void)at;
    return grid_check_small((uint32_t)a->number[0]);
}

static uint64_t cross_small(const struct arguments *a, uint8_t *const at[MOST_SLICES]) {
    return grid_cross_small((uint32_t)a->number[0], a->number[1], at[0], a->slice[0].length);
}

static uint64_t file_small(const struct arguments *a, uint8_t *const at[MOST_SLICES]) {
    const int32_t *c = a->coordinate;
    return grid_file_small(a->number[0], c[0], c[1], c[2], at[0], a->slice[0].length);
}

static uint64_t opposite(const struct arguments *a, uint8_t *const at[MOST_SLICES]) {
    return grid_opposite(a->number[0], at[0], a->slice[0].length);
}

static uint64_t opposite_name(const struct arguments *a, uint8_t *const at[MOST_SLICES]) {
    return grid_opposite_name(a->number[0], at[0], a->slice[0].length);
}

struct form {
    const char *name, *kinds;
    call_function *call;
};

static const struct form forms[] = {
    {"check-triangle", "w", check_triangle},
    {"check-name", "w", check_name},
    {"cross", "wno", cross},
    {"file", "nccco", file},
    {"list", "nccco", list},
    {"sweep", "nroo", sweep},
    {"check-cells", "ro", check_cells},
    {"mend-cells", "roooo", mend_cells},
    {"small", "wo", small},
    {"large", "so", large},
    {"check-small", "s", check_small},
    {"cross-small", "sno", cross_small},
    {"file-small", "nccco", file_small},
    {"opposite", "wo", opposite},
    {"opposite-name", "wo", opposite_name},
};

static const struct form *read_form(const char *name) {
    for (size_t k = 0; k < sizeof forms / sizeof forms[0]; k++) {
        if (strcmp(name, forms[k].name) == 0) {
            return &forms[k];
        }
    }
    stop(UNREAD, "no such call");
    return NULL;
}

static const struct form *read_line(char *line, struct arguments *into) {
    char *fields[MOST_FIELDS];
    int count = cut(line, fields), at = 1, numbers = 0, coordinates = 0;
    const struct form *form = read_form(fields[0]);
    into->slices = 0;
    for (const char *kind = form->kinds; *kind != '\0'; kind++) {
        if (at == count) {
            stop(UNREAD, "a field is missing");
        }
        switch (*kind) {
        case 'w':
            into->number[numbers++] = read_word(fields[at++]);
            break;
        case 's':
            into->number[numbers++] = read_small_word(fields[at++]);
            break;
        case 'n':
            into->number[numbers++] = read_digits(fields[at++], 10, UINT64_MAX);
            break;
        case 'c':
            into->coordinate[coordinates++] = read_coordinate(fields[at++]);
            break;
        case 'r':
            read_bytes(fields[at++], &into->slice[into->slices++]);
            break;
        default:
            at += read_lent(fields + at, count - at, &into->slice[into->slices++]);
        }
    }
    if (at != count) {
        stop(UNREAD, "too many fields");
    }
    return form;
}

/* ---- memory: for each slice a region that may be touched, between two that may not */

static uint8_t *regions[MOST_SLICES];

static void shut(uint8_t *place) {
    if (mprotect(place, REGION, PROT_NONE) != 0) {
        fail(LOST, "memory cannot be shut off");
    }
}

/* One region more than is used, so that all can begin at a multiple of their width. */
static void map_regions(void) {
    for (int k = 0; k < MOST_SLICES; k++) {
        uint8_t *all = mmap(NULL, 4 * REGION, PROT_READ | PROT_WRITE, MAP_PRIVATE | MAP_ANONYMOUS, -1, 0);
        if (all == MAP_FAILED) {
            fail(LOST, "there is no memory");
        }
        all += REGION - (uintptr_t)all % REGION;
        regions[k] = all + REGION;
        shut(regions[k] - REGION);
        shut(regions[k] + REGION);
    }
}

/* ---- making a call with its slices at one end of their regions */

enum place { AT_END, AT_START };

/* The options: what is broken on purpose, and at which end. */
enum harm { TRAP, ALTER_AROUND, ALTER_WITHIN };
static const struct damage {
    const char *option;
    enum harm harm;
    enum place place;
} damages[] = {
    {"--trap-end", TRAP, AT_END},
    {"--trap-start", TRAP, AT_START},
    {"--around-end", ALTER_AROUND, AT_END},
    {"--around-start", ALTER_AROUND, AT_START},
    {"--differ", ALTER_WITHIN, AT_START},
};
static const struct damage *damage;

static void do_damage(enum place place, uint8_t *out, size_t length) {
    volatile uint8_t *before = out - 1, *after = out + length;
    if (damage == NULL || damage->place != place) {
        return;
    }
    switch (damage->harm) {
    case TRAP:
        (void)*(place == AT_END ? after : before);
        break;
    case ALTER_AROUND:
        *(place == AT_END ? before : after) ^= 1;
        break;
    case ALTER_WITHIN:
        if (length > 0) {
            out[0] ^= 1;
        }
    }
}

/* What stands around the slice: no two bytes that are near are the same. */
static uint8_t known(size_t k) {
    return (uint8_t)(k * 37 + 11);
}

static void check_around(const uint8_t *around, const char *what) {
    for (size_t k = 0; k < AROUND; k++) {
        if (around[k] != known(k)) {
            stop(WRONG, what);
        }
    }
}

/* Where slice k stands, and where what surrounds it begins. */
static uint8_t *start_of(enum place place, int k, size_t length) {
    return place == AT_END ? regions[k] + REGION - length : regions[k];
}

static uint8_t *around_of(enum place place, uint8_t *start, size_t length) {
    return place == AT_END ? start - AROUND : start + length;
}

static uint8_t *set_up(enum place place, int k, const struct slice *slice) {
    uint8_t *start = start_of(place, k, slice->length);
    uint8_t *around = around_of(place, start, slice->length);
    for (size_t j = 0; j < AROUND; j++) {
        around[j] = known(j);
    }
    memcpy(start, slice->bytes, slice->length);
    return slice->is_null ? NULL : start;
}

/* What surrounds a slice, and a slice that is only read, are as they were. Copies a lent one out. */
static void look_at(enum place place, int k, const struct slice *slice, uint8_t *bytes) {
    uint8_t *start = start_of(place, k, slice->length);
    uint8_t *around = around_of(place, start, slice->length);
    check_around(around, place == AT_END ? "altered bytes before a slice" : "altered bytes after a slice");
    if (slice->is_read_only && memcmp(start, slice->bytes, slice->length) != 0) {
        stop(WRONG, "altered a slice that is only read");
    }
    memcpy(bytes, start, slice->length);
}

/* Makes the call, and copies the slices out after it. */
static uint64_t call_at(enum place place, const struct form *form, const struct arguments *a,
                        uint8_t bytes[MOST_SLICES][MOST_BYTES]) {
    uint8_t *at[MOST_SLICES] = {NULL};
    uint64_t refusal;
    for (int k = 0; k < a->slices; k++) {
        at[k] = set_up(place, k, &a->slice[k]);
    }
    refusal = form->call(a, at);
    if (a->slices > 0 && at[0] != NULL) {
        do_damage(place, at[0], a->slice[0].length);
    }
    for (int k = 0; k < a->slices; k++) {
        look_at(place, k, &a->slice[k], bytes[k]);
    }
    return refusal;
}

static uint64_t call_twice(const struct form *form, const struct arguments *a, uint8_t bytes[MOST_SLICES][MOST_BYTES]) {
    static uint8_t again[MOST_SLICES][MOST_BYTES];
    uint64_t refusal = call_at(AT_END, form, a, bytes);
    int same = call_at(AT_START, form, a, again) == refusal;
    for (int k = 0; k < a->slices; k++) {
        same = same && memcmp(bytes[k], again[k], a->slice[k].length) == 0;
    }
    if (!same) {
        stop(WRONG, "the same call with its slices at another place was answered differently");
    }
    return refusal;
}

/* After a space, two digits for each. */
static void write_bytes(const uint8_t *bytes, size_t length) {
    static const char digits[] = "0123456789abcdef";
    putchar(' ');
    for (size_t j = 0; j < length; j++) {
        putchar(digits[bytes[j] / 16]);
        putchar(digits[bytes[j] % 16]);
    }
}

static void answer(char *line) {
    static struct arguments a;
    static uint8_t bytes[MOST_SLICES][MOST_BYTES];
    const struct form *form = read_line(line, &a);
    prepare_trap_text();
    printf("%" PRIu64, call_twice(form, &a, bytes));
    for (int k = 0; k < a.slices; k++) {
        if (!a.slice[k].is_read_only && a.slice[k].length > 0) {
            write_bytes(bytes[k], a.slice[k].length);
        }
    }
    putchar('\n');
}

/* ---- all lines */

static void answer_all(void) {
    char *line = NULL;
    size_t room = 0;
    ssize_t length;
    while ((length = getline(&line, &room, stdin)) > 0) {
        line_number++;
        if (line[length - 1] != '\n') {
            stop(UNREAD, "the line does not end");
        }
        line[length - 1] = '\0';
        if (strlen(line) != (size_t)length - 1) {
            stop(UNREAD, "a character is 0");
        }
        answer(line);
    }
    free(line);
    if (!feof(stdin)) {
        fail(LOST, "the input could not be read");
    }
    if (fflush(stdout) != 0 || ferror(stdout)) {
        fail(LOST, "the output could not be written");
    }
}

static void read_option(const char *option) {
    for (size_t k = 0; k < sizeof damages / sizeof damages[0]; k++) {
        if (strcmp(option, damages[k].option) == 0) {
            damage = &damages[k];
        }
    }
    if (damage == NULL) {
        fail(UNREAD, "no such option");
    }
}

/* What the header itself has of code. */
static void check_number(void) {
    static const uint8_t bytes[8] = {0xFE, 0xDC, 0xBA, 0x98, 0x76, 0x54, 0x32, 0x10};
    if (grid_number(bytes) != UINT64_C(0xFEDCBA9876543210)) {
        fail(WRONG, "grid_number reads another number");
    }
}

int main(int argc, char **argv) {
    if (argc > 2) {
        fail(UNREAD, "more than one option");
    }
    if (argc == 2) {
        read_option(argv[1]);
    }
    check_number();
    map_regions();
    catch_traps();
    answer_all();
    return SAME;
}
