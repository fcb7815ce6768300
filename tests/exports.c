/* Calls the exported functions as its input says, for tests/exports. Each call is made twice: each slice ends at a page that may not
   be touched, and then begins behind one; the rest of its own pages has known bytes. It runs on a stack of its own, which
   is painted to see how much of it is used.

   `N p n f.. r weights.. out_len work_len`, numbers with blanks between them: answers `code count simple lists wrong b1 .. bN`.
   `L r weights..`: answers `code lists wrong`.
   `T text_len out_len`, a line feed and the text's bytes: answers `length wrong` and the bytes, in hexadecimal.
   `J coeffs_len weights_len text_len` and a text, as above, is read as a job: answers `code modulus degree weights wrong c1 .. w1 ..`.
   `A coeffs_len text_len` and a text is read as an answer: answers `code modulus degree simple wrong c1 ..`.
   `j modulus n coeffs.. r weights.. out_len` writes a job, `a modulus simple n coeffs.. out_len` an answer: `code length wrong` and the bytes.
   `S`: answers the most bytes of stack that a call of each function, in the order of linres.h, has taken so far.
   `wrong` counts what is not as the promise says: bytes changed that should be as they were, the inputs among them, work room that
   is not zero, and answers of the second call that are not those of the first. */
#define _GNU_SOURCE
#include <inttypes.h>
#include <stdio.h>
#include <stdlib.h>
#include <string.h>
#include <sys/mman.h>
#include <ucontext.h>

#include "../bindings/linres.h"

enum { PAGE = 4096, BYTE = 0x5a, STACK = 64 * PAGE };
enum side { END, FRONT, SIDES };

/* Pages with known bytes between two that may not be touched, and a slice at one end of them. */
struct room {
    unsigned char *pages, *slice;
    size_t pages_size, size;
};

static void *pages_between_guards(size_t size) {
    unsigned char *all = mmap(NULL, size + 2 * PAGE, PROT_NONE, MAP_PRIVATE | MAP_ANONYMOUS, -1, 0);
    if (all == MAP_FAILED || mprotect(all + PAGE, size, PROT_READ | PROT_WRITE) != 0)
        exit(2);
    memset(all + PAGE, BYTE, size);
    return all + PAGE;
}

static struct room lend(enum side side, size_t size) {
    struct room room = {.pages_size = (size / PAGE + 1) * PAGE, .size = size};
    room.pages = pages_between_guards(room.pages_size);
    room.slice = side == FRONT ? room.pages : room.pages + room.pages_size - size;
    return room;
}

static struct room lend_copy(enum side side, const void *from, size_t size) {
    struct room room = lend(side, size);
    if (size > 0)
        memcpy(room.slice, from, size);
    return room;
}

/* How many bytes of the pages are not known ones, the first `written` of the slice left out. Frees them. */
static size_t touched(struct room room, size_t written) {
    size_t wrong = 0;
    for (unsigned char *at = room.pages; at < room.pages + room.pages_size; at++)
        wrong += (at < room.slice || at >= room.slice + written) && *at != BYTE;
    munmap(room.pages - PAGE, room.pages_size + 2 * PAGE);
    return wrong;
}

/* The same of an input, which is as it was. */
static size_t changed(struct room room, const void *from) {
    size_t wrong = room.size > 0 && memcmp(room.slice, from, room.size) != 0;
    return wrong + touched(room, room.size);
}

/* Keeps what the first call has written at the front of a room, and compares with it what the second has; and looks at the rest. */
static size_t written_alike(enum side side, void *kept, struct room room, size_t written) {
    size_t wrong = 0;
    if (written > room.size)
        exit(3);
    if (side == END)
        memcpy(kept, room.slice, written);
    else
        wrong = memcmp(kept, room.slice, written) != 0;
    return wrong + touched(room, written);
}

/* ---- calls on a painted stack */

enum function { ANSWER_TEXT, RESOLVENT, LISTS, READ_JOB, READ_ANSWER, WRITE_JOB, WRITE_ANSWER, FUNCTIONS };

/* The arguments of a call, of which each function has some, and what it has given: `third` is what a reader tells beside the modulus and
   the degree, the number of weights or the mark. */
struct call {
    uint32_t p, code;
    size_t n, r, out_len, work_len, length, count, third;
    uint32_t simple, lists;
    struct room f, weights, out, work, text, modulus_word, count_word, third_word, simple_word, lists_word, length_word;
};

static struct call now;
static ucontext_t caller;
static size_t most_stack[FUNCTIONS];

static void call_text(void) {
    now.length = linres_answer_text(now.text.slice, now.text.size, now.out.slice, now.out.size);
}

static void call_resolvent(void) {
    now.code = linres_resolvent(now.p, (void *)now.f.slice, now.n, (void *)now.weights.slice, now.r, (void *)now.out.slice, now.out_len,
                                (void *)now.work.slice, now.work_len, (void *)now.count_word.slice, (void *)now.simple_word.slice,
                                (void *)now.lists_word.slice);
}

static void call_lists(void) {
    now.code = linres_lists((void *)now.weights.slice, now.r, (void *)now.lists_word.slice);
}

static void call_read_job(void) {
    now.code = linres_read_job(now.text.slice, now.text.size, (void *)now.f.slice, now.n, (void *)now.weights.slice, now.r,
                               (void *)now.modulus_word.slice, (void *)now.count_word.slice, (void *)now.third_word.slice);
}

static void call_read_answer(void) {
    now.code = linres_read_answer(now.text.slice, now.text.size, (void *)now.f.slice, now.n, (void *)now.modulus_word.slice,
                                  (void *)now.count_word.slice, (void *)now.third_word.slice);
}

static void call_write_job(void) {
    now.code = linres_write_job(now.p, (void *)now.f.slice, now.n, (void *)now.weights.slice, now.r, now.out.slice, now.out.size,
                                (void *)now.length_word.slice);
}

static void call_write_answer(void) {
    now.code = linres_write_answer(now.p, now.simple, (void *)now.f.slice, now.n, now.out.slice, now.out.size, (void *)now.length_word.slice);
}

static void run(enum function which) {
    static void (*const calls[FUNCTIONS])(void) = {call_text,        call_resolvent, call_lists,       call_read_job,
                                                   call_read_answer, call_write_job, call_write_answer};
    static unsigned char *stack;
    ucontext_t callee;
    if (!stack)
        stack = pages_between_guards(STACK);
    memset(stack, BYTE, STACK);
    getcontext(&callee);
    callee.uc_stack.ss_sp = stack;
    callee.uc_stack.ss_size = STACK;
    callee.uc_link = &caller;
    makecontext(&callee, calls[which], 0);
    swapcontext(&caller, &callee);
    size_t unused = 0;
    while (unused < STACK && stack[unused] == BYTE)
        unused++;
    if (most_stack[which] < STACK - unused)
        most_stack[which] = STACK - unused;
}

/* ---- reading what to call, and answering */

static int64_t number(void) {
    int64_t value;
    if (scanf("%" SCNd64, &value) != 1)
        exit(2);
    return value;
}

static void *memory(size_t size) {
    void *room = malloc(size + 1);
    if (!room)
        exit(2);
    return room;
}

static int32_t *read_words(size_t *count) {
    *count = (size_t)number();
    int32_t *words = memory(*count * sizeof *words);
    for (size_t i = 0; i < *count; i++)
        words[i] = (int32_t)number();
    return words;
}

/* The bytes that follow a line feed. */
static unsigned char *read_bytes(size_t size) {
    unsigned char *bytes = memory(size);
    getchar();
    if (fread(bytes, 1, size, stdin) != size)
        exit(2);
    return bytes;
}

static void print_words(const char *format, const void *words, size_t count) {
    for (size_t i = 0; i < count; i++)
        printf(format, ((const uint32_t *)words)[i]);
}

static void print_bytes(const unsigned char *bytes, size_t size) {
    for (size_t i = 0; i < size; i++)
        printf("%02x", bytes[i]);
    puts("");
}

/* The word that a call has written to a room of its own; adds what else it has touched there. */
static size_t word(struct room room, size_t *wrong) {
    size_t value = 0;
    memcpy(&value, room.slice, room.size);
    *wrong += touched(room, room.size);
    return value;
}

static void cost(void) {
    size_t r, wrong = 0, first = 0;
    int32_t *weights = read_words(&r);
    for (enum side side = END; side < SIDES; side++) {
        now = (struct call){.r = r, .weights = lend_copy(side, weights, r * sizeof *weights), .lists_word = lend(side, sizeof now.lists)};
        run(LISTS);
        size_t lists = word(now.lists_word, &wrong);
        wrong += changed(now.weights, weights) + (side != END && lists != first);
        first = lists;
    }
    printf("%" PRIu32 " %zu %zu\n", now.code, first, wrong);
    free(weights);
}

/* One call of linres_resolvent with f, the weights, and the output that it is to have written before, or a place for it. */
static size_t resolve(enum side side, const int32_t *f, const int32_t *weights, uint32_t *output) {
    size_t wrong = 0;
    now.f = lend_copy(side, f, now.n * sizeof *f);
    now.weights = lend_copy(side, weights, now.r * sizeof *weights);
    now.out = lend(side, now.out_len * sizeof *output);
    now.work = lend(side, now.work_len * sizeof *output);
    now.count_word = lend(side, sizeof now.count);
    now.simple_word = lend(side, sizeof now.simple);
    now.lists_word = lend(side, sizeof now.lists);
    run(RESOLVENT);
    now.count = word(now.count_word, &wrong);
    now.simple = (uint32_t)word(now.simple_word, &wrong);
    now.lists = (uint32_t)word(now.lists_word, &wrong);
    size_t cleared = now.code == 0 ? 12 * (now.count + 1) * sizeof *output : 0;
    for (size_t i = 0; i < cleared; i++)
        wrong += now.work.slice[i] != 0;
    return wrong + written_alike(side, output, now.out, now.count * sizeof *output) + touched(now.work, cleared) + changed(now.f, f) +
           changed(now.weights, weights);
}

static void numbers(void) {
    size_t n, r, wrong = 0;
    uint32_t p = (uint32_t)number();
    int32_t *f = read_words(&n), *weights = read_words(&r);
    size_t out_len = (size_t)number(), work_len = (size_t)number();
    uint32_t *output = memory(out_len * sizeof *output);
    struct call first = {0};
    for (enum side side = END; side < SIDES; side++) {
        now = (struct call){.p = p, .n = n, .r = r, .out_len = out_len, .work_len = work_len};
        wrong += resolve(side, f, weights, output);
        wrong += side != END && (now.code != first.code || now.count != first.count || now.simple != first.simple || now.lists != first.lists);
        first = now;
    }
    printf("%" PRIu32 " %zu %" PRIu32 " %" PRIu32 " %zu", now.code, now.count, now.simple, now.lists, wrong);
    print_words(" %" PRIu32, output, now.count);
    puts("");
    free(f);
    free(weights);
    free(output);
}

static void text(void) {
    size_t text_len = (size_t)number(), out_len = (size_t)number(), wrong = 0;
    unsigned char *bytes = read_bytes(text_len), *output = memory(out_len);
    for (enum side side = END; side < SIDES; side++) {
        size_t first = now.length;
        now = (struct call){.text = lend_copy(side, bytes, text_len), .out = lend(side, out_len)};
        run(ANSWER_TEXT);
        wrong += (side != END && now.length != first) + written_alike(side, output, now.out, now.length) + changed(now.text, bytes);
    }
    printf("%zu %zu ", now.length, wrong);
    print_bytes(output, now.length);
    free(bytes);
    free(output);
}

/* One call of a reader with the text, and the words that it is to have written before, or places for them. */
static size_t read_once(enum function which, enum side side, const unsigned char *bytes, size_t text_len, void *coeffs, void *weights) {
    size_t wrong = 0, word_size = sizeof now.code, third_size = which == READ_JOB ? sizeof now.third : sizeof now.simple;
    now.text = lend_copy(side, bytes, text_len);
    now.f = lend(side, now.n * word_size);
    now.weights = lend(side, now.r * word_size);
    now.modulus_word = lend(side, word_size);
    now.count_word = lend(side, sizeof now.count);
    now.third_word = lend(side, third_size);
    run(which);
    now.p = (uint32_t)word(now.modulus_word, &wrong);
    now.count = word(now.count_word, &wrong);
    now.third = word(now.third_word, &wrong);
    return wrong + changed(now.text, bytes) + written_alike(side, coeffs, now.f, now.count * word_size) +
           written_alike(side, weights, now.weights, which == READ_JOB ? now.third * word_size : 0);
}

static void read_record(enum function which) {
    size_t n = (size_t)number(), r = which == READ_JOB ? (size_t)number() : 0, text_len = (size_t)number(), wrong = 0;
    unsigned char *bytes = read_bytes(text_len);
    void *coeffs = memory(n * sizeof now.code), *weights = memory(r * sizeof now.code);
    struct call first = {0};
    for (enum side side = END; side < SIDES; side++) {
        now = (struct call){.n = n, .r = r};
        wrong += read_once(which, side, bytes, text_len, coeffs, weights);
        wrong += side != END && (now.code != first.code || now.p != first.p || now.count != first.count || now.third != first.third);
        first = now;
    }
    printf("%" PRIu32 " %" PRIu32 " %zu %zu %zu", now.code, now.p, now.count, now.third, wrong);
    print_words(" %" PRIu32, coeffs, now.count);
    print_words(" %" PRId32, weights, which == READ_JOB ? now.third : 0);
    puts("");
    free(bytes);
    free(coeffs);
    free(weights);
}

static void write_record(enum function which) {
    size_t n, r = 0, wrong = 0;
    uint32_t p = (uint32_t)number(), simple = which == WRITE_ANSWER ? (uint32_t)number() : 0;
    int32_t *coeffs = read_words(&n), *weights = which == WRITE_JOB ? read_words(&r) : memory(0);
    size_t out_len = (size_t)number();
    unsigned char *output = memory(out_len);
    struct call first = {0};
    for (enum side side = END; side < SIDES; side++) {
        now = (struct call){.p = p, .simple = simple, .n = n, .r = r, .out = lend(side, out_len), .length_word = lend(side, sizeof now.length)};
        now.f = lend_copy(side, coeffs, n * sizeof *coeffs);
        now.weights = lend_copy(side, weights, r * sizeof *weights);
        run(which);
        now.length = word(now.length_word, &wrong);
        wrong += side != END && (now.code != first.code || now.length != first.length);
        wrong += written_alike(side, output, now.out, now.length) + changed(now.f, coeffs) + changed(now.weights, weights);
        first = now;
    }
    printf("%" PRIu32 " %zu %zu ", now.code, now.length, wrong);
    print_bytes(output, now.length);
    free(coeffs);
    free(weights);
    free(output);
}

static void stack(void) {
    for (enum function which = 0; which < FUNCTIONS; which++)
        printf("%zu ", most_stack[which]);
    puts("");
}

int main(void) {
    char kind;
    while (scanf(" %c", &kind) == 1)
        if (kind == 'N')
            numbers();
        else if (kind == 'L')
            cost();
        else if (kind == 'T')
            text();
        else if (kind == 'J' || kind == 'A')
            read_record(kind == 'J' ? READ_JOB : READ_ANSWER);
        else if (kind == 'j' || kind == 'a')
            write_record(kind == 'j' ? WRITE_JOB : WRITE_ANSWER);
        else
            stack();
    return 0;
}
