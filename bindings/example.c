/* Document 01's example, as records and in numbers, with what it costs, behind wrappers that test what C can test of what linres.h asks:
   that nothing is missing and that nothing which is written lies over an input. It is C and C++.

   bindings/build && cc -Ibindings -o target/example bindings/example.c target/lib/liblinres.a && target/example */
#include <stdbool.h>
#include <stdio.h>
#include <string.h>

#include "linres.h"

static bool apart(const void *a, size_t a_size, const void *b, size_t b_size) {
    uintptr_t x = (uintptr_t)a, y = (uintptr_t)b;
    return x + a_size <= y || y + b_size <= x;
}

/* The answer to a text as a string in out, or false where an argument is missing, out lies over the text or is too short. */
static bool answer(const char *text, char *out, size_t out_size) {
    if (!text || !out || out_size == 0 || !apart(text, strlen(text) + 1, out, out_size))
        return false;
    size_t length = linres_answer_text((const uint8_t *)text, strlen(text), (uint8_t *)out, out_size - 1);
    out[length] = '\0';
    return length != 0;
}

struct resolvent {
    uint32_t code, simple, lists;
    size_t count;
    uint32_t coefficients[LINRES_OUTPUT];
};

/* The resolvent of f, or false where an argument is missing or the result lies over f or the weights. The rooms are the result's and
   its own, so none is too short. */
static bool resolve(uint32_t p, const uint32_t *f, size_t n, const int32_t *weights, size_t r, struct resolvent *result) {
    uint32_t work[LINRES_WORK];
    if (!f || !weights || !result)
        return false;
    if (!apart(f, n * sizeof *f, result, sizeof *result) || !apart(weights, r * sizeof *weights, result, sizeof *result))
        return false;
    result->code = linres_resolvent(p, f, n, weights, r, result->coefficients, LINRES_OUTPUT, work, LINRES_WORK,
                                    &result->count, &result->simple, &result->lists);
    return true;
}

/* The number of weight lists that a job with these weights is worked by, or false where none is worked or lists lies over the weights. */
static bool cost(const int32_t *weights, size_t r, uint32_t *lists) {
    return weights && lists && apart(weights, r * sizeof *weights, lists, sizeof *lists) && linres_lists(weights, r, lists) == LINRES_DONE;
}

/* The job record as a string in out, or false where an argument is missing, out lies over f or the weights or is too short, or no record
   holds the values. */
static bool write_job(uint32_t p, const uint32_t *f, size_t n, const int32_t *weights, size_t r, char *out, size_t out_size) {
    size_t length;
    if (!f || !weights || !out || out_size == 0)
        return false;
    if (!apart(f, n * sizeof *f, out, out_size) || !apart(weights, r * sizeof *weights, out, out_size))
        return false;
    if (linres_write_job(p, f, n, weights, r, (uint8_t *)out, out_size - 1, &length) != LINRES_DONE)
        return false;
    out[length] = '\0';
    return true;
}

/* The resolvent that an answer record tells, which says nothing of the lists, or false where an argument is missing, the result lies over the
   text, or this is no answer record. */
static bool read_answer(const char *text, uint32_t *p, struct resolvent *result) {
    if (!text || !p || !result || !apart(text, strlen(text) + 1, result, sizeof *result))
        return false;
    if (!apart(p, sizeof *p, result, sizeof *result) || !apart(p, sizeof *p, text, strlen(text) + 1))
        return false;
    result->lists = 0;
    result->code = linres_read_answer((const uint8_t *)text, strlen(text), result->coefficients, LINRES_OUTPUT, p, &result->count,
                                      &result->simple);
    return result->code == LINRES_DONE;
}

/* Each wrapper is lent an input and, over it, the place of its result: each says false and leaves the input as it was. */
static bool refuses_shared_places(void) {
    static const int32_t other[] = {1, 1};
    static char text[LINRES_TEXT + 1] = "modulus=257\n";
    static union {
        uint32_t f[4];
        int32_t weights[2];
        uint32_t word;
        char text[LINRES_TEXT + 1];
        struct resolvent result;
    } shared, before;
    uint32_t p;
    strcpy(shared.text, "modulus=257\ndegree=1\nsimple=yes\ncoeffs=5\n");
    before = shared;
    return !answer(text, text, sizeof text) && !answer(text + 11, text, sizeof text) && !cost(shared.weights, 2, &shared.word) &&
           !resolve(257, shared.f, 4, other, 2, &shared.result) &&
           !resolve(257, (const uint32_t *)other, 2, shared.weights, 2, &shared.result) &&
           !write_job(257, shared.f, 4, other, 2, shared.text, sizeof shared.text) &&
           !write_job(257, (const uint32_t *)other, 2, shared.weights, 2, shared.text, sizeof shared.text) &&
           !read_answer(shared.text, &p, &shared.result) && !read_answer(shared.text, &shared.word, &shared.result) &&
           memcmp(&before, &shared, sizeof shared) == 0 && strcmp(text, "modulus=257\n") == 0;
}

static void print(const struct resolvent *result) {
    printf("code %u, N = %zu, simple %u, lists %u:", result->code, result->count, result->simple, result->lists);
    for (size_t i = 0; i < result->count; i++)
        printf(" %u", result->coefficients[i]);
    puts("");
}

int main(void) {
    static const uint32_t f[] = {0, 0, 0, 256};
    static const int32_t weights[] = {1, 1};
    static char job[LINRES_TEXT + 1], text[LINRES_TEXT + 1];
    if (!write_job(257, f, 4, weights, 2, job, sizeof job) || !answer(job, text, sizeof text))
        return 1;
    printf("%s%s", job, text);

    static struct resolvent result;
    uint32_t lists, p;
    if (!cost(weights, 2, &lists) || !resolve(257, f, 4, weights, 2, &result))
        return 1;
    printf("%u lists to work\n", lists);
    print(&result);
    if (!read_answer(text, &p, &result))
        return 1;
    printf("read back, modulus %u, ", p);
    print(&result);

    if (!refuses_shared_places())
        return 1;
    puts("a result lent over an input is refused");
    return 0;
}
