/* linres for programs in C and C++: the functions of the crate exports, from the libraries liblinres.a and liblinres.so that bindings/build
   makes in target/lib. x86-64 Linux.

   A slice is two arguments, its place and its length. What is proved of these functions holds for callers that keep what
   Rattle's borrow checker asks, and C has nobody to check it:

   - a place is not null, is aligned for its type and has as many elements as its length says, at most 2^63 - 1 bytes; of an
     empty slice it is not read, but must not be null either;
   - the slices and words that a call may write share no byte with each other or with any other argument;
   - no other thread uses them during the call.

   Every call that keeps this is answered or refused; there is nothing else to test. The functions keep no state, so any
   number of threads may call them. */
#ifndef LINRES_H
#define LINRES_H
#include <stddef.h>
#include <stdint.h>

/* The version of what this file declares. The first number goes up where a call from before no longer compiles or is answered otherwise, the
   second where something is added. */
#define LINRES_VERSION_MAJOR 1
#define LINRES_VERSION_MINOR 1
#define LINRES_VERSION "1.1"

/* The most words of output, the most words of work room and the most bytes of text that a call can ask for, and the most numbers in a list
   of a job record. */
enum { LINRES_OUTPUT = 1024, LINRES_WORK = 12 * (LINRES_OUTPUT + 1), LINRES_TEXT = 11313, LINRES_NUMBERS = 64 };

/* Bytes of stack that were enough for each function on every call that was tried, with the largest jobs among them: some more than the 118392, 64488,
   1288, 984, 4456, 624 and 640 that were measured. tests/exports measures again; nothing is proved of it. */
enum {
    LINRES_STACK_ANSWER_TEXT = 122880,
    LINRES_STACK_RESOLVENT = 67584,
    LINRES_STACK_LISTS = 2048,
    LINRES_STACK_READ_JOB = 2048,
    LINRES_STACK_READ_ANSWER = 5120,
    LINRES_STACK_WRITE_JOB = 1024,
    LINRES_STACK_WRITE_ANSWER = 1024
};

/* The numbers of document 01's table, with what each says. linres_resolvent gives 2 to 12 and 16, linres_lists 6 and 8, a line
   `refused=` of linres_answer_text 1 to 10, a reader of records 13 and 1, a writer 15 and 14. The first rule broken decides, in these orders. */
enum linres_code {
    LINRES_DONE = 0,            /* done */
    LINRES_NO_RECORD = 1,       /* the text is not a record as the rules have it: four lines, numbers without leading zeros, lists without blanks */
    LINRES_MODULUS_RANGE = 2,   /* the modulus is below 257 or above 2147483647 */
    LINRES_MODULUS_PRIME = 3,   /* the modulus is not prime */
    LINRES_DEGREE = 4,          /* the degree is 0 or above 12 */
    LINRES_COEFFICIENT = 5,     /* a coefficient is not below the modulus */
    LINRES_WEIGHT_COUNT = 6,    /* there is no weight, or there are more than 6 */
    LINRES_WEIGHTS_DEGREE = 7,  /* there are more weights than the degree */
    LINRES_WEIGHT = 8,          /* a weight is 0 or outside -16 to 16 */
    LINRES_PLACEMENTS = 9,      /* the resolvent would have a degree N above 1024 */
    LINRES_SMALL_MODULUS = 10,  /* the degree N of the resolvent is not below the modulus */
    LINRES_SHORT_OUTPUT = 11,   /* out has fewer than N words */
    LINRES_SHORT_WORK = 12,     /* work has fewer than 12(N + 1) words */
    LINRES_SHORT_SLICE = 13,    /* a slice lent to a reader is too short */
    LINRES_SHORT_BYTES = 14,    /* the bytes lent to a writer are too few */
    LINRES_UNWRITABLE = 15,     /* the record cannot hold the values */
    LINRES_ZERO_DIVISOR = 16    /* a number to divide by is zero modulo p */
};

#ifdef __cplusplus
extern "C" {
#endif

/* What the program linres writes where it reads the text: an answer record, or a line `refused=K`. It goes to the front of out,
   and its length comes back. 0 comes back where out is too short, and out is as it was; LINRES_TEXT bytes are always enough. */
size_t linres_answer_text(const uint8_t *text, size_t text_len, uint8_t *out, size_t out_len);

/* The resolvent of f = x^n + f[0] x^(n-1) + .. for the r weights, modulo p. The number of document 01's table comes back (2 to 12,
   or 16), or 0. At 0, *count is N, *simple is 1 (yes) or 0 (no), *lists is the number of weight lists worked, the first N words of out
   are b1 to bN, the first 12(N + 1) words of work are 0, and later words of both are as they were. Else *count, *simple and *lists are
   0, and out and work are as they were. */
uint32_t linres_resolvent(uint32_t p, const uint32_t *f, size_t n, const int32_t *weights, size_t r, uint32_t *out,
                          size_t out_len, uint32_t *work, size_t work_len, size_t *count, uint32_t *simple, uint32_t *lists);

/* What a job with these weights costs, told without working it: 0 comes back and *lists is what linres_resolvent says of every job with
   them that it answers, from 2 to 1957. Or the number of row 6 or 8 of document 01's table comes back, and *lists is 0: no job with these
   weights is answered, and one that linres_resolvent refuses by row 6 or 8 it refuses by that number. */
uint32_t linres_lists(const int32_t *weights, size_t r, uint32_t *lists);

/* Reads the text as a job record. 13 comes back where one of the two slices has fewer than LINRES_NUMBERS words, 1 where the text is no job,
   or 0. At 0, *modulus is the job's, the first *degree words of coeffs are its coefficients and the first *weight_count words of weights
   its weights, and later words of both are as they were. Else *modulus, *degree and *weight_count are 0, and both slices are as they were.
   A job record can hold values that linres_resolvent refuses. */
uint32_t linres_read_job(const uint8_t *text, size_t text_len, uint32_t *coeffs, size_t coeffs_len, int32_t *weights, size_t weights_len,
                         uint32_t *modulus, size_t *degree, size_t *weight_count);

/* Reads the text as an answer record. 13 comes back where coeffs has fewer than LINRES_OUTPUT words, 1 where the text is no answer, or 0. At
   0, *modulus is the answer's, *simple is 1 (yes) or 0 (no), the first *degree words of coeffs are its coefficients, and later words
   are as they were. Else *modulus, *degree and *simple are 0, and coeffs is as it was. */
uint32_t linres_read_answer(const uint8_t *text, size_t text_len, uint32_t *coeffs, size_t coeffs_len, uint32_t *modulus, size_t *degree,
                            uint32_t *simple);

/* Writes the job record of these values. 15 comes back where it cannot hold them: there are none or more than LINRES_NUMBERS coefficients or
   weights, or a weight is outside -999 to 999; else 14 where out is too short for it, or 0. At 0 the record stands at the front of
   out, *len is its length, and later bytes are as they were. Else *len is 0, and out is as it was. The longest job has 1068 bytes. */
uint32_t linres_write_job(uint32_t modulus, const uint32_t *coeffs, size_t n, const int32_t *weights, size_t r, uint8_t *out,
                          size_t out_len, size_t *len);

/* Writes the answer record of these values; simple is 1 (yes) or 0 (no). 15 comes back where the record cannot hold them: there are no
   coefficients or more than LINRES_OUTPUT, or simple is another word; else 14 where out is too short for it, or 0. The rest is as with
   linres_write_job; LINRES_TEXT bytes are always enough. */
uint32_t linres_write_answer(uint32_t modulus, uint32_t simple, const uint32_t *coeffs, size_t n, uint8_t *out, size_t out_len, size_t *len);

#ifdef __cplusplus
}
#endif

#endif
