#ifndef PLAIN_H
#define PLAIN_H
#include <stddef.h>
#include <stdint.h>

enum { MAX_DEGREE = 12, MAX_WEIGHTS = 6, MAX_PLACEMENTS = 1024 };

/* The number of placements of r weights, r at most n, on n positions. */
uint32_t plain_placements(size_t n, const int32_t *w, size_t r);

/* Document 01's definition, rule by rule, for a job that is not refused: p the modulus, c the n
   coefficients, w the r weights. Writes b1 to bN and returns N. Not for two threads at once. */
int plain_resolvent(uint32_t p, const uint32_t *c, size_t n, const int32_t *w, size_t r, uint32_t *out);

#endif
