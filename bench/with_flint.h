#ifndef WITH_FLINT_H
#define WITH_FLINT_H
#include <stddef.h>
#include <stdint.h>

/* Two roads to the resolvent over FLINT, in plain_resolvent's form: for a job that is not refused; b1
   to bN are written and N comes back. Not for two threads at once. */

/* By power sums, as the definition goes. */
int flint_series(uint32_t p, const uint32_t *c, size_t n, const int32_t *w, size_t r, uint32_t *out);

/* By factoring f and finding its zeros. */
int flint_factors(uint32_t p, const uint32_t *c, size_t n, const int32_t *w, size_t r, uint32_t *out);

#endif
