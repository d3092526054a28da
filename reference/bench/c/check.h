/* check.h - the check of one node by hand, with SSE2 and with AVX2 intrinsics.
 *
 * A baseline for the benchmark: at most two deviations, costs added, p 2 to 6, degree 2 to 32.
 * Arguments, answer, refusals and record are those of petsivola_check (include/petsivola.h).
 */
#ifndef HAND_CHECK_H
#define HAND_CHECK_H

#include <stddef.h>
#include <stdint.h>

uint32_t hand_check_sse2(uint8_t p,
                         const uint8_t *weights, size_t weights_len,
                         const uint8_t *costs, size_t costs_len,
                         uint8_t *record, size_t record_len);

/* For processors that have AVX2 only. */
uint32_t hand_check_avx2(uint8_t p,
                         const uint8_t *weights, size_t weights_len,
                         const uint8_t *costs, size_t costs_len,
                         uint8_t *record, size_t record_len);

#endif
