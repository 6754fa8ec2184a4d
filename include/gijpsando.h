/*
 * Check, for callers in C: is a formula for a bilinear map right for every input, and how many adders does it need?
 *
 * Link with target/staticlib/libservice.a, which `command/build service` proves and writes. Both calls are total: they take any input,
 * keep nothing between calls, allocate nothing, and write only what is said below. Buffers must not overlap.
 *
 * Refusals, the first that applies: 1 the first two lines are not as they should be; 2 the kind is unknown, or is list; 3 a size misfits;
 * 5 lines or lists of the wrong number or shape; 6 a bit outside the width; 7 a factor is zero; 8 more than 64 products; 9 too short a
 * buffer for the reply.
 */
#ifndef GIJPSANDO_H
#define GIJPSANDO_H

#include <stddef.h>
#include <stdint.h>

#ifdef __cplusplus
extern "C" {
#endif

/* The numbers of the kinds. A list (4) has no formulae: it is refused by 2. */
enum { GIJPSANDO_POLY = 0, GIJPSANDO_SHORT = 1, GIJPSANDO_CIRC = 2, GIJPSANDO_MAT = 3, GIJPSANDO_MID = 5 };

/* No text that gijpsando_check writes is as short as this, and no refusal's number is above it. */
enum { GIJPSANDO_LARGEST_REFUSAL = 35 };

/*
 * Check of a formula's file, handed in as file_len bytes. What the Check program would print goes to out, from its start, and the reply is
 * the number of bytes written, always above 35; the rest of out keeps its values. 256 bytes are always enough. Or the reply is a refusal's
 * number, and out is unchanged.
 */
size_t gijpsando_check(const uint8_t *file, size_t file_len, uint8_t *out, size_t out_len);

/*
 * Check on numbers: the kind by its number, its sizes p, q, r, and k products. a and b hold the masks of their factors, k words each, and
 * rows a row for each output, whose bit i stands for product i. The reply is 0, and then
 *   reply[0] is 0 for right and 1 for wrong, reply[1] the first output that differs for some input (0 where right), reply[2] the adders:
 *   of w ones w - 1, each distinct mask of a counted once, each distinct mask of b once, and every row;
 * and the rest of reply keeps its values; or it is a refusal's number, and reply is unchanged. Fewer than 3 words are refused by 9.
 */
uint64_t gijpsando_check_numbers(uint64_t kind, uint64_t p, uint64_t q, uint64_t r, uint64_t k, const uint64_t *a, size_t a_len,
                                 const uint64_t *b, size_t b_len, const uint64_t *rows, size_t rows_len, uint64_t *reply,
                                 size_t reply_len);

#ifdef __cplusplus
}
#endif

#endif
