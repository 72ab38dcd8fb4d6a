/* The payload of a downstream PLOAM cell, read strictly. */

#ifndef PAYLOAD_H
#define PAYLOAD_H

#include <stddef.h>
#include <stdint.h>

#ifdef __cplusplus
extern "C" {
#endif

/* Bytes of the payload of one cell. */
#define PAYLOAD_CELL 48

/* What the two functions answer. */
#define PAYLOAD_OK 0       /* the cell is sound */
#define PAYLOAD_LENGTH 15  /* the length is not 48 */
#define PAYLOAD_CHECK 16   /* a check byte is wrong, of the grants or of the message */
#define PAYLOAD_MESSAGE 17 /* the message is unknown, or its address or a field is out of range */

/*
 * Reads the cell of `length` bytes at `bytes` and gives the first fault found,
 * or PAYLOAD_OK. The length is asked first, then the check bytes of the four
 * groups of grants, then that of the message, then the message. `bytes` must
 * not be null, also where `length` is 0.
 */
uint32_t payload_check(const uint8_t *bytes, size_t length);

/*
 * Reads the cell of `in_length` bytes at `in` and writes its contents again to
 * the `out_length` bytes at `out`: bytes without a meaning become zero, and all
 * check bytes are computed anew. Gives PAYLOAD_OK, or why the cell is refused,
 * or, for a sound cell, PAYLOAD_LENGTH when `out_length` is not 48. Nothing is
 * written unless the answer is PAYLOAD_OK. `in` and `out` must not be null and
 * must not overlap.
 */
uint32_t payload_rewrite(const uint8_t *in, size_t in_length, uint8_t *out, size_t out_length);

#ifdef __cplusplus
}
#endif

#endif
