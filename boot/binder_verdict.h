/* The verdict on a binder file, for boot code. */
#ifndef BINDER_VERDICT_H
#define BINDER_VERDICT_H

#include <stddef.h>
#include <stdint.h>

/*
 * 0 for admitted, otherwise the refusal's number times 65,536 plus a detail below 65,536: the byte offset in the
 * file for refusals 1 to 6, the length for refusal 8, and 0 for refusal 9.
 *
 * `bytes` is never null, also where `length` is 0. The bytes are only read, and nothing else is; no memory is taken.
 */
uint32_t binder_verdict(const uint8_t *bytes, size_t length);

#endif
