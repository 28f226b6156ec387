/* libexport.a: bytes of a BINR line listed, frames written, messages judged.
 *
 * A call that fills a buffer returns the length, or a refusal's number with a minus; refused, it
 * writes no byte. The two regions of a call must not overlap. A pointer must be valid even where
 * its length is 0. */
#ifndef BINR_H
#define BINR_H

#include <stddef.h>
#include <stdint.h>

#ifdef __cplusplus
extern "C" {
#endif

/* The listing of the bytes, as listoff (mode 0) and liston (mode 1) print it. -1: the mode. -13: the buffer. */
int64_t binr_list(uint8_t mode, const uint8_t *bytes, size_t length, uint8_t *out, size_t room);

/* The frame of a message. -1: the mode. -10, -11, -12: the message. -13: the buffer. */
int64_t binr_write(uint8_t mode, uint8_t id, const uint8_t *data, size_t length, uint8_t *out, size_t room);

/* 0 of an acceptable message, else 10 (identifier), 11 (length) or 12 (a field). */
uint8_t binr_judge(uint8_t id, const uint8_t *data, size_t length);

/* How many events the bytes raise. */
uint64_t binr_count(uint8_t mode, const uint8_t *bytes, size_t length);

#ifdef __cplusplus
}
#endif

#endif
