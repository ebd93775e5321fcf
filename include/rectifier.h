/* The calls of a C host: a pair of sheets is read, and matched at one input word.
 *
 * `pair` points to `length` bytes; for an empty pair pass the address of any byte and 0, never a null pointer.
 * Both answer the number of a refusal (docs/REFUSALS.md) where the call is refused.
 */
#ifndef RECTIFIER_H
#define RECTIFIER_H

#include <stddef.h>
#include <stdint.h>

#define RECTIFIER_READ 0
#define RECTIFIER_YES 100
#define RECTIFIER_NO 101

#ifdef __cplusplus
extern "C" {
#endif

/* 0 where the bytes are a pair of sheets, else the number of the first fault. */
uint32_t rectifier_read(const uint8_t *pair, size_t length);

/* Reads first. 100 where target, under the setting, and specification give equal outputs at the input word, 101 where they differ. */
uint32_t rectifier_match(const uint8_t *pair, size_t length, uint64_t setting, uint64_t word);

#ifdef __cplusplus
}
#endif
#endif
