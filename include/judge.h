/* The call from C: judging a scheme for a set of patterns, both as texts in the notation of
   document 01 (docs/SOURCES.md). */
#ifndef JUDGE_H
#define JUDGE_H

#include <stddef.h>
#include <stdint.h>

#ifdef __cplusplus
extern "C" {
#endif

/* Returns 0 if the scheme is accepted: it is well-formed and all its claims are true at every
   length. Otherwise it returns the number of the refusal, 1 to 11. The texts may have any length
   and content; they are only read. A text of no bytes may have a null pointer.
   A thread that calls it needs a stack of 512 KiB. */
uint32_t judge(const uint8_t *patterns, size_t patterns_length, const uint8_t *scheme,
               size_t scheme_length);

#ifdef __cplusplus
}
#endif

#endif
