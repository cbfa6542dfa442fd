/* The check of a day file, for C. docs/C-CALL.md says how to link it and what the reply means. */
#ifndef DAY_FILE_H
#define DAY_FILE_H

#include <stddef.h>
#include <stdint.h>

#ifdef __cplusplus
extern "C" {
#endif

/* Checks the `length` bytes at `bytes`, which is never null, at length 0 too. It reads these bytes and nothing else,
   writes nothing and allocates nothing. The reply is 0 for a file that is accepted; else the refusal's number times
   65,536, plus its place in the file. */
uint32_t day_file_check(const uint8_t *bytes, size_t length);

/* The two parts of a reply that is not 0. */
static inline uint32_t day_file_refusal(uint32_t reply) { return reply >> 16; }
static inline uint32_t day_file_place(uint32_t reply) { return reply & 65535u; }

#ifdef __cplusplus
}
#endif

#endif
