/* The functions of calls.rt.in: keys set up once, then `rounds` times on the same 128 bytes. 0 if done. */
#ifndef BENCH_CALLS_H
#define BENCH_CALLS_H

#include <stddef.h>
#include <stdint.h>

typedef uint32_t bench_function(const uint8_t *key, size_t key_len, uint64_t rounds, uint8_t *bytes, size_t len);
/* rounds of setting the key, its first byte replaced by the round's number, then one of enciphering */
typedef uint32_t bench_key_function(uint8_t *key, size_t key_len, uint64_t rounds, uint8_t *bytes, size_t len);

extern "C" {
bench_function bench_encipher_byte, bench_encipher_word, bench_encipher_long;
bench_function bench_decipher_byte, bench_decipher_word, bench_decipher_long;
bench_key_function bench_schedule_byte, bench_schedule_word, bench_schedule_long;
bench_function bench_seal_byte, bench_seal_word, bench_seal_long;
bench_function bench_open_byte, bench_open_word, bench_open_long;
}

#endif
