/*
 * savecard.h: sealing and opening the frames of a save card.
 *
 * A frame is 128 bytes. Sealing is XTS as IEEE 1619 defines it, with the
 * block cipher Camellia (RFC 3713) in the place of AES; opening undoes it.
 * Each call seals or opens one frame in place.
 *
 *     #include <stdio.h>
 *     #include <string.h>
 *     #include "savecard.h"
 *
 *     static int seal_frame_7(const uint8_t secret[SAVECARD_PAIR_256],
 *                             uint8_t frame[SAVECARD_FRAME])
 *     {
 *         uint8_t pair[SAVECARD_PAIR_256];
 *         uint32_t refused;
 *
 *         memcpy(pair, secret, sizeof pair);       // the call zeroes its copy
 *         refused = savecard_seal_long(pair, sizeof pair, 7, frame, SAVECARD_FRAME);
 *         if (refused != SAVECARD_OK) {
 *             fprintf(stderr, "not sealed: %lu\n", (unsigned long)refused);
 *             return -1;
 *         }
 *         return 0;
 *     }
 *
 * Link with libhosts.a and nothing else.
 */
#ifndef SAVECARD_H
#define SAVECARD_H

#include <stddef.h>
#include <stdint.h>

#ifdef __cplusplus
extern "C" {
#endif

/* What a call returns. No other number is returned. */
#define SAVECARD_OK           0u /* the frame is sealed, or opened */
#define SAVECARD_PAIR_LENGTH  2u /* refused: the pair is not 32, 48 or 64 bytes long */
#define SAVECARD_FRAME_LENGTH 3u /* refused: the pair's length is right, and the frame is not 128 bytes long */

/* The length of a frame in bytes. */
#define SAVECARD_FRAME 128

/* The length in bytes of a pair of keys of 128, 192 or 256 bits. */
#define SAVECARD_PAIR_128 32
#define SAVECARD_PAIR_192 48
#define SAVECARD_PAIR_256 64

/*
 * All six functions have the same parameters.
 *
 *   pair, pair_len    Two keys of equal length, one after the other: the first
 *                     half is the data key, the second half the tweak key. The
 *                     length chooses Camellia with keys of 128, 192 or 256 bits.
 *   frame             The number of the frame on its card, any of 64 bits. XTS
 *                     takes it as the data unit number: 16 bytes, the least
 *                     significant first. A frame opens only under the number
 *                     that it was sealed under.
 *   bytes, bytes_len  The frame, changed in place.
 *
 * The pair is always zeroed. Whatever a call returns, all pair_len bytes of the
 * pair are zero afterwards, so pass a copy if you need the pair again.
 *
 * A refused call leaves the bytes of the frame as they were. If both lengths are
 * wrong the answer is SAVECARD_PAIR_LENGTH.
 *
 * The two ranges must not overlap. They may touch, and need no alignment.
 *
 * Lengths are looked at before anything else. So NULL with length 0 is refused
 * like any other wrong length: as the pair with SAVECARD_PAIR_LENGTH, as the
 * frame, beside a pair of a right length, with SAVECARD_FRAME_LENGTH. NULL with
 * another length is an error of the caller, as is a length that is greater than
 * the memory behind its pointer; neither can be noticed.
 *
 * XTS does not tell whether a frame is genuine. Opening under another pair or
 * number, or a frame that was changed since, returns SAVECARD_OK and gives other
 * bytes.
 *
 * The functions keep nothing between calls and allocate nothing: threads may call
 * them at the same time on ranges that they do not share.
 *
 * The names end in the way that Camellia is computed: on bytes with one small
 * table, on 32-bit words, or on 64-bit words with larger tables. All three give
 * the same bytes, so a frame sealed by one may be opened by another.
 */
uint32_t savecard_seal_byte(uint8_t *pair, size_t pair_len, uint64_t frame, uint8_t *bytes, size_t bytes_len);
uint32_t savecard_seal_word(uint8_t *pair, size_t pair_len, uint64_t frame, uint8_t *bytes, size_t bytes_len);
uint32_t savecard_seal_long(uint8_t *pair, size_t pair_len, uint64_t frame, uint8_t *bytes, size_t bytes_len);

uint32_t savecard_open_byte(uint8_t *pair, size_t pair_len, uint64_t frame, uint8_t *bytes, size_t bytes_len);
uint32_t savecard_open_word(uint8_t *pair, size_t pair_len, uint64_t frame, uint8_t *bytes, size_t bytes_len);
uint32_t savecard_open_long(uint8_t *pair, size_t pair_len, uint64_t frame, uint8_t *bytes, size_t bytes_len);

#ifdef __cplusplus
}
#endif

#endif
