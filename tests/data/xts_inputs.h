/*
 * The inputs of xts_cases.bin and its layout, for the generators beside it.
 * A generator gives write_cases a function that seals one frame and one that
 * opens it; everything else is the same for each, so equal ciphers give equal files.
 *
 * The file, all numbers least significant byte first:
 *
 *     8 bytes     the letters SAVEXTS and a byte 1, the layout's version
 *     4 bytes     the number of cases
 *     then for each case:
 *     1 byte      the length of the pair: 32, 48 or 64
 *     32, 48, 64  the pair: data key, then tweak key
 *     8 bytes     the frame number
 *     128 bytes   the plain frame
 *     128 bytes   the sealed frame
 *
 * and nothing after the last case. Everything is stored, so that a reader needs
 * to derive nothing.
 */
#ifndef XTS_INPUTS_H
#define XTS_INPUTS_H

#include <cstddef>
#include <cstdint>
#include <cstdio>
#include <cstdlib>
#include <cstring>

const size_t FRAME = 128;
const size_t CASES_OF_EACH_LENGTH = 700;

typedef void frame_function(const uint8_t *pair, size_t pair_len, uint64_t number, const uint8_t *in, uint8_t *out);

/* xorshift64* (Vigna): enough to spread the inputs, and the same everywhere. */
static uint64_t random_state = 0x5341564543415244u;

static uint64_t random_number()
{
    random_state ^= random_state >> 12;
    random_state ^= random_state << 25;
    random_state ^= random_state >> 27;
    return random_state * 0x2545f4914f6cdd1du;
}

static void random_bytes(uint8_t *bytes, size_t len)
{
    for (size_t i = 0; i < len; i++) {
        bytes[i] = (uint8_t)(random_number() >> 56);
    }
}

static void put_number(uint8_t *bytes, size_t len, uint64_t number)
{
    for (size_t i = 0; i < len; i++) {
        bytes[i] = (uint8_t)(number >> (8 * i));
    }
}

/* The frame number of a case: the edges, then each power of two, then random ones,
 * every second of them a number that a card of 1,024 frames has. */
static uint64_t number_of(size_t index)
{
    static const uint64_t edges[] = {
        0, 1, 2, 127, 128, 255, 256, 257, 1022, 1023, 1024, 65535, 65536,
        0x7fffffffu, 0x80000000u, 0xffffffffu, 0x100000000u, 0x100000001u,
        0x00ffffffffffffffu, 0x7fffffffffffffffu, 0x8000000000000000u,
        0x8000000000000001u, 0xfffffffffffffffeu, 0xffffffffffffffffu,
    };
    const size_t count = sizeof edges / sizeof edges[0];
    uint64_t drawn = random_number();

    if (index < count) {
        return edges[index];
    }
    if (index < count + 64) {
        return (uint64_t)1 << (index - count);
    }
    return index % 2 == 0 ? drawn : drawn >> 54;
}

/* Pairs and frames are random but for 18 cases of regular ones, at the lowest and the highest
 * number: all bytes 0, all 255, or (pairs) equal halves, or (frames) eight equal blocks. */
const size_t FIRST_REGULAR = 100;
const size_t REGULAR = 18;

static void make_regular(size_t index, uint8_t *pair, size_t pair_len, uint64_t *number, uint8_t *plain)
{
    *number = index % 2 == 0 ? 0 : 0xffffffffffffffffu;
    switch (index / 2 % 3) {
    case 0: memset(pair, 0, pair_len); break;
    case 1: memset(pair, 255, pair_len); break;
    case 2: memcpy(pair + pair_len / 2, pair, pair_len / 2); break;
    }
    switch (index / 6 % 3) {
    case 0: memset(plain, 0, FRAME); break;
    case 1: memset(plain, 255, FRAME); break;
    case 2:
        for (size_t i = 16; i < FRAME; i++) {
            plain[i] = plain[i - 16];
        }
        break;
    }
}

static void put(const uint8_t *bytes, size_t len)
{
    if (fwrite(bytes, 1, len, stdout) != len) {
        fprintf(stderr, "cannot write\n");
        exit(1);
    }
}

static void write_cases(frame_function *seal, frame_function *open)
{
    static const size_t lengths[] = {32, 48, 64};
    uint8_t header[12] = {'S', 'A', 'V', 'E', 'X', 'T', 'S', 1};

    put_number(header + 8, 4, 3 * CASES_OF_EACH_LENGTH);
    put(header, sizeof header);

    for (size_t pair_len : lengths) {
        for (size_t index = 0; index < CASES_OF_EACH_LENGTH; index++) {
            uint8_t pair[64], plain[FRAME], sealed[FRAME], opened[FRAME], bytes[8];
            uint64_t number = number_of(index);
            uint8_t length = (uint8_t)pair_len;

            random_bytes(pair, pair_len);
            random_bytes(plain, FRAME);
            if (index >= FIRST_REGULAR && index < FIRST_REGULAR + REGULAR) {
                make_regular(index - FIRST_REGULAR, pair, pair_len, &number, plain);
            }

            seal(pair, pair_len, number, plain, sealed);
            open(pair, pair_len, number, sealed, opened);
            if (memcmp(opened, plain, FRAME) != 0) {
                fprintf(stderr, "the library does not open what it sealed\n");
                exit(1);
            }

            put_number(bytes, sizeof bytes, number);
            put(&length, 1);
            put(pair, pair_len);
            put(bytes, sizeof bytes);
            put(plain, FRAME);
            put(sealed, FRAME);
        }
    }
    if (fflush(stdout) != 0) {
        fprintf(stderr, "cannot write\n");
        exit(1);
    }
}

#endif
