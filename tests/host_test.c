/*
 * Tests the six functions of savecard.h: host_test CASES, where CASES is the
 * file tests/data/xts_cases.bin (its layout stands in tests/data/xts_inputs.h).
 *
 * A line for each check that failed, and last 'N passed, M failed'. The status
 * is 0 only if none failed.
 */
#include <stdio.h>
#include <stdlib.h>
#include <string.h>

#include "savecard.h"

#define GUARD 64        /* bytes before and after a range that must stay as they are */
#define GUARD_BYTE 0xa5
#define MAX_PAIR 70     /* the longest pair that is tried */
#define MAX_FRAME 130   /* the longest frame that is tried */

typedef uint32_t frame_function(uint8_t *pair, size_t pair_len, uint64_t frame, uint8_t *bytes, size_t bytes_len);

static const struct function {
    const char *name;
    frame_function *call;
    int opens;
} functions[] = {
    {"savecard_seal_byte", savecard_seal_byte, 0},
    {"savecard_seal_word", savecard_seal_word, 0},
    {"savecard_seal_long", savecard_seal_long, 0},
    {"savecard_open_byte", savecard_open_byte, 1},
    {"savecard_open_word", savecard_open_word, 1},
    {"savecard_open_long", savecard_open_long, 1},
};

#define FUNCTIONS (sizeof functions / sizeof functions[0])

/* A stored case. */
struct sample {
    uint8_t pair[SAVECARD_PAIR_256];
    size_t pair_len;
    uint64_t number;
    uint8_t plain[SAVECARD_FRAME];
    uint8_t sealed[SAVECARD_FRAME];
};

static unsigned long passed;
static unsigned long failed;

/* Counts a check. What went wrong is NULL if nothing did; a and b say where. */
static void count(const char *wrong, const char *name, const char *check, unsigned long a, unsigned long b)
{
    if (wrong == NULL) {
        passed++;
    } else {
        failed++;
        printf("FAILED: %s: %s (%lu, %lu): %s\n", name, check, a, b, wrong);
    }
}

static int all_are(const uint8_t *bytes, size_t len, uint8_t value)
{
    size_t i;

    for (i = 0; i < len; i++) {
        if (bytes[i] != value) {
            return 0;
        }
    }
    return 1;
}

/* ---- the stored cases ---- */

static int read_exactly(FILE *file, uint8_t *bytes, size_t len)
{
    return fread(bytes, 1, len, file) == len;
}

/* A number of len bytes, the least significant first. */
static uint64_t number_at(const uint8_t *bytes, size_t len)
{
    uint64_t number = 0;

    while (len > 0) {
        len--;
        number = number << 8 | bytes[len];
    }
    return number;
}

static int read_sample(FILE *file, struct sample *sample)
{
    uint8_t len;
    uint8_t number[8];

    if (!read_exactly(file, &len, 1) || (len != 32 && len != 48 && len != 64)) {
        return 0;
    }
    sample->pair_len = len;
    if (!read_exactly(file, sample->pair, len) || !read_exactly(file, number, sizeof number)) {
        return 0;
    }
    sample->number = number_at(number, sizeof number);
    return read_exactly(file, sample->plain, SAVECARD_FRAME) && read_exactly(file, sample->sealed, SAVECARD_FRAME);
}

/* Reads all cases; NULL if the file is not as it should be. */
static struct sample *read_samples(const char *path, size_t *samples)
{
    static const uint8_t magic[8] = {'S', 'A', 'V', 'E', 'X', 'T', 'S', 1};
    uint8_t header[12];
    uint8_t more;
    struct sample *all = NULL;
    size_t i;
    FILE *file = fopen(path, "rb");

    if (file == NULL) {
        return NULL;
    }
    if (read_exactly(file, header, sizeof header) && memcmp(header, magic, sizeof magic) == 0) {
        *samples = (size_t)number_at(header + 8, 4);
        all = malloc(*samples * sizeof *all);
    }
    for (i = 0; all != NULL && i < *samples; i++) {
        if (!read_sample(file, &all[i])) {
            free(all);
            all = NULL;
        }
    }
    if (all != NULL && read_exactly(file, &more, 1)) {
        free(all);
        all = NULL;
    }
    fclose(file);
    return all;
}

/*
 * Calls a function with copies of a case's pair and frame at these places, and
 * gives what went wrong. The places have room for the case and do not overlap.
 */
static const char *try_sample(const struct function *function, const struct sample *sample, uint8_t *pair, uint8_t *frame)
{
    const uint8_t *given = function->opens ? sample->sealed : sample->plain;
    const uint8_t *wanted = function->opens ? sample->plain : sample->sealed;

    memcpy(pair, sample->pair, sample->pair_len);
    memcpy(frame, given, SAVECARD_FRAME);
    if (function->call(pair, sample->pair_len, sample->number, frame, SAVECARD_FRAME) != SAVECARD_OK) {
        return "it did not return 0";
    }
    if (memcmp(frame, wanted, SAVECARD_FRAME) != 0) {
        return function->opens ? "it did not give the plain frame" : "it did not give the sealed frame";
    }
    if (!all_are(pair, sample->pair_len, 0)) {
        return "the pair is not zero";
    }
    return NULL;
}

/* Every case through all six functions, a check for each case. The ranges are blocks of just
 * their length, so that a memory checker sees a step beyond them. */
static void test_samples(const struct sample *samples, size_t count_of_samples)
{
    size_t i;
    size_t f;

    for (i = 0; i < count_of_samples; i++) {
        uint8_t *pair = malloc(samples[i].pair_len);
        uint8_t *frame = malloc(SAVECARD_FRAME);
        const char *name = "all six";
        const char *wrong = NULL;

        if (pair == NULL || frame == NULL) {
            wrong = "no memory";
        }
        for (f = 0; wrong == NULL && f < FUNCTIONS; f++) {
            name = functions[f].name;
            wrong = try_sample(&functions[f], &samples[i], pair, frame);
        }
        count(wrong, name, "stored case (number, length of the pair)", (unsigned long)i, (unsigned long)samples[i].pair_len);
        free(pair);
        free(frame);
    }
}

/* ---- lengths ---- */

static uint32_t expected(size_t pair_len, size_t frame_len)
{
    if (pair_len != 32 && pair_len != 48 && pair_len != 64) {
        return SAVECARD_PAIR_LENGTH;
    }
    return frame_len == 128 ? SAVECARD_OK : SAVECARD_FRAME_LENGTH;
}

/* One call with ranges of these lengths between guard bytes; gives what went wrong. No byte of
 * the pair is zero before, so that each zero after it was written by the call. */
static const char *try_lengths(const struct function *function, size_t pair_len, size_t frame_len)
{
    uint8_t pair[GUARD + MAX_PAIR + GUARD];
    uint8_t frame[GUARD + MAX_FRAME + GUARD];
    uint8_t before[MAX_FRAME];
    uint32_t answer = expected(pair_len, frame_len);
    size_t i;

    memset(pair, GUARD_BYTE, sizeof pair);
    memset(frame, GUARD_BYTE, sizeof frame);
    for (i = 0; i < pair_len; i++) {
        pair[GUARD + i] = (uint8_t)(i + 1);
    }
    for (i = 0; i < frame_len; i++) {
        before[i] = (uint8_t)(3 * i + 7);
        frame[GUARD + i] = before[i];
    }

    if (function->call(pair + GUARD, pair_len, 5, frame + GUARD, frame_len) != answer) {
        return "it returned another number";
    }
    if (!all_are(pair + GUARD, pair_len, 0)) {
        return "the pair is not zero";
    }
    if (!all_are(pair, GUARD, GUARD_BYTE) || !all_are(pair + GUARD + pair_len, sizeof pair - GUARD - pair_len, GUARD_BYTE)) {
        return "a byte beside the pair changed";
    }
    if (!all_are(frame, GUARD, GUARD_BYTE) || !all_are(frame + GUARD + frame_len, sizeof frame - GUARD - frame_len, GUARD_BYTE)) {
        return "a byte beside the frame changed";
    }
    if ((memcmp(frame + GUARD, before, frame_len) == 0) != (answer != SAVECARD_OK)) {
        return answer == SAVECARD_OK ? "the frame stayed as it was" : "a refused frame changed";
    }
    return NULL;
}

/* Every length of the pair with every length of the frame: a check for each function and length of
 * the pair, which shows the first length of the frame that went wrong. */
static void test_lengths(void)
{
    size_t f;
    size_t pair_len;
    size_t frame_len;

    for (f = 0; f < FUNCTIONS; f++) {
        for (pair_len = 0; pair_len <= MAX_PAIR; pair_len++) {
            const char *wrong = NULL;

            for (frame_len = 0; frame_len <= MAX_FRAME; frame_len++) {
                wrong = try_lengths(&functions[f], pair_len, frame_len);
                if (wrong != NULL) {
                    break;
                }
            }
            count(wrong, functions[f].name, "lengths (pair, frame)", (unsigned long)pair_len, (unsigned long)frame_len);
        }
    }
}

/* NULL with length 0, in each place and in both. */
static void test_null(void)
{
    static const size_t lengths[] = {32, 48, 64};
    uint8_t pair[SAVECARD_PAIR_256];
    uint8_t frame[SAVECARD_FRAME];
    size_t f;
    size_t i;

    for (f = 0; f < FUNCTIONS; f++) {
        const char *name = functions[f].name;
        const char *wrong = NULL;

        if (functions[f].call(NULL, 0, 0, NULL, 0) != SAVECARD_PAIR_LENGTH) {
            wrong = "it did not return 2";
        }
        count(wrong, name, "NULL for both", 0, 0);

        wrong = NULL;
        memset(frame, GUARD_BYTE, sizeof frame);
        if (functions[f].call(NULL, 0, 0, frame, sizeof frame) != SAVECARD_PAIR_LENGTH) {
            wrong = "it did not return 2";
        } else if (!all_are(frame, sizeof frame, GUARD_BYTE)) {
            wrong = "a refused frame changed";
        }
        count(wrong, name, "NULL for the pair", 0, sizeof frame);

        for (i = 0; i < sizeof lengths / sizeof lengths[0]; i++) {
            wrong = NULL;
            memset(pair, GUARD_BYTE, sizeof pair);
            if (functions[f].call(pair, lengths[i], 0, NULL, 0) != SAVECARD_FRAME_LENGTH) {
                wrong = "it did not return 3";
            } else if (!all_are(pair, lengths[i], 0)) {
                wrong = "the pair is not zero";
            } else if (!all_are(pair + lengths[i], sizeof pair - lengths[i], GUARD_BYTE)) {
                wrong = "a byte beside the pair changed";
            }
            count(wrong, name, "NULL for the frame", (unsigned long)lengths[i], 0);
        }
    }
}

/* A frame of 2^32 + 128 bytes: a function that held its length in 32 bits would take it. Nothing
 * but lengths is looked at, so the memory is never touched; where there is none, nothing is checked. */
static void test_long_frame(void)
{
#if SIZE_MAX > 0xffffffff
    const size_t frame_len = ((size_t)1 << 32) + SAVECARD_FRAME;
    uint8_t *frame = malloc(frame_len);
    uint8_t pair[SAVECARD_PAIR_256];
    size_t f;

    if (frame == NULL) {
        return;
    }
    memset(frame, GUARD_BYTE, SAVECARD_FRAME);
    for (f = 0; f < FUNCTIONS; f++) {
        const char *wrong = NULL;

        memset(pair, GUARD_BYTE, sizeof pair);
        if (functions[f].call(pair, sizeof pair, 0, frame, frame_len) != SAVECARD_FRAME_LENGTH) {
            wrong = "it did not return 3";
        } else if (!all_are(frame, SAVECARD_FRAME, GUARD_BYTE)) {
            wrong = "a refused frame changed";
        } else if (!all_are(pair, sizeof pair, 0)) {
            wrong = "the pair is not zero";
        }
        count(wrong, functions[f].name, "a frame of 2^32 + 128 bytes", sizeof pair, (unsigned long)frame_len);
    }
    free(frame);
#endif
}

/* ---- places ---- */

/* The pair and the frame at each of 16 offsets from an aligned address, for a case of each length:
 * a check for each function and offset of the pair. */
static void test_unaligned(const struct sample *const *chosen, size_t chosen_count)
{
    uint8_t *pair = malloc(SAVECARD_PAIR_256 + 16);
    uint8_t *frame = malloc(SAVECARD_FRAME + 16);
    size_t f;
    size_t p;
    size_t q;
    size_t i;

    for (f = 0; pair != NULL && frame != NULL && f < FUNCTIONS; f++) {
        for (p = 0; p < 16; p++) {
            const char *wrong = NULL;

            for (q = 0; q < 16; q++) {
                for (i = 0; wrong == NULL && i < chosen_count; i++) {
                    wrong = try_sample(&functions[f], chosen[i], pair + p, frame + q);
                }
                if (wrong != NULL) {
                    break;
                }
            }
            count(wrong, functions[f].name, "offsets (pair, frame)", (unsigned long)p, (unsigned long)q);
        }
    }
    if (pair == NULL || frame == NULL) {
        count("no memory", "all six", "offsets", 0, 0);
    }
    free(pair);
    free(frame);
}

/* Ranges that touch and do not overlap, in both orders. */
static void test_side_by_side(const struct sample *const *chosen, size_t chosen_count)
{
    uint8_t room[SAVECARD_PAIR_256 + SAVECARD_FRAME];
    size_t f;
    size_t i;

    for (f = 0; f < FUNCTIONS; f++) {
        for (i = 0; i < chosen_count; i++) {
            size_t len = chosen[i]->pair_len;

            count(try_sample(&functions[f], chosen[i], room, room + len),
                  functions[f].name, "pair just before the frame", (unsigned long)len, 0);
            count(try_sample(&functions[f], chosen[i], room + SAVECARD_FRAME, room),
                  functions[f].name, "frame just before the pair", (unsigned long)len, 0);
        }
    }
}

int main(int argc, char **argv)
{
    static const size_t lengths[] = {32, 48, 64};
    const struct sample *chosen[3];
    struct sample *samples = NULL;
    size_t samples_count = 0;
    size_t chosen_count = 0;
    size_t i;

    if (argc == 2) {
        samples = read_samples(argv[1], &samples_count);
    }
    /* the first case of each length, for the tests that need one of each */
    for (i = 0; samples != NULL && i < samples_count && chosen_count < 3; i++) {
        if (samples[i].pair_len == lengths[chosen_count]) {
            chosen[chosen_count] = &samples[i];
            chosen_count++;
        }
    }
    if (chosen_count < 3) {
        printf("FAILED: no stored cases: give the path of xts_cases.bin\n0 passed, 1 failed\n");
        free(samples);
        return 1;
    }

    test_samples(samples, samples_count);
    test_lengths();
    test_null();
    test_long_frame();
    test_unaligned(chosen, chosen_count);
    test_side_by_side(chosen, chosen_count);

    free(samples);
    printf("%lu passed, %lu failed\n", passed, failed);
    return failed == 0 ? 0 : 1;
}
