/*
 * Seals a frame and opens it again, on each of the three paths, and says what
 * happened. Returns 0 only if the paths agree, opening gives the frame back and
 * every call leaves its pair zero.
 *
 *     (cd crates/hosts && rt lib)
 *     gcc -Iinclude examples/host.c crates/hosts/out/libhosts.a -o host
 */
#include <stdio.h>
#include <string.h>

#include "savecard.h"

typedef uint32_t frame_function(uint8_t *pair, size_t pair_len, uint64_t frame, uint8_t *bytes, size_t bytes_len);

static const struct {
    const char *name;
    frame_function *seal;
    frame_function *open;
} paths[] = {
    {"byte", savecard_seal_byte, savecard_open_byte},
    {"word", savecard_seal_word, savecard_open_word},
    {"long", savecard_seal_long, savecard_open_long},
};

static int is_zero(const uint8_t *bytes, size_t len)
{
    size_t i;

    for (i = 0; i < len; i++) {
        if (bytes[i] != 0) {
            return 0;
        }
    }
    return 1;
}

/* Says what was found, and gives 1 if it is not what should be. */
static int report(int good, const char *path, const char *what)
{
    printf("%s: %s: %s\n", path, what, good ? "yes" : "NO");
    return !good;
}

int main(void)
{
    const uint64_t number = 7;
    uint8_t secret[SAVECARD_PAIR_256];
    uint8_t plain[SAVECARD_FRAME];
    uint8_t first[SAVECARD_FRAME] = {0}; /* as the first path sealed it */
    uint8_t frame[SAVECARD_FRAME];
    uint8_t pair[SAVECARD_PAIR_256];
    int wrong = 0;
    size_t i;

    /* A host takes its pair from a safe place; an example may count. */
    for (i = 0; i < sizeof secret; i++) {
        secret[i] = (uint8_t)(i + 1);
    }
    memset(plain, 0, sizeof plain);
    memcpy(plain, "SC: a title, and the rest of a frame", 36);

    for (i = 0; i < sizeof paths / sizeof paths[0]; i++) {
        const char *name = paths[i].name;
        uint32_t answer;

        memcpy(frame, plain, sizeof frame);
        memcpy(pair, secret, sizeof pair); /* each call zeroes the copy it is given */
        answer = paths[i].seal(pair, sizeof pair, number, frame, sizeof frame);
        wrong += report(answer == SAVECARD_OK, name, "frame 7 is sealed");
        wrong += report(is_zero(pair, sizeof pair), name, "the pair is zero after sealing");

        if (i == 0) {
            memcpy(first, frame, sizeof first);
            wrong += report(memcmp(frame, plain, sizeof frame) != 0, name, "the sealed frame is another than the plain one");
        } else {
            wrong += report(memcmp(frame, first, sizeof frame) == 0, name, "the sealed frame is the one of the byte path");
        }

        memcpy(pair, secret, sizeof pair);
        answer = paths[i].open(pair, sizeof pair, number, frame, sizeof frame);
        wrong += report(answer == SAVECARD_OK, name, "it is opened");
        wrong += report(is_zero(pair, sizeof pair), name, "the pair is zero after opening");
        wrong += report(memcmp(frame, plain, sizeof frame) == 0, name, "opening gives the frame back");
    }

    /* What a refusal looks like: the length of the pair is wrong. */
    memcpy(frame, plain, sizeof frame);
    memcpy(pair, secret, sizeof pair);
    wrong += report(savecard_seal_long(pair, 33, number, frame, sizeof frame) == SAVECARD_PAIR_LENGTH
                        && is_zero(pair, 33) && memcmp(pair + 33, secret + 33, sizeof pair - 33) == 0
                        && memcmp(frame, plain, sizeof frame) == 0,
                    "long", "a pair of 33 bytes is refused and zeroed, and the frame stays");

    printf("%s\n", wrong == 0 ? "all is well" : "SOMETHING IS WRONG");
    return wrong == 0 ? 0 : 1;
}
