/* Writes the cases of xts_inputs.h to standard output, sealed by botan 2. */
#include <memory>
#include <string>

#include <botan/cipher_mode.h>

#include "xts_inputs.h"

static void run(Botan::Cipher_Dir direction, const uint8_t *pair, size_t pair_len, uint64_t number, const uint8_t *in, uint8_t *out)
{
    const std::string name = "Camellia-" + std::to_string(pair_len * 4) + "/XTS";
    std::unique_ptr<Botan::Cipher_Mode> mode = Botan::Cipher_Mode::create_or_throw(name, direction);
    Botan::secure_vector<uint8_t> frame(in, in + FRAME);
    uint8_t unit[16] = {0};

    put_number(unit, 8, number);
    mode->set_key(pair, pair_len);
    mode->start(unit, sizeof unit);
    mode->finish(frame);
    if (frame.size() != FRAME) {
        fprintf(stderr, "botan gave a frame of another length\n");
        exit(1);
    }
    memcpy(out, frame.data(), FRAME);
}

static void seal(const uint8_t *pair, size_t pair_len, uint64_t number, const uint8_t *in, uint8_t *out)
{
    run(Botan::ENCRYPTION, pair, pair_len, number, in, out);
}

static void open(const uint8_t *pair, size_t pair_len, uint64_t number, const uint8_t *in, uint8_t *out)
{
    run(Botan::DECRYPTION, pair, pair_len, number, in, out);
}

int main()
{
    write_cases(seal, open);
    return 0;
}
