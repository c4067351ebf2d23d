/* Writes the cases of xts_inputs.h to standard output, sealed by Crypto++. */
#include <cryptopp/camellia.h>
#include <cryptopp/xts.h>

#include "xts_inputs.h"

template <class Mode>
static void run(const uint8_t *pair, size_t pair_len, uint64_t number, const uint8_t *in, uint8_t *out)
{
    Mode mode;
    uint8_t unit[16] = {0};

    put_number(unit, 8, number);
    mode.SetKeyWithIV(pair, pair_len, unit, sizeof unit);
    mode.ProcessData(out, in, FRAME);
}

static void seal(const uint8_t *pair, size_t pair_len, uint64_t number, const uint8_t *in, uint8_t *out)
{
    run<CryptoPP::XTS_Mode<CryptoPP::Camellia>::Encryption>(pair, pair_len, number, in, out);
}

static void open(const uint8_t *pair, size_t pair_len, uint64_t number, const uint8_t *in, uint8_t *out)
{
    run<CryptoPP::XTS_Mode<CryptoPP::Camellia>::Decryption>(pair, pair_len, number, in, out);
}

int main()
{
    write_cases(seal, open);
    return 0;
}
