/*
 * Times sealing and opening frames of 128 bytes, by the functions of savecard.h
 * and by other libraries with Camellia-XTS or Camellia. Run by hand: bench/run.sh.
 *
 * How it measures. All contenders first seal and open the same frames, and must
 * agree. Then for each key length and direction there are ROUNDS rounds; in each,
 * every contender in turn does UNITS frames. Time per frame is the median of the
 * rounds, and a ratio is the peer's time divided by ours: above 1, ours is faster.
 *
 * What is timed. With key set-up: both key schedules, the tweak and the frame, in
 * each call. Ours also copies the pair before each call, since a call zeroes it;
 * the peers wipe nothing. Objects and handles of the peers are made before the
 * clock starts. With schedules kept: tweak and frame. The functions of savecard.h
 * keep no schedule, so ours are there those of calls.rt.in, the same code with one
 * set-up for the UNITS frames. blocks.cpp adds blocks and key schedules alone.
 */
#include <cstdint>
#include <cstring>
#include <memory>

#include <botan/cipher_mode.h>
#include <botan/version.h>
#include <cryptopp/camellia.h>
#include <cryptopp/xts.h>
#include <gcrypt.h>
#include <nettle/camellia.h>
#include <nettle/version.h>
#include <nettle/xts.h>
#define OPENSSL_SUPPRESS_DEPRECATED /* the block functions are deprecated, and the quickest way to a block */
#include <openssl/camellia.h>
#include <openssl/crypto.h>

#include "calls.h"
#include "measure.h"
#include "savecard.h"

/* The frame number as XTS takes it: 16 bytes, the least significant first. */
struct Unit {
    uint8_t bytes[16];

    explicit Unit(uint64_t number)
    {
        for (int i = 0; i < 16; i++) {
            bytes[i] = i < 8 ? (uint8_t)(number >> (8 * i)) : 0;
        }
    }
};

/* One way to seal, or to open, under one pair. */
class Contender {
public:
    virtual ~Contender() {}
    /* sets up the keys, then does the frame */
    virtual void fresh(uint64_t number, uint8_t *frame)
    {
        set_up();
        kept(number, frame);
    }
    /* sets up the keys, to be kept for calls of kept */
    virtual void set_up() = 0;
    virtual void kept(uint64_t number, uint8_t *frame) = 0;
    /* sets up the keys once, then does the frames 0 to count - 1 one over the other */
    virtual void many(int count, uint8_t *frame)
    {
        set_up();
        for (int i = 0; i < count; i++) {
            kept((uint64_t)i, frame);
        }
    }
};

struct Setting {
    bool opens;
    const uint8_t *pair;
    size_t pair_len;
    size_t key_len() const { return pair_len / 2; }
};

/* ---- ours ---- */

typedef uint32_t frame_function(uint8_t *, size_t, uint64_t, uint8_t *, size_t);

class Ours : public Contender {
public:
    Ours(const Setting &s, frame_function *seal, frame_function *open, bench_function *seal_many, bench_function *open_many)
        : s(s), call(s.opens ? open : seal), call_many(s.opens ? open_many : seal_many)
    {
    }
    void fresh(uint64_t number, uint8_t *frame) override
    {
        uint8_t copy[SAVECARD_PAIR_256];
        memcpy(copy, s.pair, s.pair_len);
        if (call(copy, s.pair_len, number, frame, SAVECARD_FRAME) != SAVECARD_OK) {
            die("our function refused a frame");
        }
    }
    void set_up() override { die("our functions keep no schedule"); }
    void kept(uint64_t, uint8_t *) override { die("our functions keep no schedule"); }
    void many(int count, uint8_t *frame) override
    {
        if (call_many(s.pair, s.pair_len, (uint64_t)count, frame, SAVECARD_FRAME) != 0) {
            die("our function refused frames");
        }
    }

private:
    Setting s;
    frame_function *call;
    bench_function *call_many;
};

/* ---- libgcrypt ---- */

class Gcrypt : public Contender {
public:
    explicit Gcrypt(const Setting &s) : s(s)
    {
        int cipher = s.key_len() == 16 ? GCRY_CIPHER_CAMELLIA128 : s.key_len() == 24 ? GCRY_CIPHER_CAMELLIA192 : GCRY_CIPHER_CAMELLIA256;
        if (gcry_cipher_open(&handle, cipher, GCRY_CIPHER_MODE_XTS, 0) != 0) {
            die("libgcrypt has no Camellia-XTS");
        }
    }
    ~Gcrypt() override { gcry_cipher_close(handle); }
    void set_up() override
    {
        if (gcry_cipher_setkey(handle, s.pair, s.pair_len) != 0) {
            die("libgcrypt refused the key");
        }
    }
    void kept(uint64_t number, uint8_t *frame) override
    {
        Unit unit(number);
        gcry_error_t bad = gcry_cipher_setiv(handle, unit.bytes, sizeof unit.bytes);
        if (bad == 0) {
            bad = s.opens ? gcry_cipher_decrypt(handle, frame, SAVECARD_FRAME, NULL, 0) : gcry_cipher_encrypt(handle, frame, SAVECARD_FRAME, NULL, 0);
        }
        if (bad != 0) {
            die("libgcrypt refused a frame");
        }
    }

private:
    Setting s;
    gcry_cipher_hd_t handle;
};

/* ---- botan ---- */

class BotanMode : public Contender {
public:
    explicit BotanMode(const Setting &s)
        : s(s), mode(Botan::Cipher_Mode::create_or_throw("Camellia-" + std::to_string(s.key_len() * 8) + "/XTS",
                                                         s.opens ? Botan::DECRYPTION : Botan::ENCRYPTION)),
          buffer(SAVECARD_FRAME)
    {
    }
    void set_up() override { mode->set_key(s.pair, s.pair_len); }
    void kept(uint64_t number, uint8_t *frame) override
    {
        /* the end of a message is given as a vector: the copies are part of botan's way */
        Unit unit(number);
        memcpy(buffer.data(), frame, SAVECARD_FRAME);
        mode->start(unit.bytes, sizeof unit.bytes);
        mode->finish(buffer);
        memcpy(frame, buffer.data(), SAVECARD_FRAME);
    }

private:
    Setting s;
    std::unique_ptr<Botan::Cipher_Mode> mode;
    Botan::secure_vector<uint8_t> buffer;
};

/* ---- Crypto++ ---- */

template <class Mode>
class CryptoppMode : public Contender {
public:
    explicit CryptoppMode(const Setting &s) : s(s) {}
    void fresh(uint64_t number, uint8_t *frame) override
    {
        /* key and number together: apart, the tweak would be made twice */
        Unit unit(number);
        mode.SetKeyWithIV(s.pair, s.pair_len, unit.bytes, sizeof unit.bytes);
        mode.ProcessData(frame, frame, SAVECARD_FRAME);
    }
    void set_up() override
    {
        Unit unit(0);
        mode.SetKeyWithIV(s.pair, s.pair_len, unit.bytes, sizeof unit.bytes);
    }
    void kept(uint64_t number, uint8_t *frame) override
    {
        Unit unit(number);
        mode.Resynchronize(unit.bytes, sizeof unit.bytes);
        mode.ProcessData(frame, frame, SAVECARD_FRAME);
    }

private:
    Setting s;
    Mode mode;
};

/* ---- nettle ---- */

class Nettle : public Contender {
public:
    explicit Nettle(const Setting &s) : s(s) {}
    void set_up() override
    {
        const uint8_t *data = s.pair, *tweak = s.pair + s.key_len();
        switch (s.key_len()) {
        case 16:
            s.opens ? camellia128_set_decrypt_key(&data128, data) : camellia128_set_encrypt_key(&data128, data);
            camellia128_set_encrypt_key(&tweak128, tweak);
            break;
        case 24:
            s.opens ? camellia192_set_decrypt_key(&data256, data) : camellia192_set_encrypt_key(&data256, data);
            camellia192_set_encrypt_key(&tweak256, tweak);
            break;
        default:
            s.opens ? camellia256_set_decrypt_key(&data256, data) : camellia256_set_encrypt_key(&data256, data);
            camellia256_set_encrypt_key(&tweak256, tweak);
        }
    }
    void kept(uint64_t number, uint8_t *frame) override
    {
        Unit unit(number);
        bool is128 = s.key_len() == 16;
        const void *data = is128 ? (const void *)&data128 : &data256;
        const void *tweak = is128 ? (const void *)&tweak128 : &tweak256;
        /* camellia192_crypt is camellia256_crypt; the direction lies in the key */
        nettle_cipher_func *crypt = is128 ? (nettle_cipher_func *)camellia128_crypt : (nettle_cipher_func *)camellia256_crypt;
        if (s.opens) {
            xts_decrypt_message(data, tweak, crypt, crypt, unit.bytes, SAVECARD_FRAME, frame, frame);
        } else {
            xts_encrypt_message(data, tweak, crypt, unit.bytes, SAVECARD_FRAME, frame, frame);
        }
    }

private:
    Setting s;
    struct camellia128_ctx data128, tweak128;
    struct camellia256_ctx data256, tweak256;
};

/* ---- OpenSSL's block under a plain loop: it has no Camellia-XTS ---- */

class Openssl : public Contender {
public:
    explicit Openssl(const Setting &s) : s(s) {}
    void set_up() override
    {
        Camellia_set_key(s.pair, (int)s.key_len() * 8, &data);
        Camellia_set_key(s.pair + s.key_len(), (int)s.key_len() * 8, &tweak);
    }
    void kept(uint64_t number, uint8_t *frame) override
    {
        Unit unit(number);
        uint64_t mask[2], block[2]; /* little-endian machines only, as the number's bytes are */

        Camellia_encrypt(unit.bytes, unit.bytes, &tweak);
        memcpy(mask, unit.bytes, sizeof mask);
        for (size_t at = 0; at < SAVECARD_FRAME; at += 16) {
            memcpy(block, frame + at, sizeof block);
            block[0] ^= mask[0];
            block[1] ^= mask[1];
            if (s.opens) {
                Camellia_decrypt((uint8_t *)block, (uint8_t *)block, &data);
            } else {
                Camellia_encrypt((uint8_t *)block, (uint8_t *)block, &data);
            }
            block[0] ^= mask[0];
            block[1] ^= mask[1];
            memcpy(frame + at, block, sizeof block);

            uint64_t carry = mask[1] >> 63;
            mask[1] = mask[1] << 1 | mask[0] >> 63;
            mask[0] = mask[0] << 1 ^ carry * 0x87;
        }
    }

private:
    Setting s;
    CAMELLIA_KEY data, tweak;
};

/* ---- measuring ---- */

static const std::vector<std::string> NAMES = {"ours, byte", "ours, word", "ours, long", "libgcrypt", "botan", "Crypto++", "nettle", "OpenSSL's block, C loop"};

static std::vector<std::unique_ptr<Contender>> contenders_for(const Setting &s)
{
    typedef CryptoPP::XTS_Mode<CryptoPP::Camellia> Xts;
    std::vector<std::unique_ptr<Contender>> all;

    all.emplace_back(new Ours(s, savecard_seal_byte, savecard_open_byte, bench_seal_byte, bench_open_byte));
    all.emplace_back(new Ours(s, savecard_seal_word, savecard_open_word, bench_seal_word, bench_open_word));
    all.emplace_back(new Ours(s, savecard_seal_long, savecard_open_long, bench_seal_long, bench_open_long));
    all.emplace_back(new Gcrypt(s));
    all.emplace_back(new BotanMode(s));
    all.emplace_back(s.opens ? (Contender *)new CryptoppMode<Xts::Decryption>(s) : new CryptoppMode<Xts::Encryption>(s));
    all.emplace_back(new Nettle(s));
    all.emplace_back(new Openssl(s));
    return all;
}

/* All contenders must give the same bytes, with key set-up and without. */
static void must_agree(std::vector<std::unique_ptr<Contender>> &contenders)
{
    static const uint64_t numbers[] = {0, 1, 1023, 0x123456789abcdef0u, 0xffffffffffffffffu};

    for (uint64_t number : numbers) {
        uint8_t given[SAVECARD_FRAME], first[SAVECARD_FRAME], first_many[SAVECARD_FRAME], frame[SAVECARD_FRAME];
        for (size_t i = 0; i < sizeof given; i++) {
            given[i] = (uint8_t)(5 * i + number);
        }
        for (size_t c = 0; c < contenders.size(); c++) {
            memcpy(frame, given, sizeof frame);
            contenders[c]->fresh(number, frame);
            if (c == 0) {
                memcpy(first, frame, sizeof first);
            } else if (memcmp(frame, first, sizeof frame) != 0) {
                die(NAMES[c] + " gives other bytes");
            }
            if (c >= OURS) {
                memcpy(frame, given, sizeof frame);
                contenders[c]->set_up();
                contenders[c]->kept(number, frame);
                if (memcmp(frame, first, sizeof frame) != 0) {
                    die(NAMES[c] + " gives other bytes with a kept schedule");
                }
            }
            memcpy(frame, given, sizeof frame);
            contenders[c]->many(5, frame);
            if (c == 0) {
                memcpy(first_many, frame, sizeof first_many);
            } else if (memcmp(frame, first_many, sizeof frame) != 0) {
                die(NAMES[c] + " gives other bytes for frames with a kept schedule");
            }
        }
    }
}

int main()
{
    static const size_t lengths[] = {SAVECARD_PAIR_128, SAVECARD_PAIR_192, SAVECARD_PAIR_256};
    Table fresh("Frames of 128 bytes, key set-up in each call; ns by frame.", NAMES);
    Table kept("Frames of 128 bytes, schedules kept; ns by frame.", NAMES);
    uint8_t pair[SAVECARD_PAIR_256], frame[SAVECARD_FRAME] = {0};

    for (size_t i = 0; i < sizeof pair; i++) {
        pair[i] = (uint8_t)(7 * i + 1);
    }
    if (!gcry_check_version(GCRYPT_VERSION)) {
        die("libgcrypt is older than its header");
    }
    gcry_control(GCRYCTL_DISABLE_SECMEM, 0);
    gcry_control(GCRYCTL_INITIALIZATION_FINISHED, 0);

    printf("libgcrypt %s; botan %s; Crypto++ %d.%d.%d; nettle %d.%d; %s\n", gcry_check_version(NULL),
           Botan::short_version_string().c_str(), CRYPTOPP_VERSION / 100, CRYPTOPP_VERSION / 10 % 10, CRYPTOPP_VERSION % 10,
           nettle_version_major(), nettle_version_minor(), OpenSSL_version(OPENSSL_VERSION));
    printf("medians of %d interleaved rounds of %d units (%d keys); a ratio above 1: ours is faster\n", ROUNDS, UNITS, KEYS);

    for (size_t pair_len : lengths) {
        for (int opens = 0; opens < 2; opens++) {
            Setting s = {opens != 0, pair, pair_len};
            std::vector<std::unique_ptr<Contender>> contenders = contenders_for(s);
            const std::string setting = (opens ? "open " : "seal ") + std::to_string(s.key_len() * 8);

            must_agree(contenders);
            fresh.add(setting, medians(NAMES.size(), UNITS, [&](size_t c) {
                          for (int i = 0; i < UNITS; i++) {
                              contenders[c]->fresh((uint64_t)i, frame);
                          }
                      }));
            kept.add(setting, medians(NAMES.size(), UNITS, [&](size_t c) { contenders[c]->many(UNITS, frame); }));
        }
    }
    fresh.print();
    kept.print();
    blocks_and_schedules();
    return 0;
}
