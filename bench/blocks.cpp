/*
 * Times the cipher without XTS: eight independent blocks under a schedule that is
 * kept, and the key schedule alone. Part of the program of frames.cpp.
 *
 * All contenders have the same shape: the keys once and then UNITS eights of blocks,
 * or KEYS keys, each with another first byte, and then one eight of blocks.
 */
#include <cstdint>
#include <cstring>
#include <memory>

#include <botan/block_cipher.h>
#include <cryptopp/camellia.h>
#include <gcrypt.h>
#include <nettle/camellia.h>
#define OPENSSL_SUPPRESS_DEPRECATED /* the block functions are deprecated, and the quickest way to a block */
#include <openssl/camellia.h>

#include "calls.h"
#include "measure.h"

static const size_t EIGHT = 128; /* bytes of eight blocks */

class Cipher {
public:
    virtual ~Cipher() {}
    virtual void blocks(bool deciphers, const uint8_t *key, size_t len, int rounds, uint8_t *bytes) = 0;
    virtual void schedule(uint8_t *key, size_t len, int rounds, uint8_t *bytes) = 0;
};

/* ---- ours ---- */

class OurCipher : public Cipher {
public:
    OurCipher(bench_function *encipher, bench_function *decipher, bench_key_function *load) : encipher(encipher), decipher(decipher), load(load) {}
    void blocks(bool deciphers, const uint8_t *key, size_t len, int rounds, uint8_t *bytes) override
    {
        if ((deciphers ? decipher : encipher)(key, len, (uint64_t)rounds, bytes, EIGHT) != 0) {
            die("our function refused a key");
        }
    }
    void schedule(uint8_t *key, size_t len, int rounds, uint8_t *bytes) override
    {
        if (load(key, len, (uint64_t)rounds, bytes, EIGHT) != 0) {
            die("our function refused a key");
        }
    }

private:
    bench_function *encipher, *decipher;
    bench_key_function *load;
};

/* ---- the peers: P sets a key for enciphering or deciphering, and does eight blocks in place ---- */

template <class P>
class Peer : public Cipher {
public:
    explicit Peer(size_t len) : p(len) {}
    void blocks(bool deciphers, const uint8_t *key, size_t len, int rounds, uint8_t *bytes) override
    {
        if (deciphers) {
            p.set_to_decipher(key, len);
            for (int i = 0; i < rounds; i++) {
                p.decipher(bytes);
            }
        } else {
            p.set(key, len);
            for (int i = 0; i < rounds; i++) {
                p.encipher(bytes);
            }
        }
    }
    void schedule(uint8_t *key, size_t len, int rounds, uint8_t *bytes) override
    {
        for (int i = 0; i < rounds; i++) {
            key[0] = (uint8_t)i;
            p.set(key, len);
        }
        p.encipher(bytes);
    }

private:
    P p;
};

struct GcryptBlocks {
    gcry_cipher_hd_t handle;

    explicit GcryptBlocks(size_t len)
    {
        int cipher = len == 16 ? GCRY_CIPHER_CAMELLIA128 : len == 24 ? GCRY_CIPHER_CAMELLIA192 : GCRY_CIPHER_CAMELLIA256;
        if (gcry_cipher_open(&handle, cipher, GCRY_CIPHER_MODE_ECB, 0) != 0) {
            die("libgcrypt has no Camellia");
        }
    }
    ~GcryptBlocks() { gcry_cipher_close(handle); }
    void set(const uint8_t *key, size_t len)
    {
        if (gcry_cipher_setkey(handle, key, len) != 0) {
            die("libgcrypt refused a key");
        }
    }
    void set_to_decipher(const uint8_t *key, size_t len) { set(key, len); }
    void encipher(uint8_t *bytes)
    {
        if (gcry_cipher_encrypt(handle, bytes, EIGHT, NULL, 0) != 0) {
            die("libgcrypt refused blocks");
        }
    }
    void decipher(uint8_t *bytes)
    {
        if (gcry_cipher_decrypt(handle, bytes, EIGHT, NULL, 0) != 0) {
            die("libgcrypt refused blocks");
        }
    }
};

struct BotanBlocks {
    std::unique_ptr<Botan::BlockCipher> cipher;

    explicit BotanBlocks(size_t len) : cipher(Botan::BlockCipher::create_or_throw("Camellia-" + std::to_string(len * 8))) {}
    void set(const uint8_t *key, size_t len) { cipher->set_key(key, len); }
    void set_to_decipher(const uint8_t *key, size_t len) { set(key, len); }
    void encipher(uint8_t *bytes) { cipher->encrypt_n(bytes, bytes, 8); }
    void decipher(uint8_t *bytes) { cipher->decrypt_n(bytes, bytes, 8); }
};

struct CryptoppBlocks {
    CryptoPP::Camellia::Encryption forwards;
    CryptoPP::Camellia::Decryption backwards;

    explicit CryptoppBlocks(size_t) {}
    void set(const uint8_t *key, size_t len) { forwards.SetKey(key, len); }
    void set_to_decipher(const uint8_t *key, size_t len) { backwards.SetKey(key, len); }
    void encipher(uint8_t *bytes)
    {
        for (size_t at = 0; at < EIGHT; at += 16) {
            forwards.ProcessBlock(bytes + at);
        }
    }
    void decipher(uint8_t *bytes)
    {
        for (size_t at = 0; at < EIGHT; at += 16) {
            backwards.ProcessBlock(bytes + at);
        }
    }
};

struct NettleBlocks {
    struct camellia128_ctx key128;
    struct camellia256_ctx key256;
    bool is128;

    explicit NettleBlocks(size_t len) : is128(len == 16) {}
    void set(const uint8_t *key, size_t len)
    {
        is128 ? camellia128_set_encrypt_key(&key128, key) : len == 24 ? camellia192_set_encrypt_key(&key256, key) : camellia256_set_encrypt_key(&key256, key);
    }
    void set_to_decipher(const uint8_t *key, size_t len)
    {
        is128 ? camellia128_set_decrypt_key(&key128, key) : len == 24 ? camellia192_set_decrypt_key(&key256, key) : camellia256_set_decrypt_key(&key256, key);
    }
    /* the direction lies in the key; camellia192_crypt is camellia256_crypt */
    void encipher(uint8_t *bytes) { is128 ? camellia128_crypt(&key128, EIGHT, bytes, bytes) : camellia256_crypt(&key256, EIGHT, bytes, bytes); }
    void decipher(uint8_t *bytes) { encipher(bytes); }
};

struct OpensslBlocks {
    CAMELLIA_KEY schedule;

    explicit OpensslBlocks(size_t) {}
    void set(const uint8_t *key, size_t len) { Camellia_set_key(key, (int)len * 8, &schedule); }
    void set_to_decipher(const uint8_t *key, size_t len) { set(key, len); }
    void encipher(uint8_t *bytes)
    {
        for (size_t at = 0; at < EIGHT; at += 16) {
            Camellia_encrypt(bytes + at, bytes + at, &schedule);
        }
    }
    void decipher(uint8_t *bytes)
    {
        for (size_t at = 0; at < EIGHT; at += 16) {
            Camellia_decrypt(bytes + at, bytes + at, &schedule);
        }
    }
};

/* ---- measuring ---- */

static const std::vector<std::string> NAMES = {"ours, byte", "ours, word", "ours, long", "libgcrypt", "botan", "Crypto++", "nettle", "OpenSSL"};

static std::vector<std::unique_ptr<Cipher>> ciphers_for(size_t len)
{
    std::vector<std::unique_ptr<Cipher>> all;

    all.emplace_back(new OurCipher(bench_encipher_byte, bench_decipher_byte, bench_schedule_byte));
    all.emplace_back(new OurCipher(bench_encipher_word, bench_decipher_word, bench_schedule_word));
    all.emplace_back(new OurCipher(bench_encipher_long, bench_decipher_long, bench_schedule_long));
    all.emplace_back(new Peer<GcryptBlocks>(len));
    all.emplace_back(new Peer<BotanBlocks>(len));
    all.emplace_back(new Peer<CryptoppBlocks>(len));
    all.emplace_back(new Peer<NettleBlocks>(len));
    all.emplace_back(new Peer<OpensslBlocks>(len));
    return all;
}

/* All contenders must give the same bytes; `turn(i, bytes)` is the one of contender i. */
template <class Turn>
static void must_agree(const char *what, Turn turn)
{
    uint8_t first[EIGHT], bytes[EIGHT];

    for (size_t i = 0; i < NAMES.size(); i++) {
        for (size_t k = 0; k < EIGHT; k++) {
            bytes[k] = (uint8_t)(11 * k + 3);
        }
        turn(i, bytes);
        if (i == 0) {
            memcpy(first, bytes, EIGHT);
        } else if (memcmp(first, bytes, EIGHT) != 0) {
            die(NAMES[i] + " gives other bytes: " + what);
        }
    }
}

void blocks_and_schedules()
{
    Table blocks("Eight blocks, schedule kept; ns by eight blocks.", NAMES);
    Table schedules("Key schedule alone; ns by key.", NAMES);
    uint8_t key[32], bytes[EIGHT] = {0};

    for (size_t i = 0; i < sizeof key; i++) {
        key[i] = (uint8_t)(13 * i + 5);
    }
    for (size_t len = 16; len <= sizeof key; len += 8) {
        std::vector<std::unique_ptr<Cipher>> ciphers = ciphers_for(len);
        const std::string bits = std::to_string(len * 8);

        for (int d = 0; d < 2; d++) {
            bool deciphers = d != 0;
            must_agree("blocks", [&](size_t i, uint8_t *to) { ciphers[i]->blocks(deciphers, key, len, 3, to); });
            blocks.add((deciphers ? "dec " : "enc ") + bits,
                       medians(NAMES.size(), UNITS, [&](size_t i) { ciphers[i]->blocks(deciphers, key, len, UNITS, bytes); }));
        }
        must_agree("keys", [&](size_t i, uint8_t *to) { ciphers[i]->schedule(key, len, 300, to); });
        schedules.add("key " + bits, medians(NAMES.size(), KEYS, [&](size_t i) { ciphers[i]->schedule(key, len, KEYS, bytes); }));
    }
    blocks.print();
    schedules.print();
}
