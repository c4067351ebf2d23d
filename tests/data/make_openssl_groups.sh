#!/usr/bin/env bash
# Makes openssl_groups.txt: 450 groups with random keys and blocks, 150 for each key length, enciphered by OpenSSL.
# Run by hand; the tests read the stored file.
set -euo pipefail
cd "$(dirname "$0")"
for bits in 128 192 256; do
    for _ in $(seq 150); do
        key=$(openssl rand -hex $((bits / 8)))
        plain=$(openssl rand -hex 16)
        cipher=$(xxd -r -p <<<"$plain" | openssl enc "-camellia-$bits-ecb" -nopad -K "$key" | xxd -p)
        printf 'key=%s\nplain=%s\ncipher=%s\n' "$key" "$plain" "$cipher"
    done
done >openssl_groups.txt
