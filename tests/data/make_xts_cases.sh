#!/usr/bin/env bash
# Makes xts_cases.bin: 2,100 frames sealed by Camellia-XTS, 700 for each length of the pair; xts_inputs.h has the layout.
# Two libraries that share no code must give the same file, byte for byte, or nothing is stored.
# Stored from: botan 2.19.3 (libbotan-2-dev 2.19.3+dfsg-1+deb12u1) and Crypto++ 8.7.0 (libcrypto++-dev 8.7.0+git220824-1), which agreed.
# Run by hand; the tests read the stored file and need neither library.
set -euo pipefail
cd "$(dirname "$0")"
work=$(mktemp -d)
trap 'rm -rf "$work"' EXIT

# shellcheck disable=SC2046
g++ -std=c++11 -Wall -Wextra -O1 xts_botan.cpp -o "$work/botan" $(pkg-config --cflags --libs botan-2)
g++ -std=c++11 -Wall -Wextra -O1 xts_cryptopp.cpp -o "$work/cryptopp" -lcryptopp

"$work/botan" >"$work/botan.bin"
"$work/cryptopp" >"$work/cryptopp.bin"
cmp "$work/botan.bin" "$work/cryptopp.bin"
cp "$work/botan.bin" xts_cases.bin
echo "the libraries agree: $(stat -c %s xts_cases.bin) bytes stored"
