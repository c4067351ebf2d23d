#!/usr/bin/env bash
# Builds and runs frames.cpp and blocks.cpp: our functions beside those of other libraries. Run by hand; no test needs it.
#     bench/run.sh            builds our archives first
#     bench/run.sh ARCHIVE    takes the functions of savecard.h from this archive
set -euo pipefail
cd "$(dirname "$0")/.."

command -v g++ >/dev/null || { echo "missing Debian packages: g++"; exit 1; }
missing=()
# need HEADER PACKAGE
need() {
    echo "#include <$1>" | g++ -E -x c++ - >/dev/null 2>&1 || missing+=("$2")
}
need gcrypt.h libgcrypt20-dev
need cryptopp/xts.h libcrypto++-dev
need nettle/xts.h nettle-dev
need openssl/camellia.h libssl-dev
# its headers stand in a folder that pkg-config knows
pkg-config --exists botan-2 2>/dev/null || missing+=(libbotan-2-dev pkg-config)
if [ ${#missing[@]} -ne 0 ]; then
    echo "missing Debian packages: ${missing[*]}"
    exit 1
fi

# Our archives are built in a copy of the repository, with bench/calls.rt.in as one crate more: bench_calls, which has what hosts uses.
# It stands outside the checkout, where rt ci wants no other crates, under the checkout's own name.
repo=${TMPDIR:-/tmp}/savecard_bench_$(pwd | cksum | cut -d ' ' -f 1)
calls=$repo/crates/bench_calls/out/libbench_calls.a
archive=${1:-$repo/crates/hosts/out/libhosts.a}
mkdir -p target/bench
if [ ! -f "$calls" ] || [ ! -f "$archive" ] ||
    [ -n "$(find crates crates.txt bench/calls.rt.in \( -path '*/must-fail' -o -name out \) -prune -o -newer "$repo/copied" -print -quit)" ]; then
    rm -rf "$repo"
    mkdir -p "$repo"
    touch "$repo/copied"
    # with what is proved already, which need not be proved again
    cp -r crates crates.txt "$repo/"
    sed -n 's/^hosts staticlib:/bench_calls staticlib:/p' crates.txt >>"$repo/crates.txt"
    mkdir -p "$repo/crates/bench_calls/src"
    cp bench/calls.rt.in "$repo/crates/bench_calls/src/lib.rt"
    for name in hosts bench_calls; do
        echo "building $name; its dependencies are proved first, which can take minutes"
        (cd "$repo/crates/$name" && rt lib) >"target/bench/$name.log" 2>&1 || { tail -n 40 "target/bench/$name.log"; exit 1; }
    done
fi
# shellcheck disable=SC2046
g++ -std=c++11 -Wall -Wextra -O2 -Iinclude bench/frames.cpp bench/blocks.cpp "$archive" "$calls" -o target/bench/frames \
    $(pkg-config --cflags --libs botan-2) -lcryptopp -lgcrypt -lnettle -lcrypto
grep -m 1 'model name' /proc/cpuinfo | sed 's/.*: //'
echo "load before: $(cut -d ' ' -f 1-3 /proc/loadavg) on $(nproc) cores"
target/bench/frames
