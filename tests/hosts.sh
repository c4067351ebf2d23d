#!/usr/bin/env bash
# Builds the archive of the crate hosts, compiles C programs against include/savecard.h and it, and runs them.
# Its last line is 'N passed, M failed'; on any way out but the last it says at least '1 failed'.
set -u

passed=0
failed=0
finished=no

# a signal may come while the output goes to a file
exec 3>&1

finish() {
    status=$?
    if [ "$finished" != yes ]; then
        failed=$((failed + 1))
    fi
    echo "$passed passed, $failed failed" >&3
    if [ "$failed" -ne 0 ] || [ "$status" -ne 0 ]; then
        exit 1
    fi
}
trap finish EXIT
trap 'exit 1' HUP INT TERM

cd "$(dirname "$0")/.." || exit 1
archive=crates/hosts/out/libhosts.a
build=target/hosts
rm -rf "$build"
mkdir -p "$build" || exit 1

# check NAME COMMAND..: one check, passed if the command ends with 0; what it said is shown if not
check() {
    local name=$1
    shift
    if "$@" >"$build/said" 2>&1; then
        passed=$((passed + 1))
    else
        failed=$((failed + 1))
        echo "FAILED: $name"
        tail -n 20 "$build/said"
        return 1
    fi
}

# an archive of an earlier run is not what is tested
rm -f "$archive"
if ! (cd crates/hosts && rt lib) >"$build/lib.log" 2>&1 || [ ! -f "$archive" ]; then
    echo "FAILED: rt lib in crates/hosts"
    tail -n 40 "$build/lib.log"
    exit 1
fi

flags=(-std=c99 -Wall -Wextra -Werror -O2 -Iinclude)
cat >"$build/headers.c" <<'END'
#include <stddef.h>
#include <stdint.h>
#include <stdio.h>
#include <stdlib.h>
#include <string.h>
int main(void) { return 0; }
END

# compile SOURCE OBJECT and link OBJECT PROGRAM, by gcc where it works
if gcc "${flags[@]}" "$build/headers.c" -o "$build/headers" >/dev/null 2>&1; then
    echo "compiled by $(gcc --version | head -n 1)"
    compile() { gcc "${flags[@]}" -c "$1" -o "$2"; }
    link() { gcc "$1" "$archive" -o "$2"; }
else
    # Rattle's clang comes without C's headers: these declare what the programs here use
    kit=$(dirname "$(rt doc)")
    mkdir "$build/include" || exit 1
    cat >"$build/include/stddef.h" <<'END'
#pragma once
typedef __SIZE_TYPE__ size_t;
#define NULL ((void *)0)
END
    cat >"$build/include/stdint.h" <<'END'
#pragma once
typedef __UINT8_TYPE__ uint8_t;
typedef __UINT32_TYPE__ uint32_t;
typedef __UINT64_TYPE__ uint64_t;
#define SIZE_MAX __SIZE_MAX__
END
    cat >"$build/include/stdio.h" <<'END'
#pragma once
#include <stddef.h>
typedef struct file FILE;
int printf(const char *format, ...);
FILE *fopen(const char *path, const char *mode);
size_t fread(void *bytes, size_t size, size_t count, FILE *file);
int fclose(FILE *file);
END
    cat >"$build/include/stdlib.h" <<'END'
#pragma once
#include <stddef.h>
void *malloc(size_t size);
void free(void *block);
END
    cat >"$build/include/string.h" <<'END'
#pragma once
#include <stddef.h>
void *memcpy(void *to, const void *from, size_t size);
void *memset(void *to, int value, size_t size);
int memcmp(const void *a, const void *b, size_t size);
END
    echo "compiled by Rattle's $("$kit/toolchain/bin/clang" --version | head -n 1)"
    compile() { "$kit/toolchain/bin/clang" "${flags[@]}" -nostdinc -isystem "$build/include" -c "$1" -o "$2"; }
    link() { "$kit/bin/rattle-link" --target x86_64-unknown-linux-gnu --toolchain "$kit/toolchain" -o "$2" "$1" "$archive"; }
fi

# program SOURCE: compiles and links it to a program of its name in the build folder
program() {
    local name
    name=$(basename "$1" .c)
    compile "$1" "$build/$name.o" && link "$build/$name.o" "$build/$name"
}

# the header needs no other before it, and C++ takes it
echo '#include "savecard.h"' >"$build/alone.c"
check "savecard.h compiles alone as C99" compile "$build/alone.c" "$build/alone.o"
if g++ -x c++ -c "$build/headers.c" -o "$build/headers.o" >/dev/null 2>&1; then
    check "savecard.h compiles alone as C++" g++ -x c++ -std=c++98 -Wall -Wextra -Werror -Iinclude -c "$build/alone.c" -o "$build/alone.o"
fi

if check "examples/host.c compiles" program examples/host.c; then
    check "examples/host.c runs" "$build/host"
fi

if check "tests/host_test.c compiles" program tests/host_test.c; then
    "$build/host_test" tests/data/xts_cases.bin >"$build/host_test.out" 2>&1
    status=$?
    last=$(tail -n 1 "$build/host_test.out")
    if [[ "$last" =~ ^([0-9]+)\ passed,\ ([0-9]+)\ failed$ ]]; then
        sed '$d' "$build/host_test.out" | head -n 40
        passed=$((passed + BASH_REMATCH[1]))
        failed=$((failed + BASH_REMATCH[2]))
        if [ "$status" -ne 0 ] && [ "${BASH_REMATCH[2]}" -eq 0 ]; then
            failed=$((failed + 1))
        fi
    else
        echo "FAILED: host_test did not end with its sums (status $status)"
        tail -n 20 "$build/host_test.out"
        failed=$((failed + 1))
    fi
fi

finished=yes
exit 0
