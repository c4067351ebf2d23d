#!/usr/bin/env bash
# Runs the program vectors on stored inputs and compares what it writes; ends with its sums.
set -u
cd "$(dirname "$0")/.." || exit 1
program=crates/vectors/out/vectors
passed=0
failed=0

log=$(mktemp)
trap 'rm -f "$log"' EXIT

# a program of an earlier run is not what is tested
rm -f "$program"
if ! (cd crates/vectors && rt run </dev/null) >"$log" 2>&1 || [ ! -x "$program" ]; then
    echo "FAILED: rt run in crates/vectors"
    tail -n 40 "$log"
    echo "0 passed, 1 failed"
    exit 1
fi

# expect NAME OUTPUT: feeds standard input to the program and compares its output and its status
expect() {
    local output
    if output=$("$program"; echo "status $?") && [ "$output" = "${2:+$2
}status 0" ]; then
        passed=$((passed + 1))
    else
        failed=$((failed + 1))
        echo "FAILED: $1"
        echo "$output" | tail -n 3
    fi
}

key=key=0123456789abcdeffedcba9876543210
plain=plain=0123456789abcdeffedcba9876543210
cipher=cipher=67673138549669730857065648eabe43
group=$key$'\n'$plain$'\n'$cipher$'\n'

# lines FIRST LAST: the lines of groups that agree
lines() {
    for n in $(seq "$1" "$2"); do echo "group=$n byte=same word=same long=same"; done
}

# malformed NAME TEXT: the text is no group, neither first nor after one
malformed() {
    expect "$1" "group=1 malformed" < <(printf '%s' "$2")
    expect "$1, after a group" "group=1 byte=same word=same long=same
group=2 malformed" < <(printf '%s' "$group$2")
}

expect "450 groups of OpenSSL agree" "$(lines 1 450)" <tests/data/openssl_groups.txt
expect "empty input writes nothing" "" </dev/null
expect "a wrong cipher byte differs" "group=1 byte=differs word=differs long=differs" < <(printf '%s' "${group/43$'\n'/42$'\n'}")
expect "a wrong plain byte differs" "group=1 byte=differs word=differs long=differs" < <(printf '%s' "${group/plain=01/plain=02}")
expect "a wrong key byte differs" "group=1 byte=differs word=differs long=differs" < <(printf '%s' "${group/key=01/key=02}")
expect "a group that differs does not end the run" "group=1 byte=differs word=differs long=differs
group=2 byte=same word=same long=same" < <(printf '%s' "${group/key=01/key=02}$group")

for bytes in 0 1 15 17 20 23 25 31 33 64; do
    digits=$(printf '%0*d' $((2 * bytes)) 0)
    [ "$bytes" -ne 0 ] || digits=
    malformed "a key of $bytes bytes" "key=$digits"$'\n'"$plain"$'\n'"$cipher"$'\n'
done
malformed "upper case in a key" "${group/abcdef/ABCDEF}"
malformed "upper case in a name" "${group/key=/Key=}"
malformed "a missing digit" "$key"$'\n'"${plain%?}"$'\n'"$cipher"$'\n'
malformed "an extra digit" "$key"$'\n'"$plain"$'\n'"${cipher}0"$'\n'
malformed "a byte that is no digit" "${group/cipher=6/cipher=g}"
malformed "lines in another order" "$plain"$'\n'"$key"$'\n'"$cipher"$'\n'
malformed "a line twice" "$key"$'\n'"$key"$'\n'"$plain"$'\n'"$cipher"$'\n'
malformed "an empty line" $'\n'"$group"
malformed "an empty line within" "$key"$'\n\n'"$plain"$'\n'"$cipher"$'\n'
malformed "a carriage return" "$key"$'\r\n'"$plain"$'\r\n'"$cipher"$'\r\n'
malformed "a last line without its end" "${group%$'\n'}"
malformed "two lines" "$key"$'\n'"$plain"$'\n'
malformed "a space before the name" " $group"
malformed "a space after the value" "$key "$'\n'"$plain"$'\n'"$cipher"$'\n'

# 565 groups of 116 bytes pass the limit of 65,536; 557 of them and 7 of 132 bytes end just there
groups() { for _ in $(seq "$1"); do printf '%s' "$2"; done; }
medium=key=0123456789abcdeffedcba98765432100011223344556677$'\n'$plain$'\n'cipher=b4993401b3e996f84ee5cee7d79b09b9$'\n'
expect "a group that the limit cuts is malformed" "$(lines 1 564)
group=565 malformed" < <(groups 600 "$group")
expect "what lies beyond the limit is not read" "$(lines 1 564)" < <(groups 557 "$group"; groups 7 "$medium"; groups 9 "$group"; echo no group)

echo "$passed passed, $failed failed"
[ "$failed" -eq 0 ]
