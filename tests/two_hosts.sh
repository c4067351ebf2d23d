#!/usr/bin/env bash
# What the program two_hosts has to print is what the model says; rt ci holds the program to it. Ends with its sums.
set -u
cd "$(dirname "$0")/.." || exit 1
if python3 tests/two_hosts_model.py | cmp - crates/two_hosts/stdout; then
    echo "1 passed, 0 failed"
else
    echo "0 passed, 1 failed"
    exit 1
fi
