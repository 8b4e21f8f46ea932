#!/bin/sh
# The second implementation of the bench program by itself: its worked cases, repair against every change of one place, and
# the listings of all examples.
set -eu
cd "$(dirname "$0")/.."
sh tests/bench/build.sh
rustc --edition 2024 -O --test -o target/tests/bench-units tests/bench/main.rs
target/tests/bench-units --quiet
for listing in examples/*.listing; do
    target/tests/bench serve <"${listing%.listing}.bench" | cmp - "$listing"
done
