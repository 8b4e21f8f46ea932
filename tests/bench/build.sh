#!/bin/sh
# Builds the second implementation of the bench program, and the driver that compares, as target/tests/bench.
set -eu
cd "$(dirname "$0")/../.."
mkdir -p target/tests
rustc --edition 2024 -O -o target/tests/bench tests/bench/main.rs
