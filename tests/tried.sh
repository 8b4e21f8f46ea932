#!/bin/sh
# How many places repair tries in each plane, of words whose wrong places are known from how they are made (tried/).
set -eu
cd "$(dirname "$0")/.."
. tests/shared/build.sh
rust_program tests/tried/main.rs target/tests/tried
target/tests/tried
