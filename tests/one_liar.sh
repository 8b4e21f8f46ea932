#!/bin/sh
# Four columns with one liar: every pair of check bytes in rounds two and three (one_liar.rs).
set -eu
cd "$(dirname "$0")/.."
. tests/shared/build.sh
rust_program tests/one_liar.rs target/tests/one_liar
target/tests/one_liar
