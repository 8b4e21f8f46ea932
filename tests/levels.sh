#!/bin/sh
# The level and the correction against a model of Ask 3's rule, over records made by hand and after whole exchanges (levels/).
set -eu
cd "$(dirname "$0")/.."
. tests/shared/build.sh
rust_program tests/levels/main.rs target/tests/levels
target/tests/levels
