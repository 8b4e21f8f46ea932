#!/bin/sh
# The structs that pass by value, as C and Rust lay them out and as the compiled calls read and write them (layout.c, layout.rs).
set -eu
cd "$(dirname "$0")/.."
. tests/shared/build.sh
c_program tests/layout.c target/tests/layout_in_c
target/tests/layout_in_c
rust_program tests/layout.rs target/tests/layout
target/tests/layout
