#!/bin/sh
# The examples in C and in Rust: both say what is stored beside them.
set -eu
cd "$(dirname "$0")/.."
. tests/shared/build.sh

example() { # NAME: examples/NAME.c and examples/NAME.rs against examples/NAME.txt
    c_program "examples/$1.c" "target/tests/$1_in_c"
    "target/tests/$1_in_c" | diff - "examples/$1.txt"
    rust "examples/$1.rs" "target/tests/$1" --extern sajowemi=target/tests/libsajowemi.rlib
    "target/tests/$1" | diff - "examples/$1.txt"
}

rust_crate
example group
example level
example repair
echo "examples: a group with one liar, one that repeats the exchange until it stands level, and repair by itself, in C and in Rust, as stored"
