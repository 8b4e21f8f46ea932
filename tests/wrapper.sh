#!/bin/sh
# The safe Rust crate over the archive, and its texts against the C header's (wrapper.rs); and the examples in its own documentation.
set -eu
cd "$(dirname "$0")/.."
. tests/shared/build.sh
rust_crate
rust tests/wrapper.rs target/tests/wrapper --extern sajowemi=target/tests/libsajowemi.rlib
target/tests/wrapper
rustdoc --test --edition 2024 --crate-name sajowemi -L native=crates/sajowemi/out --extern sajowemi=target/tests/libsajowemi.rlib \
    rust/src/lib.rs >target/tests/documentation.log 2>&1 || { cat target/tests/documentation.log; exit 1; }
grep -q '\.\.\. ok$' target/tests/documentation.log || { echo "wrapper: the documentation has no example"; exit 1; }
echo "wrapper: $(grep -c '\.\.\. ok$' target/tests/documentation.log) example of the documentation runs"
