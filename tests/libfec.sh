#!/bin/sh
# Check values and repair beside libfec (libfec.rs). Where Debian's libfec-dev is missing and cannot be installed, the vectors that libfec
# made before, which the programs check_vectors and repair_vectors have run, stand for its answers and lent bytes. They hold no places
# changed or tried: these are then left to tried.sh and told.sh.
set -eu
cd "$(dirname "$0")/.."
. tests/shared/build.sh
mkdir -p target/tests
if ! [ -e /usr/include/fec.h ] && ! { apt-get update && apt-get install -y libfec-dev; } >target/tests/install.log 2>&1; then
    echo "libfec: not to be had here; its stored vectors stand for its answers, not for the places changed and tried"
    exit 0
fi
rust_program tests/libfec.rs target/tests/libfec -l dylib=fec
target/tests/libfec
