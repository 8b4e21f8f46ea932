#!/bin/sh
# The C header's calls in place beside the archive's calls by value (in_place.c).
set -eu
cd "$(dirname "$0")/.."
. tests/shared/build.sh
c_program tests/in_place.c target/tests/in_place
target/tests/in_place
