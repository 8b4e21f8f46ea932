#!/bin/sh
# Every length through the edge from a C caller, under valgrind (lengths.c).
set -eu
cd "$(dirname "$0")/.."
. tests/shared/build.sh
c_program tests/lengths.c target/tests/lengths
needs valgrind valgrind
valgrind --quiet --error-exitcode=1 --leak-check=full target/tests/lengths
