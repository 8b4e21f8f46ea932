#!/bin/sh
# How far off each sender was, in worked cases (told.rs).
set -eu
cd "$(dirname "$0")/.."
. tests/shared/build.sh
rust_program tests/told.rs target/tests/told
target/tests/told
