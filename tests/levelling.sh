#!/bin/sh
# Ask 4's promises over whole and over repeated exchanges, with bad columns that split the group as far as it goes (levelling/).
set -eu
cd "$(dirname "$0")/.."
. tests/shared/build.sh
rust_program tests/levelling/main.rs target/tests/levelling
target/tests/levelling
