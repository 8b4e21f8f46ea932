#!/bin/sh
# The compiled calls against an independent table of refusals (hostile_frames/).
set -eu
cd "$(dirname "$0")/.."
. tests/shared/build.sh
rust_program tests/hostile_frames/main.rs target/tests/hostile_frames
target/tests/hostile_frames
