#!/bin/sh
# Whole groups in random schedules against a model of the exchange, and what good columns promise each other (schedules/).
set -eu
cd "$(dirname "$0")/.."
. tests/shared/build.sh
rust_program tests/schedules/main.rs target/tests/schedules
target/tests/schedules
