#!/bin/sh
# Every byte that opening, taking and closing leave, and that a result call answers, against a model of the record (records.rs).
set -eu
cd "$(dirname "$0")/.."
. tests/shared/build.sh
rust_program tests/records.rs target/tests/records
target/tests/records
