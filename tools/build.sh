#!/bin/sh
# Builds the tools of this folder into target/tools.
set -eu
cd "$(dirname "$0")/.."
mkdir -p target/tools
rustc --edition 2024 -O -o target/tools/bench-text tools/bench-text/main.rs
