#!/bin/sh
# The text form of bench files: every example's text gives its file, and files come back from their text unchanged, the
# examples and random ones, valid, damaged, and of any bytes.
set -eu
cd "$(dirname "$0")/.."
sh tools/build.sh
sh tests/bench/build.sh
rustc --edition 2024 -O --test -o target/tests/bench-text-units tools/bench-text/main.rs
target/tests/bench-text-units --quiet
tool=target/tools/bench-text
text=target/tests/example.text
for bench in examples/*.bench; do
    $tool to-bench <"${bench%.bench}.text" | cmp - "$bench"
    for form in '' --heights; do
        $tool to-text $form <"$bench" >"$text" 2>"$text.said"
        $tool to-bench <"$text" | cmp - "$bench"
        $tool to-bench <"$text" | $tool to-text $form 2>"$text.said" | cmp - "$text"
    done
done
target/tests/bench round-trip $tool 300
