#!/bin/sh
# Repair and the calls of a column of an older state beside this one's, in one run on one machine, case by case (repair/before.rs,
# calls/before.rs). The older state is one from Ask 6 of the change requests on, whose record is today's, that the installed Rattle builds:
#
#     git worktree add ../before COMMIT
#     (cd ../before/crates/sajowemi && rt lib)
#     sh benchmarks/before.sh ../before/crates/sajowemi/out/libsajowemi.a
#
# Its calls are linked under other names, in a copy of the safe crate that calls them by these, and what else it has is hidden, which takes
# an archive of one object.
set -eu
older=$(realpath "$1")
cd "$(dirname "$0")/.."
. tests/shared/build.sh
folder=target/tests/before
mkdir -p "$folder"
needs objcopy binutils
[ "$(ar t "$older" | wc -l)" -eq 1 ] || { echo "$older has more than one object"; exit 1; }
nm --defined-only --extern-only "$older" | sed -n 's/.* T sajowemi_\(.*\)/sajowemi_\1 before_\1/p' >"$folder/names"
sed 's/.* //' "$folder/names" >"$folder/kept"
objcopy --redefine-syms="$folder/names" --keep-global-symbols="$folder/kept" "$older" "$folder/libbefore.a"
rust_program benchmarks/repair/before.rs target/tests/before_times -L native="$folder" -l static=before
target/tests/before_times
for part in archive lib refusal; do
    sed 's/sajowemi_/before_/g' "rust/src/$part.rs" >"$folder/$part.rs"
done
rust "$folder/lib.rs" "$folder/libbefore.rlib" --crate-name before --crate-type rlib -L native="$folder" -l static=before
rust_crate
rust benchmarks/calls/before.rs target/tests/before_calls -A dead_code --extern before="$folder/libbefore.rlib" \
    --extern sajowemi=target/tests/libsajowemi.rlib
target/tests/before_calls
