#!/bin/sh
# All figures of docs/PERFORMANCE.md from one run:
#
#     sh benchmarks/run.sh [--store] [OLDER_ARCHIVE]
#
# repair and check values beside linear equations in Rust and libfec (Debian's libfec-dev, installed where it is missing), which must answer
# alike; the calls of a column; how they grow with the group beside a plain Rust column; bytes on the air; stack use, sizes, and the seconds
# that each crate's check takes where nothing of it is kept; and with an older archive of one object the same calls before and after
# (before.sh). With --store the growth is written to docs/cost_growth.tsv and its picture drawn anew. All is built for release, for any
# x86-64 processor.
set -eu
store=no
if [ "${1-}" = --store ]; then
    store=yes
    shift
fi
older=${1:+$(realpath "$1")}
cd "$(dirname "$0")/.."
. tests/shared/build.sh
mkdir -p target/tests
if ! [ -f /usr/include/fec.h ]; then
    { apt-get update && apt-get install -y libfec-dev; } >target/tests/install.log 2>&1 || { cat target/tests/install.log; exit 1; }
fi
needs python3 python3

echo "On $(nproc --all) cores, $(sed -n 's/^model name[^:]*: //p' /proc/cpuinfo | head -n 1), $(uname -m)."
echo "Inputs, frames and records are prepared beforehand. Repair and check values write to one output buffer of each program, which is not"
echo "cleared between calls. A call of a column is timed by itself, on a copy of its record made just before. Programs take turns, each with"
echo "a call that is not timed before the one that is."
echo

rust_program benchmarks/repair/main.rs target/tests/repair_times -l dylib=fec
target/tests/repair_times
rust_crate
with_crate() { # SOURCE OUTPUT: a program over the safe crate, which leaves parts of models unused
    rust "$1" "$2" -A dead_code --extern sajowemi=target/tests/libsajowemi.rlib
}
with_crate benchmarks/calls/main.rs target/tests/call_times
target/tests/call_times
echo
with_crate benchmarks/growth/main.rs target/tests/growth
target/tests/growth >target/tests/cost_growth.tsv
python3 benchmarks/growth.py target/tests/cost_growth.tsv
if [ "$store" = yes ]; then
    cp target/tests/cost_growth.tsv docs/cost_growth.tsv
    python3 benchmarks/growth.py docs/cost_growth.tsv docs/cost_growth.svg
fi
echo
python3 benchmarks/air.py
echo
c_program benchmarks/calls/stack.c target/tests/stack_use
target/tests/stack_use
echo
echo "The archive has $(wc -c <crates/sajowemi/out/libsajowemi.a) bytes."
echo
# Each crate stands over those before it, which are built by then. What another checkout on this machine keeps of a crate, rt begins with.
echo "| Crate | Seconds of its check |"
echo "|---|---|"
in_crate() { # CRATE VERB
    (cd "crates/$1" && rt "$2") </dev/null >"target/tests/$1.log" 2>&1 || { cat "target/tests/$1.log"; return 1; }
}
sed -n 's/^\([a-z_]*\)[ :].*/\1/p' crates.txt | while read -r crate; do
    rm -rf "crates/$crate/out/incremental"
    begun=$(date +%s)
    in_crate "$crate" check
    echo "| $crate | $(($(date +%s) - begun)) |"
    [ -e "crates/$crate/src/main.rt" ] || in_crate "$crate" lib
done
if [ -n "$older" ]; then
    echo
    sh benchmarks/before.sh "$older"
fi
