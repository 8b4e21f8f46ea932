#!/bin/sh
# The proved bench program: the listing of every example to the byte, a file of the greatest length and the same with one byte more, and
# random files against the second implementation.
#
#     sh tests/bench.sh [COUNT]       2,000 files where no other number is given
set -eu
cd "$(dirname "$0")/.."
. tests/shared/build.sh
program=crates/bench_main/out/bench_main
proved_program bench_main
sh tests/bench/build.sh
for listing in examples/*.listing; do
    $program <"${listing%.listing}.bench" | cmp - "$listing"
done

# 65,536 bytes are a whole file, and with one more it is too long: a program that reads no further than a file may reach would list it.
longest=target/tests/longest.bench
target/tests/bench longest >$longest
test "$(wc -c <$longest)" -eq 65536
target/tests/bench serve <$longest >$longest.listing
grep -q '^group 32 10 8$' $longest.listing
$program <$longest | cmp - $longest.listing
echo 'refused 19' >$longest.refused
{ cat $longest && printf '\017'; } | $program | cmp - $longest.refused

target/tests/bench compare $program "${1:-2000}"
