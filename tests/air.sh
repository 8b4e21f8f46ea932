#!/bin/sh
# The stored pictures and tables of the bytes on the air are those that their script draws and prints. The script itself compares its formula
# of source document 002 with that document's own table.
set -eu
cd "$(dirname "$0")/.."
. tests/shared/build.sh
mkdir -p target/tests
needs python3 python3
python3 benchmarks/air.py target/tests
for picture in bytes_on_the_air.svg bytes_by_document.svg; do
    cmp "docs/$picture" "target/tests/$picture"
done
python3 benchmarks/air.py >target/tests/bytes_on_the_air.txt
stored_lines target/tests/bytes_on_the_air.txt docs/PERFORMANCE.md
echo "air: the pictures and tables are the script's"
