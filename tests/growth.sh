#!/bin/sh
# The stored picture of how cost grows, and the lines of it in docs/PERFORMANCE.md, are those that their script makes of the stored table,
# which has every group from 4 to 32 columns.
set -eu
cd "$(dirname "$0")/.."
. tests/shared/build.sh
mkdir -p target/tests
needs python3 python3
python3 benchmarks/growth.py docs/cost_growth.tsv target/tests/cost_growth.svg
cmp docs/cost_growth.svg target/tests/cost_growth.svg
python3 benchmarks/growth.py docs/cost_growth.tsv >target/tests/cost_growth.txt
stored_lines target/tests/cost_growth.txt docs/PERFORMANCE.md
echo "growth: the picture and the lines are those of the stored table"
