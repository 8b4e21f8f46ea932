#!/bin/sh
# The programs that run stored vectors see one that is wrong: with one byte of the last vector changed, each names that vector.
set -eu
cd "$(dirname "$0")/.."
. tests/shared/build.sh

names_the_last() { # PROGRAM COUNT WHAT BEHIND: so many bytes stand behind the one that is changed
    proved_program "$1"
    program=crates/$1/out/$1
    stored=crates/$1/stdin
    changed=target/tests/$1.changed
    byte=$(tail -c $(($4 + 1)) "$stored" | head -c 1 | od -An -tu1)
    head -c -$(($4 + 1)) "$stored" >"$changed"
    printf "\\$(printf %o $((byte ^ 1)))" >>"$changed"
    tail -c "$4" "$stored" >>"$changed"
    said=$("$program" <"$changed")
    if [ "$said" != "$3: 1 of $2 vectors differ, the first is number $2" ]; then
        echo "$1 says of its stored vectors with one byte of the last changed: $said" >&2
        exit 1
    fi
}

names_the_last check_vectors 2450 "check values" 0
names_the_last repair_vectors 5331 repair 0
# The lowest byte of the level of Ask 3's example, whose 1005 becomes the 1004 of the scope: behind it stand the correction, the own value,
# 32 heights and 32 confidences.
names_the_last level_cases 2611 level $((5 + 8 + 32 * 4 + 32))
echo "changed_vector: each program names the one vector that is wrong"
