#!/bin/sh
# Makes the stored vectors of the programs check_vectors and repair_vectors with libfec (Debian's libfec-dev, installed where
# it is missing), and the line that each program must write. Each run makes the same bytes.
set -eu
cd "$(dirname "$0")"
if ! [ -f /usr/include/fec.h ]; then
    apt-get update
    apt-get install -y libfec-dev
fi
room=$(mktemp -d)
trap 'rm -rf "$room"' EXIT
cc -std=c11 -O2 -Wall -Wextra -Werror -o "$room/make" make.c -lfec
make_file() { # KIND CRATE CALL
    "$room/make" "$1" >"../../crates/$2/stdin" 2>"$room/said"
    records=$(sed 's/:.*//' "$room/said")
    echo "$3: $records vectors agree" >"../../crates/$2/stdout"
    echo "crates/$2/stdin: $(cat "$room/said")"
}
make_file checks check_vectors 'check values'
make_file repairs repair_vectors repair
