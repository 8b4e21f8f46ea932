# How the tests build what they run: the archive of the proved calls and the proved programs by rt, and programs against the archive, for
# release.

proved() { # CRATE VERB INPUT MADE: MADE in the crate's folder, by `rt VERB` where it is missing or a crate is newer than it
    mkdir -p target/tests
    made=crates/$1/$4
    if [ -e "$made" ] && [ -z "$(find crates.txt crates/*/* -name out -prune -o -newer "$made" -print -quit)" ]; then
        return
    fi
    (cd "crates/$1" && rt "$2" <"$3" && touch "$4") >"target/tests/$1.log" 2>&1 || { cat "target/tests/$1.log"; return 1; }
}

archive() { # crates/sajowemi/out/libsajowemi.a
    proved sajowemi lib /dev/null out/libsajowemi.a
}

proved_program() { # NAME: crates/NAME/out/NAME, which is run on the crate's stdin as it is built
    proved "$1" run stdin "out/$1"
}

needs() { # COMMAND PACKAGE: installs the Debian package where the command is missing
    command -v "$1" >/dev/null && return
    { apt-get update && apt-get install -y "$2"; } >target/tests/install.log 2>&1 || { cat target/tests/install.log; return 1; }
}

rust() { # SOURCE OUTPUT OPTION..
    archive
    needs rustc rustc
    source=$1
    output=$2
    shift 2
    rustc --edition 2024 -C opt-level=3 -C codegen-units=1 -L native=crates/sajowemi/out "$@" -o "$output" "$source"
}

rust_crate() { # target/tests/libsajowemi.rlib, the safe crate
    rust rust/src/lib.rs target/tests/libsajowemi.rlib --crate-name sajowemi --crate-type rlib -l static=sajowemi
}

rust_program() { # SOURCE OUTPUT OPTION..: one that calls the archive by itself, and leaves parts of models unused
    rust "$@" -A dead_code -l static=sajowemi
}

c_program() { # SOURCE OUTPUT OPTION..
    archive
    needs gcc gcc
    source=$1
    output=$2
    shift 2
    gcc -std=c11 -O2 -g -Wall -Wextra -Werror -Iinclude "$@" -o "$output" "$source" crates/sajowemi/out/libsajowemi.a
}

stored_lines() { # LINES PAGE: whether every line of a table that was printed stands in the page, in order and with nothing between
    python3 - "$1" "$2" <<'PYTHON'
import itertools, sys
printed, page = (open(name).read().split("\n") for name in sys.argv[1:])
text = "\n".join(page) + "\n"
for is_table, lines in itertools.groupby(printed, lambda line: line.startswith("|")):
    table = "\n".join(lines) + "\n"
    if is_table and table not in text:
        sys.exit(f"{sys.argv[2]} does not have this table as it is printed:\n{table}")
PYTHON
}
