# shellcheck shell=bash
# What every test begins with and what tests share. A test, tests/NAME/run, says
#
#     cd "$(dirname "${BASH_SOURCE[0]}")/../.." && . tests/shared/test.sh || exit 2
#     check "what has to hold" COMMAND WORD..
#     finish
#
# and is at the root of the repository from then on. `room` is a folder for its files, which is removed at the end.
set -u
exec </dev/null
. tests/shared/counts.sh
room=$(mktemp -d) || exit 2
trap 'rm -rf "$room"' EXIT

# Counts one test: a command that passes where it ends with 0. What the command leaves in `note` is said after the name.
check() { # NAME COMMAND..
    local name=$1 note=
    shift
    if "$@"; then
        passed=$((passed + 1))
        echo "ok: $name${note:+: $note}"
    else
        failed=$((failed + 1))
        echo "FAILED: $name${note:+: $note}"
    fi
}

# Counts the tests of a program as it reports them.
counted() { # COMMAND WORD..
    local status
    "$@" >"$room/said" 2>&1
    status=$?
    cat "$room/said"
    add_counts "$room/said" "$status"
}

# Runs a command with a folder as its first word, which is removed afterwards.
in_folder() { # COMMAND WORD..
    local command=$1 folder status
    shift
    folder=$(mktemp -d) || return 1
    "$command" "$folder" "$@"
    status=$?
    rm -rf "$folder"
    return $status
}

# Runs a program of the reference.
reference() { # PROGRAM WORD..
    local program=$1
    shift
    cargo run --quiet --release --offline --manifest-path reference/Cargo.toml --bin "$program" -- "$@"
}

# Proves and builds libraries for C and programs by tests/build, and prints what that said where it failed.
build() { # NAME..
    tests/build "$@" >"$room/built" 2>&1 || { cat "$room/built" && return 1; }
}

# Builds the libraries and programs that a test needs; the test ends, without its counts, where one cannot be built.
needs() { # NAME..
    build "$@" || exit 1
}

# Builds a C program of sources and of libraries, which come last, with gcc's checks of addresses and of undefined
# behaviour.
c_program() { # PROGRAM WORD..
    local program=$1
    shift
    gcc -std=c11 -g -O1 -Wall -Wextra -Werror -fsanitize=address,undefined -fno-sanitize-recover=all \
        -Iinclude -Iexamples -Itests/shared -o "$program" "$@"
}

# The same of the C sources in a test's folder, with those that the tests share.
c_test() { # PROGRAM TEST WORD..
    c_program "$1" tests/"$2"/*.c tests/shared/*.c "${@:3}"
}

# Does a test fail, and say so, where the variable SEAL_FAULT asks for this fault?
fails_with() { # FAULT COMMAND WORD..
    local status
    (export SEAL_FAULT=$1 && "${@:2}") >"$room/said" 2>&1
    status=$?
    if [ "$status" -ne 1 ] || grep -q ', 0 failed$' "$room/said"; then
        cat "$room/said"
        return 1
    fi
}

# Does the test that is so named fail there, alone or with others?
fails_by() { # NAME FAULT COMMAND WORD..
    fails_with "${@:2}" || return 1
    grep -qF "FAILED: $1" "$room/said" || { cat "$room/said" && return 1; }
}
