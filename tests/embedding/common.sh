# What the tests of the archive share: a compiler for it, a count, and a room of their own. To be sourced by a test that stands in the project's root.
passed=0
failed=0
room=$(mktemp -d) || exit 2
trap 'rm -rf "$room"' EXIT
archive=crates/cheesetrestle/out/libcheesetrestle.a
compiler=(cc)
strict=(-std=c99 -pedantic -O2 -Wall -Wextra -Wconversion -Wsign-conversion -Wshadow -Wundef -Wcast-qual -Wstrict-prototypes -Werror -Iinclude)

check() { # WHAT COMMAND..
    local what=$1
    shift
    if "$@" >"$room/said" 2>&1; then
        passed=$((passed + 1))
    else
        failed=$((failed + 1))
        printf '%s:\n' "$what"
        cat "$room/said"
    fi
}

# Takes over the count of a command that has one in its last line; it has to be at least LEAST. A command that ends badly counts as one failure.
counted() { # WHAT LEAST COMMAND..
    local what=$1 least=$2 status last
    shift 2
    "$@" >"$room/said"
    status=$?
    last=$(tail -n 1 "$room/said")
    if [ "$status" -eq 0 ] && [[ $last =~ ^([0-9]+)\ passed,\ 0\ failed$ ]] && [ "${BASH_REMATCH[1]}" -ge "$least" ]; then
        passed=$((passed + BASH_REMATCH[1]))
    else
        failed=$((failed + 1))
        printf '%s (status %s, at least %s must pass):\n' "$what" "$status" "$least"
        cat "$room/said"
    fi
}

# Builds tests/embedding/NAME.c, or another FILE, against the archive.
build() { # NAME [FILE]
    check "$1 could not be built" "${compiler[@]}" "${strict[@]}" -D_DEFAULT_SOURCE -o "$room/$1" "${2:-tests/embedding/$1.c}" "$archive"
}

# Proves the crates that the archive is made of, over what is kept of them, and makes it.
make_archive() { (cd crates/cheesetrestle && rt lib); }

# The archive: in the gate the first of these tests has just made it; a test that is run by itself makes it where it is not there or older than its sources.
need_archive() {
    if [ ! -f "$archive" ] || [ -n "$(find crates.txt crates -name out -prune -o -newer "$archive" -type f -print -quit)" ]; then
        make_archive >"$room/said" 2>&1 || { cat "$room/said"; echo "the archive could not be made"; echo "0 passed, 1 failed"; exit 1; }
    fi
}

finish() { # LEAST: how many there must be
    if [ "$((passed + failed))" -lt "$1" ]; then
        echo "only $((passed + failed)) of at least $1 were tried"
        failed=$((failed + 1))
    fi
    echo "$passed passed, $failed failed"
    [ "$failed" -eq 0 ]
}
