# shellcheck shell=bash disable=SC2034
# Sourced by the tests of the script, in the root of the checkout: one case is a command with its exit status and every word that it prints.
set -u
room=$(mktemp -d) || exit 2
trap 'rm -rf "$room"' EXIT
# A case may run as nobody.
chmod 755 "$room"
passed=0
failed=0
run=$PWD/cheesetrestle

# Each case has standard input from $given, and expects $wanted on standard output, $said on standard error and this exit status.
given=/dev/null
wanted=
said=
expect() { # NAME STATUS COMMAND..
    local name=$1 status=$2 found
    shift 2
    "$@" <"$given" >"$room/out" 2>"$room/err"
    found=$?
    judge_case "$name" "$status" "$found"
}

# The same for a command that has run already: what it printed stands in $room/out and $room/err.
judge_case() { # NAME STATUS FOUND
    if [ "$2" = "$3" ] && printf '%s' "$wanted" | cmp -s - "$room/out" && printf '%s' "$said" | cmp -s - "$room/err"; then
        passed=$((passed + 1))
    else
        failed=$((failed + 1))
        printf 'DIFFERENT: %s\n  expected status %s, output and error:\n%s\n%s\n  found status %s, output and error:\n' "$1" "$2" "$wanted" "$said" "$3"
        head -c 2000 "$room/out" "$room/err"
    fi
    given=/dev/null
    wanted=
    said=
}

bytes() { printf '%b' "$(printf '%s' "$1" | tr -d ' ' | sed 's/../\\x&/g')"; } # HEXADECIMAL

# The commands that give up root where the test is root's, since root may read and write everything.
nobody=()
[ "$(id -u)" != 0 ] || nobody=(setpriv --reuid=65534 --regid=65534 --clear-groups)

# Builds what is not built yet, so that no case says that it does.
warm() { # PROGRAM..
    local program
    for program in "$@"; do
        "$run" "$program" </dev/null >/dev/null || [ $? = 1 ] || { echo "$program cannot be started"; echo "0 passed, 1 failed"; exit 1; }
    done
}

# The last line. Cases that were not run are a failure too: the test says how many it has.
finish() { # CASES
    if [ $((passed + failed)) -lt "$1" ]; then
        echo "$((passed + failed)) cases were run, and there are $1"
        failed=$((failed + 1))
    fi
    echo "$passed passed, $failed failed"
    [ "$failed" -eq 0 ]
}
