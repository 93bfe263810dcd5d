#!/usr/bin/env bash
# Runs `kproxy replay` at the limits of a line and of a script, which are too large for the tests. Builds the program
# first where need be. A program may be named, to be run in kproxy's place.
set -u
cd "$(dirname "${BASH_SOURCE[0]}")/.." || exit 1
program=${1:-./kproxy}
failed=0

# A piece of the client's stream with so many digits, all of them zeros: a frame's size that is below the least.
line() {
    printf 'client '
    head -c "$1" /dev/zero | tr '\0' '0'
    echo
}

# What is run, and what it is to write, with its status behind.
is() {
    local written
    written=$({ "$program" replay; echo "status $?"; } | tr '\n' ' ')
    if [ "$written" = "$2 " ]; then
        echo "ok      $1"
    else
        echo "FAILED  $1: $written"
        failed=1
    fi
}

longest=268435448
lines() {
    for _ in $(seq "$1"); do line $longest; done
}

within() {
    lines 3
    line $((longest - 50))
    printf 'client -\nclient -'
}

is "the longest line" "ok status 0" < <(lines 1)
is "a line past its limit" "bad line 1 status 1" < <(line $((longest + 2)))
is "a script within its limit" "ok ok ok ok ok ok status 0" < <(within)
is "a script past its limit" "ok ok ok ok too-long status 1" < <(lines 5)
exit "$failed"
