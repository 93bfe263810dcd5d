#!/usr/bin/env bash
# Times `kproxy replay` on generated scripts, and `xxd -r -p` (Debian package xxd) on the same hexadecimal bytes. Builds
# the program first where need be. A program may be named, to be run in kproxy's place.
set -u
cd "$(dirname "${BASH_SOURCE[0]}")/.." || exit 1
program=${1:-}
if [ -z "$program" ]; then
    ./kproxy replay </dev/null || exit 1
    program=crates/kproxy/out/kproxy
fi
exec python3 bench/replay.py "$program"
