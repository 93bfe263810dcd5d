#!/usr/bin/env bash
# Times `kproxy replay` on exchanges with long bodies, against `xxd -r -p` (Debian package xxd) on the same hexadecimal
# bytes, in processor time. Builds the program first where need be. An earlier program may be named: Heartbeats and a
# great answer are then held against it.
set -u
cd "$(dirname "${BASH_SOURCE[0]}")/.." || exit 1
./kproxy replay </dev/null || exit 1
exec python3 bench/codec.py crates/kproxy/out/kproxy "$@"
