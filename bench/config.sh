#!/usr/bin/env bash
# Times `kproxy check` and `kproxy plan` on files of up to 1,048,576 bytes, the limit of a configuration, in processor time.
# Builds the program first where need be. Status 1 where a byte costs over 1.3 times as much in a file of the limit as in
# one of a quarter of it.
set -u
cd "$(dirname "${BASH_SOURCE[0]}")/.." || exit 1
./kproxy replay </dev/null || exit 1
exec python3 bench/config.py crates/kproxy/out/kproxy
