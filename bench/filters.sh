#!/usr/bin/env bash
# Times `kproxy replay` over a cluster of four filters and over one without, against the same without a configuration, on
# 100,000 Heartbeats, in processor time. Builds the program first where need be. Status 1 where it takes over 1.5 times as
# much with four filters, or over 1.1 times without.
set -u
cd "$(dirname "${BASH_SOURCE[0]}")/.." || exit 1
./kproxy replay </dev/null || exit 1
exec python3 bench/filters.py crates/kproxy/out/kproxy
