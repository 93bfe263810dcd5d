#!/usr/bin/env bash
# Times a connection by calls alone, in processor time: plain exchanges with 1 and with 64 requests in flight, and rounds in
# which all in flight are held, and go on once the oldest has its verdict. The program is proved and built first. Status 1
# where a plain request costs over 1.3 times as much with 64 in flight as with 1, or any request in the tenfold run.
set -u
cd "$(dirname "${BASH_SOURCE[0]}")/.." || exit 1
(cd crates/hold_bench && rt run -- held 64 3) </dev/null >/dev/null 2>&1 ||
    { echo "holds: the program could not be built"; exit 1; }
exec python3 bench/holds.py crates/hold_bench/out/hold_bench
