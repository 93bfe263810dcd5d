#!/usr/bin/env bash
# Times requests under chains of probes, in processor time: one million polls with 1, 4 and 8 probes, and with three that
# ask, so that a request has 8 answers, or 64. The program is proved and built first. Status 1 where a poll costs over 1.3
# times as much a probe in a longer chain, or an answer over 1.3 times as much where a request has 64 in place of 8.
set -u
cd "$(dirname "${BASH_SOURCE[0]}")/.." || exit 1
(cd crates/poll_bench && rt run -- 3 1 10) </dev/null >/dev/null 2>&1 ||
    { echo "polls: the program could not be built"; exit 1; }
exec python3 bench/polls.py crates/poll_bench/out/poll_bench
