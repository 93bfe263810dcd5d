#!/usr/bin/env bash
# Times a connection that stays full, with 64 requests in flight: two tests of conn_core, which are proved and built
# first. Status 1 where a request costs over 1.3 times as much in the tenfold run.
set -u
cd "$(dirname "${BASH_SOURCE[0]}")/../crates/conn_core" || exit 1
rt test >/dev/null || { echo "in_flight: the tests of conn_core did not pass"; exit 1; }

# The least time of seven runs, in microseconds.
least() {
    local best=0 start spent
    for _ in 1 2 3 4 5 6 7; do
        start=$(date +%s%N)
        out/conn_core_tests "$1" >/dev/null || return 1
        spent=$((($(date +%s%N) - start) / 1000))
        if [ "$best" -eq 0 ] || [ "$spent" -lt "$best" ]; then best=$spent; fi
    done
    echo "$best"
}

few=$(least steady::ten_thousand_requests) || exit 1
many=$(least steady::a_hundred_thousand_requests) || exit 1
echo "64 in flight: 10,000 requests in $few microseconds, 100,000 in $many"
awk -v few="$few" -v many="$many" 'BEGIN {
    growth = many / (10 * few)
    printf "time per request, larger over smaller: %.2f (at most 1.3) %s\n", growth, growth <= 1.3 ? "ok" : "MISSED"
    exit growth > 1.3
}'
