#!/usr/bin/env bash
# Measures `sheets serve` beside two servers of the same two calls, by turns in one run: `wrk` (Debian has it) reads
# and writes one cell of a sheet of 1,000 rows and 26 columns on 1, 2 and 8 connections that are kept open. Each
# measurement has a server of its own. The best of the rounds is printed, in requests a second, with ratios: the ratios
# of one run can be compared, the numbers of two can't.
#
#     ./sheets run < examples/first.http         # builds the program
#     bench/serve.sh FOLDER [SECONDS] [ROUNDS]   # FOLDER has the programs rust_baseline_hyper and rust_baseline
set -euo pipefail

top=$(cd "$(dirname "$0")/.." && pwd)
others=${1:?the folder of the programs rust_baseline_hyper and rust_baseline}
seconds=${2:-5}
rounds=${3:-3}
port=18100

# becomes one of the servers
start() {
    case $1 in
        sheets) exec "$top/crates/sheets/out/sheets" serve --port "$port" --limit 1000000 ;;
        hyper) exec "$others/rust_baseline_hyper" "$port" ;;
        threads) exec "$others/rust_baseline" "$port" ;;
    esac
}

# the requests a second of a server, of gets or puts on so many connections, and how many failed
rate() {
    port=$((port + 1))
    start "$1" >/dev/null 2>&1 &
    server=$!
    until (exec 3<>"/dev/tcp/127.0.0.1/$port") 2>/dev/null; do
        kill -0 "$server" || return
        sleep 0.05
    done
    MODE=$2 wrk -t $(($3 > 2 ? 2 : $3)) -c "$3" -d "${seconds}s" -s "$top/bench/serve.lua" "http://127.0.0.1:$port" |
        sed -n 's/^RATE //p' >"$measured"
    kill "$server"
    wait "$server" 2>/dev/null || true
    server=
}

measured=$(mktemp)
server=
trap 'rm -f "$measured"; [ -z "$server" ] || kill "$server" 2>/dev/null' EXIT
for mode in get put; do
    for connections in 1 2 8; do
        declare -A best=([sheets]=0 [hyper]=0 [threads]=0)
        failed=0
        for ((round = 0; round < rounds; round++)); do
            for name in sheets hyper threads; do
                rate "$name" "$mode" "$connections"
                read -r requests errors <"$measured"
                failed=$((failed + errors))
                if [ "$requests" -gt "${best[$name]}" ]; then best[$name]=$requests; fi
            done
        done
        awk -v mode="$mode" -v connections="$connections" -v failed="$failed" \
            -v sheets="${best[sheets]}" -v hyper="${best[hyper]}" -v threads="${best[threads]}" 'BEGIN {
                printf "%s, %d connections: sheets %d/s, hyper %d/s, threads %d/s; ", \
                    mode, connections, sheets, hyper, threads
                printf "%.2f of hyper, %.2f of threads; %d failed\n", sheets / hyper, sheets / threads, failed }'
    done
done
