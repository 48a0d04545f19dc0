#!/usr/bin/env bash
# Puts an exchange under load over sockets of this machine, and shows what it took: wrk asks for bids and bills what was sold, and two
# bidders answer.
#
#     examples/load.sh                   needs curl and wrk
#     LOAD_SECONDS=20 examples/load.sh   for so long (5, at most 60), and two minutes at most beside it
#     LOAD_WORKERS=8 examples/load.sh    with so many workers, and as many connections (4)
#
# It stops all that it starts. It takes the first three ports from LOAD_PORT on (28091) at which nobody listens, all of 127.0.0.1. The
# journal is in a folder of TMPDIR (/tmp), so that the figures are of that folder's disk. ADX names another program than the one that ./adx runs.
set -eu
script=$(readlink -f "$0")
seconds=${LOAD_SECONDS:-5}
workers=${LOAD_WORKERS:-4}
[ "$seconds" -le 60 ] || { echo "load.sh: LOAD_SECONDS is at most 60" >&2; exit 1; }
longest=$((seconds + 120))
cd "$(dirname "$script")/.."
. examples/running.sh
need curl
need wrk
north=$(free_port "${LOAD_PORT:-28091}")
south=$(free_port $((north + 1)))
exchange=$(free_port $((south + 1)))

echo "{\"seat\":\"n\",\"base\":\"http://127.0.0.1:$north\",\"prices\":[{\"cid\":\"shoes\",\"price\":2.5}]}" >"$folder/north.prices"
echo "{\"seat\":\"s\",\"base\":\"http://127.0.0.1:$south\",\"prices\":[{\"cid\":\"boats\",\"price\":2.25}]}" >"$folder/south.prices"
cat >"$folder/roster" <<END
{"day":"2025-03-01","base":"http://127.0.0.1:$exchange","bidders":[{"name":"north","port":$north},{"name":"south","port":$south}],"campaigns":[{"bidder":"north","seat":"n","cid":"shoes","budget":1000},{"bidder":"south","seat":"s","cid":"boats","budget":1000}]}
END
start "$north" bid --prices "$folder/north.prices"
start "$south" bid --prices "$folder/south.prices"
start "$exchange" serve --roster "$folder/roster" --journal "$folder/journal" --workers "$workers"

# What the exchange's process takes of the machine, where the system has /proc.
taken() {
    [ ! -r "/proc/$started/status" ] || echo "process   $(sed -n 's/^VmHWM:[[:space:]]*\([0-9]*\) kB/\1/p' "/proc/$started/status") KB at most, $(ps -o time= -p "$started") of processors"
}

echo "# $workers connections for $seconds seconds to an exchange with $workers workers; a call is a request for bids, or the bill of one that was sold"
# wrk's own lines say the same in other words
timeout $((seconds + 30)) wrk -t 1 -c "$workers" -d "$seconds" --latency -s examples/load.lua "http://127.0.0.1:$exchange" | sed -n '/^calls/,$p'
# the workers send first what they owe
patience=60
echo "meters    $(call "http://127.0.0.1:$exchange/meters")"
taken
end -TERM "$started"
echo "journal   $(wc -c <"$folder/journal") bytes"

echo "# The notices that the day owes its bidders, once more"
begun=$(date +%s%N)
status=0
timeout 30 "$adx" post --roster "$folder/roster" --journal "$folder/journal" || status=$?
echo "post      status $status, $("$adx" notices --journal "$folder/journal" <"$folder/roster" | wc -l) notices in $((($(date +%s%N) - begun) / 1000000)) ms"

echo "# The bills of both sides, compared"
for name in north south; do
    { cat "$folder/roster"; call "http://127.0.0.1:${!name}/ledger"; } | "$adx" reconcile --journal "$folder/journal" --bidder "$name" | tail -n 1 | sed "s/^/$(printf '%-10s' "$name")/"
done
