#!/usr/bin/env bash
# A day to look at, by plain commands: an exchange and two bidders on this machine, traffic of a few asks a second, of which some are billed and
# some lost, and tools/board and tools/metrics over it. In the end the day is closed, and tools/report makes its page. tools/demo shows more of it.
#
#     examples/board.sh                     for a minute; needs curl and python3
#     BOARD_SECONDS=600 examples/board.sh   for so long (at most 3,600)
#     REPORT=day.html examples/board.sh     keeps the report there
#
# It stops all that it starts. It takes the first five ports from BOARD_PORT on (28101) at which nobody listens. ADX names another program than ./adx.
set -eu
script=$(readlink -f "$0")
seconds=${BOARD_SECONDS:-60}
[ "$seconds" -le 3600 ] || { echo "board.sh: BOARD_SECONDS is at most 3600" >&2; exit 1; }
longest=$((seconds + 60))
report=$(readlink -f "${REPORT:-/dev/null}")
cd "$(dirname "$script")/.."
. examples/running.sh
need curl
need python3
north=$(free_port "${BOARD_PORT:-28101}")
south=$(free_port $((north + 1)))
exchange=$(free_port $((south + 1)))
board=$(free_port $((exchange + 1)))
metrics=$(free_port $((board + 1)))

echo "{\"seat\":\"n\",\"base\":\"http://127.0.0.1:$north\",\"prices\":[{\"cid\":\"shoes\",\"price\":2.5},{\"cid\":\"hats\",\"price\":2.4}]}" >"$folder/north.prices"
echo "{\"seat\":\"s\",\"base\":\"http://127.0.0.1:$south\",\"prices\":[{\"cid\":\"boats\",\"price\":2.25}]}" >"$folder/south.prices"
cat >"$folder/roster" <<END
{"day":"2025-03-01","base":"http://127.0.0.1:$exchange","bidders":[{"name":"north","port":$north},{"name":"south","port":$south}],"campaigns":[{"bidder":"north","seat":"n","cid":"shoes","budget":0.5},{"bidder":"north","seat":"n","cid":"hats","budget":0.25},{"bidder":"south","seat":"s","cid":"boats","budget":0.75}]}
END
start "$north" bid --prices "$folder/north.prices"
start "$south" bid --prices "$folder/south.prices"
start "$exchange" serve --roster "$folder/roster" --journal "$folder/journal" --workers 4
serving=$started
tools/board --exchange "127.0.0.1:$exchange" --port "$board" --journal "$folder/journal" --allow-budget-changes &
tools/metrics --exchange "127.0.0.1:$exchange" --port "$metrics" &

# One ask, and what becomes of its awards: of ten asks six are billed, two are lost, and two stay open.
trade() {
    local urls
    urls=$(call "http://127.0.0.1:$exchange/openrtb" -d "{\"id\":\"a$1\",\"imp\":[{\"id\":\"1\"},{\"id\":\"2\"}]}" | grep -o "http://[^\"]*/notice/$2?[^\"]*") || true
    [ -z "$urls" ] || [ $(($1 % 5)) = 4 ] || xargs -n 1 curl -s -o "$folder/reply" --max-time 10 <<<"$urls"
}

end=$((SECONDS + seconds))
asks=0
while [ $SECONDS -lt $end ]; do
    asks=$((asks + 1))
    if [ $((asks % 5)) = 3 ]; then trade $asks loss; else trade $asks bill; fi
    sleep 0.1
done

echo "# The meters, as Prometheus would have them"
call "http://127.0.0.1:$metrics/metrics" | grep -v '^#' | sed -n 1,12p
echo "# The exchange is ended, and the day is closed"
end -TERM "$serving"
"$adx" close --journal "$folder/journal" <"$folder/roster" >"$folder/document"
"$adx" check <"$folder/document"
ratio=$("$adx" close --ratio --journal "$folder/journal" <"$folder/roster")
tools/report "$folder/document" --journal "$folder/journal" --ratio "$ratio" >"$report"
tools/report --text "$folder/document" --journal "$folder/journal" --ratio "$ratio"
