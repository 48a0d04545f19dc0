#!/usr/bin/env bash
# Four bidders in Python bid for two impressions, and each hears what became of its bids: why a bid lost, from the exchange itself.
#
#     examples/lost.sh        needs python3; where nothing is built yet, a quick build is made first
#
# It stops all that it starts, and ends by itself within seconds. It takes the first ports from LOST_PORT on (28111) at which nobody
# listens, all of 127.0.0.1. ADX names another program than ./adx.
set -eu
script=$(readlink -f "$0")
longest=120
cd "$(dirname "$script")/.."
. examples/running.sh
need python3
north=$(free_port "${LOST_PORT:-28111}")
south=$(free_port $((north + 1)))
east=$(free_port $((south + 1)))
west=$(free_port $((east + 1)))
exchange=$(free_port $((west + 1)))

echo "# Four bidders: north bids 2.5, south 2, east 0.2, which is below the floor, and west for a campaign that the roster hasn't"
python3 examples/bidder.py "$north" n shoes 2.5 >"$folder/north" &
python3 examples/bidder.py "$south" s boats 2 >"$folder/south" &
python3 examples/bidder.py "$east" e books 0.2 >"$folder/east" &
python3 examples/bidder.py "$west" w typo 3 >"$folder/west" &
for port in "$north" "$south" "$east" "$west"; do
    for _ in $(seq 100); do
        ! (exec 3<>"/dev/tcp/127.0.0.1/$port") 2>/dev/null || break
        sleep 0.1
    done
done
cat >"$folder/roster" <<END
{"day":"2025-03-01","base":"http://127.0.0.1:$exchange","bidders":[{"name":"north","port":$north},{"name":"south","port":$south},{"name":"east","port":$east},{"name":"west","port":$west}],"campaigns":[{"bidder":"north","seat":"n","cid":"shoes","budget":1},{"bidder":"south","seat":"s","cid":"boats","budget":1},{"bidder":"east","seat":"e","cid":"books","budget":1},{"bidder":"west","seat":"w","cid":"hats","budget":1}]}
END
start "$exchange" serve --roster "$folder/roster" --journal "$folder/journal" --workers 1

echo "# A publisher asks for a banner with a floor of 0.5 dollars, and calls the URLs of what is sold"
python3 examples/publisher.py "http://127.0.0.1:$exchange" examples/requests/banner.json
echo "# and for one that is sold by its deals alone: bids that name none aren't taken"
python3 examples/publisher.py "http://127.0.0.1:$exchange" examples/requests/deal.json

echo "# What each bidder heard: the exchange calls their URLs after each connection"
for _ in $(seq 100); do
    [ "$(cat "$folder"/north "$folder"/south "$folder"/east "$folder"/west | grep -vc '^bid')" -lt 9 ] || break
    sleep 0.1
done
for name in north south east west; do
    grep -v '^bid' "$folder/$name" | sed "s/^/$(printf '%-9s' "$name")/"
done
