#!/usr/bin/env bash
# Two bidders and an exchange talk over sockets of this machine: three requests for bids are sold, two of the ads are shown and billed, one
# isn't, and in the end both sides have the same bills.
#
#     examples/talk.sh        needs curl
#
# It stops all that it starts, and ends by itself within a minute. It takes the first three ports from TALK_PORT on (28081) at which
# nobody listens. In what it shows `north`, `south` and `exchange` mean 127.0.0.1 and their ports. ADX names another program than the one that ./adx runs.
set -eu
script=$(readlink -f "$0")
longest=60
cd "$(dirname "$script")/.."
. examples/running.sh
need curl
north=$(free_port "${TALK_PORT:-28081}")
south=$(free_port $((north + 1)))
exchange=$(free_port $((south + 1)))

# Shows each line of standard input after a word, with names for addresses.
show() {
    sed -e "s/\"host\":\"127\.0\.0\.1\",\"port\":$north/\"host\":\"north\"/; s/\"host\":\"127\.0\.0\.1\",\"port\":$south/\"host\":\"south\"/" \
        -e "s/127\.0\.0\.1:$north/north/g; s/127\.0\.0\.1:$south/south/g; s/127\.0\.0\.1:$exchange/exchange/g" \
        -e "s/^/$(printf '%-9s' "$1")/" -e '$a\'
}

# Asks the exchange for bids, and shows what it sells.
ask() {
    echo "{\"id\":\"$1\",\"imp\":[{\"id\":\"1\"}]}" >"$folder/request"
    show ask <"$folder/request"
    call "http://127.0.0.1:$exchange/openrtb" -d "@$folder/request" >"$folder/sold"
    show sold <"$folder/sold"
}

# Calls a URL of the bid that was sold, and shows the status.
notice() {
    local url
    url=$(sed -e "s/.*\"$1\":\"\([^\"]*\)\".*/\1/" "$folder/sold")
    echo "$url $(call -o "$folder/reply" -w '%{http_code}' "$url")" | show "$1"
}

# Waits until a bidder's ledger has so many lines: the exchange sends what it owes after each connection.
wait_for() {
    for _ in $(seq 100); do
        [ "$(call "http://127.0.0.1:$1/ledger" | wc -l)" -lt "$2" ] || return 0
        sleep 0.1
    done
    echo "talk.sh: a bidder didn't hear of all its bids" >&2
    exit 1
}

cat >"$folder/north.prices" <<END
{"seat":"n","base":"http://127.0.0.1:$north","prices":[{"cid":"shoes","price":2.5}]}
END
cat >"$folder/south.prices" <<END
{"seat":"s","base":"http://127.0.0.1:$south","prices":[{"cid":"boats","price":2}]}
END
cat >"$folder/roster" <<END
{"day":"2025-03-01","base":"http://127.0.0.1:$exchange","bidders":[{"name":"north","host":"127.0.0.1","port":$north},{"name":"south","host":"127.0.0.1","port":$south}],"campaigns":[{"bidder":"north","seat":"n","cid":"shoes","budget":0.005},{"bidder":"south","seat":"s","cid":"boats","budget":0.01}]}
END

echo "# Two bidders take connections (adx bid), each with a line of prices, and an exchange with its roster (adx serve)"
start "$north" bid --prices "$folder/north.prices"
start "$south" bid --prices "$folder/south.prices"
start "$exchange" serve --roster "$folder/roster" --journal "$folder/journal" --workers 4
serving=$started
show north <"$folder/north.prices"
show south <"$folder/south.prices"
show roster <"$folder/roster"

echo "# A publisher asks for bids. The exchange asks both bidders, and north pays more. The ad is shown: it is won, and billed"
ask a1
notice nurl
notice burl
wait_for "$north" 2
wait_for "$south" 1

echo "# Half of north's budget is used now, so its bid weighs less, and south wins. The bill comes twice, and counts once"
ask a2
notice burl
notice burl
wait_for "$north" 3
wait_for "$south" 2

echo "# South wins again, but this ad isn't shown: a loss gives the money back"
ask a3
notice lurl
wait_for "$north" 4
wait_for "$south" 3

echo "# The exchange's books and meters"
call "http://127.0.0.1:$exchange/books" | show books
call "http://127.0.0.1:$exchange/meters" | show meters

echo "# What the bidders heard of it: their books, and their ledgers"
for name in north south; do
    call "http://127.0.0.1:${!name}/books" | show "$name"
    call "http://127.0.0.1:${!name}/ledger" | tee "$folder/$name.ledger" | show "$name"
done

echo "# The exchange is killed, and its journal has all that it answered. The bills of both sides, compared"
end -9 "$serving"
for name in north south; do
    cat "$folder/roster" "$folder/$name.ledger" | "$adx" reconcile --journal "$folder/journal" --bidder "$name" | show "$name"
done

echo "# The notices of the day are sent once more, and the bidders count none of them again"
"$adx" post --roster "$folder/roster" --journal "$folder/journal" && echo "status $?" | show post
for name in north south; do
    call "http://127.0.0.1:${!name}/books" | show "$name"
done

echo "# The day is closed: a record with a certificate, which is checked. No way to give out the three ads earns more than this bound"
"$adx" close --journal "$folder/journal" <"$folder/roster" | "$adx" check | show check
