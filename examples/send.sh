#!/usr/bin/env bash
# A bidder takes connections, a day's journal owes it notices, and they are sent to it: afterwards both sides have the same bills.
#
#     examples/send.sh        needs curl
#
# It stops all that it starts, and ends by itself within seconds. It takes the first port from SEND_PORT on (28081) at which nobody
# listens; in what it shows `bidder` means 127.0.0.1 and that port. ADX names another program than the one that ./adx runs.
set -eu
script=$(readlink -f "$0")
longest=60
cd "$(dirname "$script")/.."
. examples/running.sh
need curl
port=$(free_port "${SEND_PORT:-28081}")
bidder=127.0.0.1:$port

# Shows the lines of standard input with a name for the address.
show() {
    sed "s/127\.0\.0\.1:$port/bidder/g"
}

echo "# A bidder takes connections"
start "$port" bid --prices examples/bidder.prices

echo "# A day of an exchange sells it an impression, which is won and billed"
sed "s/127\.0\.0\.1:28081/$bidder/g" examples/send.day >"$folder/day"
head -n 1 "$folder/day" >"$folder/roster"
"$adx" day --journal "$folder/journal" <"$folder/day" | show

echo "# What the day owes its bidder, and the status of sending it"
"$adx" notices --journal "$folder/journal" <"$folder/roster" | show
"$adx" post --roster "$folder/roster" --journal "$folder/journal" && echo "status $?"

echo "# What the bidder has counted"
call "http://$bidder/books"

echo "# The bills of both sides, compared"
{ cat "$folder/roster"; call "http://$bidder/ledger"; } |
    "$adx" reconcile --journal "$folder/journal" --bidder b1
