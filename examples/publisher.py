#!/usr/bin/env python3
"""A publisher to test with: publisher.py EXCHANGE REQUEST. It sends the file REQUEST, an OpenRTB request with a new id, to EXCHANGE (as
http://127.0.0.1:8080), and calls the URLs of what is sold, as a page does that shows the ad."""
import json
import sys
import uuid
from urllib.error import HTTPError
from urllib.request import Request, urlopen

if len(sys.argv) != 3:
    sys.exit(__doc__)
exchange, path = sys.argv[1:]
with open(path, encoding='utf-8') as file:
    request = {**json.load(file), 'id': uuid.uuid4().hex}
try:
    with urlopen(Request(exchange + '/openrtb', json.dumps(request).encode(), {'Content-Type': 'application/json'}), timeout=5) as reply:
        answer = json.load(reply) if reply.status == 200 else {'seatbid': []}
except HTTPError as fault:
    sys.exit('publisher: status %d: %s' % (fault.code, fault.read().decode()))
except OSError as fault:
    sys.exit('publisher: %s: %s' % (exchange, fault))
if not answer['seatbid']:
    print('nothing sold')
for seat in answer['seatbid']:
    for bid in seat['bid']:
        print('sold to', seat['seat'], 'at', bid['price'])
        for name in ('nurl', 'burl'):
            with urlopen(bid[name], timeout=5) as reply:
                print(name, reply.status)
