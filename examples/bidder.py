#!/usr/bin/env python3
"""A bidder to test with: bidder.py PORT SEAT CID PRICE. It bids PRICE (dollars per thousand) for each impression, and prints a line for
each request and each notice. With SHOW=1 in the environment it prints requests as they come."""
import json
import os
import sys
from http.server import BaseHTTPRequestHandler, ThreadingHTTPServer
from urllib.parse import parse_qsl, urlsplit

if len(sys.argv) != 5:
    sys.exit(__doc__)
port, seat, cid, price = int(sys.argv[1]), sys.argv[2], sys.argv[3], float(sys.argv[4])
URLS = {'nurl': '/win?price=${AUCTION_PRICE}', 'burl': '/bill?price=${AUCTION_PRICE}', 'lurl': '/loss?reason=${AUCTION_LOSS}'}
urls = {name: 'http://127.0.0.1:%d%s' % (port, target) for name, target in URLS.items()}


class Bidder(BaseHTTPRequestHandler):
    def do_POST(self):
        body = self.rfile.read(int(self.headers['Content-Length'])).decode()
        request = json.loads(body)
        shown = [self.requestline, str(self.headers).strip(), '', body] if os.environ.get('SHOW') else ['bid ' + request['id']]
        print(*shown, sep='\n', flush=True)
        bids = [{'id': str(n), 'impid': imp['id'], 'cid': cid, 'price': price, **urls} for n, imp in enumerate(request['imp'])]
        self.send_response(200)
        self.end_headers()
        self.wfile.write(json.dumps({'id': request['id'], 'seatbid': [{'seat': seat, 'bid': bids}]}).encode())

    def do_GET(self):
        url = urlsplit(self.path)
        print(url.path[1:], *(value for _, value in parse_qsl(url.query)), flush=True)
        self.send_response(204)
        self.end_headers()

    def log_message(self, *words):
        pass


ThreadingHTTPServer(('127.0.0.1', port), Bidder).serve_forever()
