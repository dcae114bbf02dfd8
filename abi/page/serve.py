#!/usr/bin/env python3
"""Serves a counter to look at, on this machine alone. Usage: serve.py libkijolvar.so [PORT]; port 0 takes a free one.

The page asks by POST /type (lines), /scan (a code) and /pay, each answered with the whole state as JSON, as GET /state
is.
"""
import http.server
import json
import os
import sys

HERE = os.path.dirname(os.path.abspath(__file__))
sys.path.insert(0, os.path.join(HERE, os.pardir, "python"))

from shop import EAN13, Shop
from till import load

LONGEST = 150_000


class Handler(http.server.BaseHTTPRequestHandler):
    """One request after the other, over one till. What another site sends is refused."""

    # Seconds. Browsers open connections ahead, and say nothing there.
    timeout = 2

    def answer(self, status, kind, body):
        self.send_response(status)
        self.send_header("Content-Type", kind)
        self.send_header("Content-Length", str(len(body)))
        self.send_header("Cache-Control", "no-store")
        self.end_headers()
        self.wfile.write(body)

    def tell(self):
        self.answer(200, "application/json", json.dumps(self.server.shop.state()).encode())

    def refuse(self, status):
        self.answer(status, "text/plain; charset=utf-8", b"refused\n")

    def is_ours(self):
        """Whether the request is for this server by its own address, so that no name of another site leads here."""
        port = self.server.server_address[1]
        return self.headers.get("Host") in (f"127.0.0.1:{port}", f"localhost:{port}")

    def do_GET(self):
        if not self.is_ours():
            return self.refuse(403)
        if self.path == "/state":
            return self.tell()
        if self.path != "/":
            return self.refuse(404)
        with open(os.path.join(HERE, "page.html"), "rb") as page:
            return self.answer(200, "text/html; charset=utf-8", page.read())

    def do_POST(self):
        # A page of another site can't send JSON here without being asked for leave, which this server never gives.
        if not self.is_ours() or self.headers.get("Content-Type") != "application/json":
            return self.refuse(403)
        try:
            length = int(self.headers.get("Content-Length") or 0)
            if not 0 <= length <= LONGEST:
                return self.refuse(413)
            word = json.loads(self.rfile.read(length))
            code = word.encode().hex() or "-"
        except (ValueError, AttributeError):
            return self.refuse(400)
        shop = self.server.shop
        if self.path == "/type":
            shop.type(word)
        elif self.path == "/scan":
            shop.type(f"input scanner scan {EAN13} {code} {code}")
        elif self.path == "/pay":
            shop.pay()
        else:
            return self.refuse(404)
        return self.tell()

    def log_message(self, *_):
        """Nothing is logged: the page shows what was asked."""


def listening(port):
    """The server at a port."""
    try:
        return http.server.HTTPServer(("127.0.0.1", port), Handler)
    except (OSError, OverflowError) as fault:
        sys.exit(f"port {port} can't be used ({fault}): give another one, or 0 for a free one")


def main():
    if len(sys.argv) not in (2, 3):
        sys.exit(__doc__)
    with open(os.path.join(HERE, "profile.toml"), encoding="utf-8") as profile:
        text = profile.read()
    port = int(sys.argv[2]) if len(sys.argv) == 3 else 8080
    with Shop(load(sys.argv[1]), text) as shop, listening(port) as server:
        server.shop = shop
        print(f"http://127.0.0.1:{server.server_address[1]}/", flush=True)
        try:
            server.serve_forever()
        except KeyboardInterrupt:
            pass


main()
