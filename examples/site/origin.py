#!/usr/bin/env python3
"""The origin of the example site: the files of pages/, each with the field by which an edge knows
whether it is a template and how long it may be kept.

    origin.py [PORT]        serves on 127.0.0.1, on a free port where none is named, and prints where

It can be told how a path is to answer from now on, and says how often a path was asked:

    /-/tell?path=/weather&as=slow       after 3 seconds (slow:200: after 200 milliseconds)
    /-/tell?path=/weather&as=failing    with status 500
    /-/tell?path=/weather&as=short      with half of its body, and then the connection is cut
    /-/tell?path=/weather&as=hanging    never
    /-/tell?path=/weather&as=usual      as its file has it
    /-/asked?path=/weather              the number of times
"""
import http.server
import os
import sys
import threading
import time
import urllib.parse

PAGES = os.path.join(os.path.dirname(os.path.realpath(__file__)), "pages")
HTML = "text/html; charset=utf-8"
# Each path, with its file, its type and its Surrogate-Control.
SITE = {
    "/": ("front.html", HTML, 'max-age=2, content="ESI/1.0"'),
    "/story": ("story.html", HTML, 'max-age=60, content="ESI/1.0"'),
    "/headlines": ("headlines.html", HTML, 'max-age=10, content="ESI/1.0"'),
    # Kept for 5 seconds, and for 60 more if this origin fails.
    "/weather": ("weather.html", HTML, "max-age=5+60"),
    "/own-advert": ("own-advert.html", HTML, "max-age=300"),
    "/tide": ("tide.txt", "text/plain", "no-store"),
    "/style": ("style.css", "text/css", "max-age=300"),
    "/welcome": ("welcome.html", HTML, ""),
}


class Site:
    """What the site answers, how it was told to, and what it was asked."""

    def __init__(self, paths=None):
        self.paths = dict(SITE if paths is None else paths)
        self.told = {}
        self.asked = {}
        self.heads = {}
        self.lock = threading.Lock()

    def tell(self, path, how):
        with self.lock:
            self.told[path] = how

    def count(self, path):
        with self.lock:
            return self.asked.get(path, 0)

    def take(self, path, head):
        """Counts a request, and says how it is to be answered."""
        with self.lock:
            self.asked[path] = self.asked.get(path, 0) + 1
            self.heads[path] = head
            return self.told.get(path, "usual")

    def answer(self, path):
        """Status, type, Surrogate-Control and body of a path."""
        if path not in self.paths:
            return 404, "text/plain", "", b"There is no such page.\n"
        body, kind, control = self.paths[path]
        if isinstance(body, str):
            with open(os.path.join(PAGES, body), "rb") as file:
                body = file.read()
        return 200, kind, control, body


class Handler(http.server.BaseHTTPRequestHandler):
    protocol_version = "HTTP/1.1"

    def log_message(self, *words):
        pass

    def do_GET(self):
        self.close_connection = True
        path, _, query = self.path.partition("?")
        if path.startswith("/-/"):
            return self.manage(path, dict(urllib.parse.parse_qsl(query)))
        site = self.server.site
        how = site.take(path, str(self.headers))
        if how == "hanging":
            self.server.closing.wait(60)
            return None
        if how.startswith("slow"):
            time.sleep(int(how.partition(":")[2] or 3000) / 1000)
        if how == "failing":
            return self.send(500, "text/plain", "", b"The origin fails.\n")
        status, kind, control, body = site.answer(path)
        return self.send(status, kind, control, body, len(body) // 2 if how == "short" else len(body))

    def manage(self, path, said):
        site = self.server.site
        if path == "/-/tell":
            site.tell(said.get("path", ""), said.get("as", "usual"))
            return self.send(200, "text/plain", "", b"told\n")
        return self.send(200, "text/plain", "", b"%d\n" % site.count(said.get("path", "")))

    def send(self, status, kind, control, body, sent=None):
        self.send_response(status)
        self.send_header("Content-Type", kind)
        self.send_header("Content-Length", str(len(body)))
        self.send_header("Connection", "close")
        if control:
            self.send_header("Surrogate-Control", control)
        self.end_headers()
        self.wfile.write(body[:sent])


class Origin(http.server.ThreadingHTTPServer):
    daemon_threads = True
    request_queue_size = 128

    def __init__(self, port=0, site=None):
        self.site = site or Site()
        self.closing = threading.Event()
        super().__init__(("127.0.0.1", port), Handler)

    def handle_error(self, request, client_address):
        # A client that has gone away isn't a fault of the origin.
        pass


if __name__ == "__main__":
    try:
        origin = Origin(int(sys.argv[1]) if len(sys.argv) > 1 else 0)
        print("origin on %s:%d" % origin.server_address, flush=True)
        origin.serve_forever()
    except KeyboardInterrupt:
        pass
