#!/usr/bin/env python3
"""An application with a session, forms, redirects and a password, to be tried behind the edge:

    application.py PORT

It writes `<esi:include>` for those who say that they process it, and puts the fragment in itself for all others. It says
by `s-maxage` how long an answer may be kept. For each request it prints a line: the method, the URL, whether an `edge`
or somebody else (`direct`) asks, the scheme and the Host by which it is known to readers, and the cookies.
"""
import http.server
import sys

HOME = '<link rel="canonical" href="{scheme}://{host}/">\n'
NEWS = "<p>The lighthouse is lit.</p>\n"
SHARED = (("Cache-Control", "public, max-age=0, s-maxage=60"),)
PRIVATE = (("Cache-Control", "private, no-store"),)


class Handler(http.server.BaseHTTPRequestHandler):
    protocol_version = "HTTP/1.1"

    def log_message(self, *words):
        pass

    def do_GET(self):
        self.take()
        path = self.path.partition("?")[0]
        if path == "/":
            self.send(200, HOME.format(scheme=self.scheme, host=self.headers["Host"]) + self.news() + self.box(), SHARED)
        elif path == "/fragments/news":
            self.send(200, NEWS, SHARED)
        elif path == "/old":
            self.send(301, "", (("Location", "/"), *SHARED))
        elif path == "/shop":
            self.send(200, self.news() + ('<esi:include src="/box/name"/>' if self.is_edge else self.box()), SHARED)
        elif path == "/box/name":
            self.send(200, self.box(), PRIVATE)
        elif path == "/own":
            self.send(200, self.box(), (("Cache-Control", "private, s-maxage=60"),))
        elif path == "/aged":
            self.send(200, NEWS, (("Surrogate-Control", "max-age=5"), *SHARED))
        elif path == "/visit":
            self.send(200, self.news(), (("Set-Cookie", "visited=yes"), *SHARED))
        elif path == "/login":
            self.send(200, "<form method=post>", (("Set-Cookie", "token=7"), *PRIVATE))
        elif path == "/account" and not self.is_member:
            self.send(303, "", (("Location", "/login"), *PRIVATE))
        elif path.startswith("/account"):
            self.send(200, self.box(), (("Set-Cookie", "seen=yes"), *PRIVATE))
        elif path == "/staff" and not self.headers["Authorization"]:
            self.send(401, "", (("WWW-Authenticate", "Basic"), *PRIVATE))
        elif path == "/staff":
            self.send(200, "<p>Staff</p>\n", PRIVATE)
        elif path == "/busy":
            self.send(429, self.news(), (("Retry-After", "7"), *PRIVATE))
        elif path == "/closed":
            self.send(503, self.news(), (("Retry-After", "60"), *PRIVATE))
        elif path == "/order":
            self.send(405, self.news(), (("Allow", "POST"), *PRIVATE))
        elif path == "/long":
            self.send(200, "x" * 300000, SHARED)
        else:
            self.send(404, self.news() + "<p>No such page.</p>\n", PRIVATE)

    do_HEAD = do_GET

    def do_POST(self):
        self.take()
        self.rfile.read(int(self.headers["Content-Length"]))
        if self.path == "/login":
            self.send(303, "", (("Location", "/account"), ("Set-Cookie", "session=ann; Secure; HttpOnly"), *PRIVATE))
        elif self.path == "/order":
            self.send(303, "", (("Location", "/thanks"), *PRIVATE))
        else:
            self.send(200, "<p>Taken.</p>\n", PRIVATE)

    def take(self):
        """Reads what every answer depends on, and prints what is asked."""
        self.is_edge = "ESI/1.0" in self.headers.get("Surrogate-Capability", "")
        self.scheme = self.headers.get("X-Forwarded-Proto", "http")
        cookies = self.headers.get("Cookie", "")
        self.is_member = "session=ann" in cookies
        who = "edge" if self.is_edge else "direct"
        print(self.command, self.path, who, self.scheme, self.headers["Host"], cookies, flush=True)

    def news(self):
        return '<esi:include src="/fragments/news"/>' if self.is_edge else NEWS

    def box(self):
        return "<p>Hello Ann.</p>\n" if self.is_member else "<p>Hello guest.</p>\n"

    def send(self, status, body, fields):
        body = body.encode()
        self.send_response(status)
        self.send_header("Content-Type", "text/html; charset=utf-8")
        self.send_header("Content-Length", str(len(body)))
        if b"<esi:" in body:
            self.send_header("Surrogate-Control", 'content="ESI/1.0"')
        for name, value in fields:
            self.send_header(name, value)
        self.end_headers()
        if self.command != "HEAD":
            self.wfile.write(body)


class Application(http.server.ThreadingHTTPServer):
    daemon_threads = True


if __name__ == "__main__":
    Application(("127.0.0.1", int(sys.argv[1])), Handler).serve_forever()
