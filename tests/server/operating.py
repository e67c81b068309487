"""What the operator of a server asks it at an address of its own: whether it is well, what it has counted, to let go of answers that it
keeps, and to stop."""
import html.parser
import os
import re
import threading
import time

from harness import ASKED, PATIENCE, PLAIN, TEMPLATE, Edge, Origin, Response, Wires, asks_until_the_end, before, client, ended, exchange, get, rest, same, sized, told, wire
from logs import ask_on

ADMIN = ("--admin", "127.0.0.1:0")
# How many seconds the head of an operator's request may take, and how many of his connections are answered at once.
HEAD, MOST = 1, 64
METRICS = "text/plain; version=0.0.4; charset=utf-8"
# A page and its fragment, both cached.
CACHED = {"/p": (PLAIN["/p"][0], "text/html", TEMPLATE + ", max-age=600"), "/x": (b"12345678", "text/plain", "max-age=600")}


class Desk:
    """The operator's address of an edge that was started with ADMIN: the second line that it prints."""

    def __init__(self, edge):
        line = edge.process.stdout.readline()
        found = re.fullmatch(rb"answering the operator on 127\.0\.0\.1:([1-9][0-9]*)\n", line)
        same("the second line", True, bool(found))
        self.port = int(found.group(1))

    def ask(self, target, method="GET", **rest_of_it):
        return get(self, target, method=method, **dict({"host": "127.0.0.1:%d" % self.port}, **rest_of_it))


def health_is_told_while_all_threads_are_at_work():
    """While each thread that serves waits for an origin that says nothing, and further clients wait for a thread."""
    gate = threading.Event()
    texts = {"/p": lambda _: gate.wait(PATIENCE) and sized("HTTP/1.1 200 OK", "late")}
    with Wires(texts) as origin, before(origin, *ADMIN, "--threads", "2", "--workers", "1") as edge:
        desk = Desk(edge)
        clients = [client(edge, ASKED) for _ in range(6)]
        time.sleep(0.3)
        began = time.monotonic()
        for _ in range(10):
            came = desk.ask("/health")
            same("health", (200, "text/plain", "3", "close", b"ok\n"), (came.status, came.fields["content-type"], came.fields["content-length"], came.fields["connection"], came.body))
        same("within a second", True, time.monotonic() - began < 1)
        gate.set()
        for one in clients:
            rest(one)
            one.close()


def what_else_is_asked_is_refused():
    """HEAD is answered without the body; another path 404, another method 405 with those that there are."""
    rows = (
        ("HEAD", "/health", 200, None, b""), ("HEAD", "/metrics", 200, None, b""), ("GET", "/health?deep=1", 200, None, b"ok\n"),
        ("GET", "/index.html", 404, None, b"not found\n"), ("GET", "/healthy", 404, None, b"not found\n"), ("POST", "/Stop", 404, None, b"not found\n"),
        ("POST", "/health", 405, "GET, HEAD", b"method not allowed\n"), ("POST", "/", 405, "GET, HEAD", b"method not allowed\n"), ("HEAD", "/", 200, None, b""), ("PUT", "/metrics", 405, "GET, HEAD", b"method not allowed\n"),
        ("GET", "/stop", 405, "POST", b"method not allowed\n"), ("HEAD", "/stop", 405, "POST", b""),
        ("GET", "/purge?prefix=http://", 405, "POST", b"method not allowed\n"), ("DELETE", "/purge", 405, "POST", b"method not allowed\n"),
        ("POST", "/purge/", 404, None, b"not found\n"),
    )
    with Edge(*ADMIN) as edge:
        desk = Desk(edge)
        for method, target, status, allow, body in rows:
            came = desk.ask(target, method)
            same("%s %s" % (method, target), (status, allow, body), (came.status, came.fields.get("allow"), came.body))
        same("a long path", 404, desk.ask("/" + "x" * 4000).status)
        same("no HTTP", True, exchange(desk, b"nothing of HTTP\r\n\r\n").startswith(b"HTTP/1.1 400 "))
        same("it still runs", None, edge.process.poll())


def what_another_site_has_a_browser_send_is_refused():
    """What a page of another site makes the operator's browser send, and what comes by a name that isn't the server's, is answered
    403 whatever it asks for, and does nothing; what programs send is answered, by any address of the server and by its names."""
    with Edge(*ADMIN, "--admin-host", "edge.internal,Edge-1") as edge:
        desk = Desk(edge)
        here, evil = "127.0.0.1:%d" % desk.port, "evil.test:%d" % desk.port
        cross = "sec-fetch-site: cross-site|"
        foreign = (
            ("a form", "POST", "/purge?prefix=http://", here, "origin: http://evil.test|" + cross),
            ("a form that stops", "POST", "/stop?grace=0", here, "origin: http://evil.test|" + cross + "content-length: 0|"),
            ("a browser without the second field", "POST", "/stop", here, "origin: http://evil.test|"),
            ("a sandboxed frame", "POST", "/stop", here, "origin: null|" + cross),
            ("a rebound name", "POST", "/stop", evil, "origin: http://%s|sec-fetch-site: same-origin|" % evil),
            ("a rebound name that reads", "GET", "/metrics", evil, "sec-fetch-site: same-origin|"),
            ("a name without other fields", "GET", "/metrics", "evil.test", ""),
            ("an image", "GET", "/metrics", here, cross), ("a page of the same site", "GET", "/", here, "Sec-Fetch-Site: same-site|"),
            ("a preflight", "OPTIONS", "/stop", here, "origin: http://evil.test|access-control-request-method: POST|"),
            ("another path", "GET", "/x", here, cross),
            ("an address within a name", "GET", "/health", "127.0.0.1.evil.test", ""), ("a name below localhost", "GET", "/health", "localhost.evil.test", ""),
            ("a name in brackets", "GET", "/health", "[evil.test]", ""), ("half an address", "GET", "/health", "127.0.0", ""),
            ("no host in the field", "GET", "/health", "", ""), ("half a list", "GET", "/health", "edge.internal,edge-1", ""),
        )
        for what, method, target, host, fields in foreign:
            came = desk.ask(target, method, host=host, fields=wire(fields).decode())
            same(what, (403, "text/plain", b"forbidden: "), (came.status, came.fields["content-type"], came.body[:11]))
        hosts = (here, "127.0.0.1", "localhost:%d" % desk.port, "LocalHost", "[::1]:%d" % desk.port, "[::1]", "192.0.2.7:1", "edge.internal", "EDGE.internal:9081", "edge-1")
        for host in hosts:
            same(host, b"ok\n", desk.ask("/health", host=host).body)
        for site in ("none", "same-origin"):
            same(site, 200, desk.ask("/", fields="Sec-Fetch-Site: %s\r\n" % site).status)
        same("no host, by HTTP/1.0", b"ok\n", Response(exchange(desk, b"GET /health HTTP/1.0\r\n\r\n")).body)
        for hosts in (b"", b"host: 127.0.0.1\r\nhost: evil.test\r\n"):
            same("none, or two, by HTTP/1.1", 400, Response(exchange(desk, b"GET /health HTTP/1.1\r\n%s\r\n" % hosts)).status)
        same("it still runs", None, edge.process.poll())
        same("a stop", b"stopping\n", desk.ask("/stop", "POST", host="edge-1").body)
    with Edge(*ADMIN) as edge:
        same("no name", 403, Desk(edge).ask("/health", host="edge.internal").status)


def nobody_holds_the_operator_up():
    """Beside fifty connections that say nothing, or half a head, the operator is answered at once; each of them is ended once its
    second is over."""
    with Edge(*ADMIN) as edge:
        desk = Desk(edge)
        silent = [client(desk, sent) for sent in [b"", b"GET /health HTTP/1.1\r\nHo"] * 25]
        began, taken = time.monotonic(), []
        for _ in range(5):
            asked = time.monotonic()
            same("health", b"ok\n", desk.ask("/health").body)
            taken.append(time.monotonic() - asked)
        same("at once", True, sorted(taken)[2] < 0.1)
        for one in silent:
            same("it has ended", b"", rest(one))
            one.close()
        same("after a second", True, HEAD - 0.5 < time.monotonic() - began < HEAD + 1)
        same("a body that doesn't come", b"ok\n", desk.ask("/health", fields="content-length: 9\r\n").body)


def the_oldest_connection_makes_room():
    """Of more than 64 connections the oldest is ended at once, and no other."""
    with Edge(*ADMIN) as edge:
        desk = Desk(edge)
        began = time.monotonic()
        held = [client(desk) for _ in range(MOST + 3)]
        for one in held[:3]:
            same("it has ended", b"", rest(one))
        same("at once", True, time.monotonic() - began < HEAD / 2)
        same("health", b"ok\n", desk.ask("/health").body)
        same("who came for it ended one more", b"", rest(held[3]))
        held[4].sendall(b"GET /health HTTP/1.1\r\nhost: 127.0.0.1\r\n\r\n")
        same("the next one", b"ok\n", Response(rest(held[4])).body)
        for one in held:
            one.close()


def the_end_leaves_a_second():
    """A server that ends waits no longer than a second for a connection of its operator's."""
    with Edge(*ADMIN) as edge:
        desk = Desk(edge)
        with client(desk, b"POST /purge HT"):
            began = time.monotonic()
            same("a stop", b"stopping\n", desk.ask("/stop", "POST").body)
            same("it ends", 0, edge.process.wait(PATIENCE))
            same("within a second", True, time.monotonic() - began < HEAD + 1)


def read(text):
    """The samples of a text in the format of Prometheus, version 0.0.4, read strictly: each metric's lines stand together, behind
    what it means and its kind."""
    samples, kinds, metric = {}, {}, None
    same("the last byte", "\n", text[-1])
    lines = text[:-1].split("\n")
    while lines:
        meaning = re.fullmatch(r"# HELP ([a-z_]+) [^\\]+", lines.pop(0))
        metric = meaning.group(1)
        kind = re.fullmatch(r"# TYPE %s (counter|gauge|histogram)" % metric, lines.pop(0)).group(1)
        same("one list of " + metric, False, metric in kinds)
        kinds[metric] = kind
        names = (metric,) if kind != "histogram" else (metric + "_bucket", metric + "_sum", metric + "_count")
        while lines and not lines[0].startswith("#"):
            name, labels, value = re.fullmatch(r'([a-z_]+)((?:\{[a-z]+="[^"\\]+"(?:,[a-z]+="[^"\\]+")*\})?) ([0-9]+(?:e-6)?)', lines.pop(0)).groups()
            same("a name of " + metric, True, name in names)
            same("once", False, name + labels in samples)
            samples[name + labels] = float(value)
    return samples, kinds


KINDS = {
    "esi_edge_requests_total": "counter", "esi_edge_sent_bytes_total": "counter", "esi_edge_request_seconds": "histogram", "esi_edge_connections": "gauge",
    "esi_edge_connections_parked": "gauge", "esi_edge_connections_serving": "gauge", "esi_edge_connections_accepted_total": "counter",
    "esi_edge_accepts_failed_total": "counter", "esi_edge_cache_answers": "gauge", "esi_edge_cache_bytes": "gauge", "esi_edge_cache_bridges_total": "counter",
    "esi_edge_fetches_total": "counter", "esi_edge_fetches_without_origin_total": "counter", "esi_edge_strays_total": "counter",
    "esi_edge_cache_lookups_total": "counter", "esi_edge_log_lines_lost_total": "counter", "process_resident_memory_bytes": "gauge",
}


def resident(edge):
    """How many bytes of the edge's memory the system says to be resident."""
    with open("/proc/%d/statm" % edge.process.pid, encoding="ascii") as statm:
        return 4096 * int(statm.read().split()[1])


def of(samples, metric):
    """The samples of a metric, by their labels."""
    return {name[len(metric) :]: count for name, count in samples.items() if name.startswith(metric)}


def what_was_answered_is_counted():
    """Requests by their status, the bytes of bodies, how long each took, connections, what the cache keeps and how it was asked: with
    a log or without."""
    for words in ((), ("--log",)):
        with Origin(CACHED) as origin, before(origin, *ADMIN, *words) as edge:
            desk = Desk(edge)
            samples, kinds = read(desk.ask("/metrics").body.decode())
            same("memory", True, resident(edge) / 2 < samples.pop("process_resident_memory_bytes") < 2 * resident(edge))
            same("at first", {0.0}, set(samples.values()))
            same("kinds", KINDS, kinds)
            sent = sum(len(get(edge, "/p").body) for _ in range(20)) + len(get(edge, "/p", method="PUT").body) + len(get(edge, "/p", host="a/b").body)
            time.sleep(0.2)
            came = desk.ask("/metrics")
            same("its type", METRICS, came.fields["content-type"])
            samples, _ = read(came.body.decode())
            wanted = {'{status="%dxx"}' % at: count for at, count in ((1, 0), (2, 20), (3, 0), (4, 2), (5, 0))}
            same("requests", wanted, of(samples, "esi_edge_requests_total"))
            same("bytes", sent, samples["esi_edge_sent_bytes_total"])
            buckets = [samples['esi_edge_request_seconds_bucket{le="%s"}' % le] for le in ("0.001", "0.005", "0.01", "0.05", "0.1", "0.5", "1", "5", "10", "+Inf")]
            same("no bucket has less than one before", sorted(buckets), buckets)
            same("all", (22, 22), (buckets[-1], samples["esi_edge_request_seconds_count"]))
            same("a time", True, 0 < samples["esi_edge_request_seconds_sum"] < 22 * 5)
            # The page and its fragment are fetched once each, and found by the nineteen requests after.
            wanted = {'{by="hit"}': 38, '{by="join"}': 0, '{by="lead"}': 2, '{by="bypass"}': 0}
            same("look-ups", wanted, of(samples, "esi_edge_cache_lookups_total"))
            same("connections", (0, 22, 0), tuple(samples["esi_edge_" + it] for it in ("connections", "connections_accepted_total", "accepts_failed_total")))
            same("answers kept, lines lost", (2, 0), (samples["esi_edge_cache_answers"], samples["esi_edge_log_lines_lost_total"]))
            same("bytes kept", sum(len(body) for body, *_ in CACHED.values()), samples["esi_edge_cache_bytes"])
            same("fetches", {'{origin="*",outcome="answered"}': 2}, fetches(samples))


def fetches(samples):
    """How many fetches ended how, by origin, but for those of which there are none."""
    return {labels: count for labels, count in of(samples, "esi_edge_fetches_total").items() if count}


def metrics(desk):
    """The samples that the desk tells now."""
    return read(desk.ask("/metrics").body.decode())[0]


def fetches_are_counted_by_origin_and_end():
    """Each counts once, under the authority of the origin that it was made to, by how it ended; one that nobody could be asked for counts
    apart."""
    texts = {
        "/ok": sized("HTTP/1.1 200 OK", "12345678"), "/gone": sized("HTTP/1.1 404 Not Found", "gone"), "/cut": b"HTTP/1.1 200 OK\r\ncontent-length: 9\r\n\r\nab",
        "/closed": b"", "/text": b"nothing of HTTP\r\n\r\n", "/long": sized("HTTP/1.1 200 OK", "x" * 262145), "/odd": sized("HTTP/1.1 600 Odd", "odd"),
        "/coded": sized("HTTP/1.1 200 OK|content-encoding: gzip", "coded"), "/late": lambda _: time.sleep(1.5),
    }
    for words in ((), ("--workers", "1", "--fetches", "8"), ("--origin-fetches", "4")):
        with Wires(texts) as origin, Edge("--origin", "a.test=" + origin.at, "--origin", "c.test=127.0.0.1:1", "--timeout", "500", *ADMIN, *words) as edge:
            desk = Desk(edge)
            for target in texts:
                get(edge, target)
            get(edge, "/ok", host="c.test")
            get(edge, "/ok", host="d.test")
            samples = metrics(desk)
            ends = (("answered", 2), ("timeout", 1), ("cut", 3), ("too_long", 1), ("coded", 1), ("status", 1))
            wanted = {'{origin="a.test",outcome="%s"}' % end: count for end, count in ends}
            same("fetches with %s" % (words,), {**wanted, '{origin="c.test",outcome="connect"}': 1}, fetches(samples))
            same("without an origin", 1, samples["esi_edge_fetches_without_origin_total"])


def fetches_that_are_not_made_are_counted():
    """One that is one too many for its origin, and one to an origin that rests."""
    gate = threading.Event()
    texts = {"/p": lambda _: gate.wait(PATIENCE) and sized("HTTP/1.1 200 OK", "late")}
    with Wires(texts) as origin, Edge("--origin", "a.test=" + origin.at, *ADMIN, "--origin-fetches", "1", "--origin-queue", "0") as edge:
        desk = Desk(edge)
        first = client(edge, ASKED)
        time.sleep(0.3)
        get(edge, "/other")
        gate.set()
        rest(first)
        first.close()
        wanted = {'{origin="a.test",outcome="answered"}': 1, '{origin="a.test",outcome="too_many"}': 1}
        same("one too many", wanted, fetches(metrics(desk)))
    with Edge("--origin", "a.test=127.0.0.1:1", *ADMIN, "--origin-rest", "60") as edge:
        desk = Desk(edge)
        for at in range(8):
            get(edge, "/%d" % at)
        wanted = {'{origin="a.test",outcome="connect"}': 5, '{origin="a.test",outcome="at_rest"}': 3}
        same("at rest", wanted, fetches(metrics(desk)))


def bridges_are_counted():
    """A stored answer that is given in place of one that failed, and one that is given since a page is late."""
    answers = [sized("HTTP/1.1 200 OK|surrogate-control: max-age=1+600", "12345678")]
    texts = {"/p": lambda _: answers.pop() if answers else sized("HTTP/1.1 500 No", "no")}
    with Wires(texts) as origin, before(origin, *ADMIN) as edge:
        desk = Desk(edge)
        same("at first", b"12345678", get(edge, "/p").body)
        time.sleep(2)
        same("bridged", [b"12345678"] * 3, [get(edge, "/p").body for _ in range(3)])
        same("bridges", 3, metrics(desk)["esi_edge_cache_bridges_total"])


def connections_are_counted_by_who_holds_them():
    """Those whose clients are waited for are parked; those whose pages are made are served."""
    gate = threading.Event()
    texts = {"/p": lambda _: gate.wait(PATIENCE) and sized("HTTP/1.1 200 OK", "late"), "/x": sized("HTTP/1.1 200 OK", "12345678")}
    with Wires(texts) as origin, before(origin, *ADMIN, "--keep-alive", "20", "--threads", "8", "--connections", "16") as edge:
        desk = Desk(edge)
        idle = [client(edge, wire("GET /x HTTP/1.1|host: a.test||")) for _ in range(3)]
        asking = [client(edge, ASKED) for _ in range(2)]
        time.sleep(0.5)
        names = ("connections", "connections_parked", "connections_serving")
        same("open, parked, serving", (5, 3, 2), tuple(metrics(desk)["esi_edge_" + it] for it in names))
        gate.set()
        time.sleep(0.5)
        same("all wait", (5, 5, 0), tuple(metrics(desk)["esi_edge_" + it] for it in names))
        for one in idle + asking:
            one.close()
        time.sleep(0.5)
        same("all have ended", (0, 0, 0), tuple(metrics(desk)["esi_edge_" + it] for it in names))


def a_fetch_for_many_is_counted_once():
    """Of clients who ask for one URL at the same time one leads the fetch, and the others join it."""
    gate = threading.Event()
    texts = {"/p": lambda _: gate.wait(PATIENCE) and sized("HTTP/1.1 200 OK", "late")}
    with Wires(texts) as origin, before(origin, *ADMIN, "--threads", "8") as edge:
        desk = Desk(edge)
        clients = [client(edge, ASKED) for _ in range(5)]
        time.sleep(0.5)
        samples, _ = read(desk.ask("/metrics").body.decode())
        wanted = {'{by="hit"}': 0, '{by="join"}': 4, '{by="lead"}': 1, '{by="bypass"}': 0}
        same("look-ups", wanted, of(samples, "esi_edge_cache_lookups_total"))
        same("answers kept", 0, samples["esi_edge_cache_answers"])
        same("open connections", (5, 5), (samples["esi_edge_connections"], samples["esi_edge_connections_accepted_total"]))
        gate.set()
        for one in clients:
            rest(one)
            one.close()


def lost(desk):
    return metrics(desk)["esi_edge_log_lines_lost_total"]


def lines_that_are_lost_are_counted():
    """While nobody reads the log: as many as the log says itself, once somebody reads it."""
    with Origin(CACHED) as origin, before(origin, *ADMIN, "--log", "--threads", "1", "--keep-alive", "20") as edge:
        desk = Desk(edge)
        ask_on(edge, 1000, "/p?" + "x" * 1500)
        time.sleep(0.2)
        unread = lost(desk)
        same("some are lost", True, 0 < unread < 1000)
        came = []
        reader = threading.Thread(target=lambda: came.extend(iter(lambda: os.read(edge.process.stderr.fileno(), 65536), b"")))
        reader.start()
        # What waits goes out with the next lines.
        for _ in range(100):
            ask_on(edge, 1, "/p")
        time.sleep(0.2)
        counted = lost(desk)
        same("none is forgotten", True, unread <= counted)
        same("its answer", 200, desk.ask("/stop", "POST").status)
        same("exit status", 0, edge.ends())
        reader.join()
    lines = [line.split(" ") for line in b"".join(came).decode().split("\n")[:-1]]
    told = [int(line[2]) for line in lines if line[1] == "LOST"]
    same("as many as the log says", counted, sum(told))
    same("all lines", 1100, len(lines) - len(told) + counted)


# An answer that is kept for longer than a test takes.
KEPT = sized("HTTP/1.1 200 OK|surrogate-control: max-age=600", "12345678")


def purged(desk, query):
    """What is told to who purges: the number of answers that went."""
    came = desk.ask("/purge?" + query, "POST")
    same("type of " + query, (200, "text/plain"), (came.status, came.fields["content-type"]))
    return int(re.fullmatch(rb"purged (0|[1-9][0-9]*)\n", came.body).group(1))


def fetched(edge, origin, targets):
    """Which of these are fetched now, and not had from the cache."""
    before_them = len(origin.asked())
    for target in targets:
        same(target, (200, b"12345678"), told(edge, target))
    return origin.asked()[before_them:]


def a_url_is_purged():
    """Its answer is fetched anew, and is kept again; that of another URL stays, also where its URL begins so. The URL may stand in the
    query as it is, or with escapes."""
    urls = ("/p", "/p?a=1&b=2", "/p2", "/p?a=1")
    with Wires(dict.fromkeys(urls, KEPT)) as origin, before(origin, *ADMIN) as edge:
        desk = Desk(edge)
        same("nothing is kept yet", 0, purged(desk, "url=http://a.test/p"))
        same("at first", list(urls), fetched(edge, origin, urls))
        same("hits", [], fetched(edge, origin, urls))
        rows = (
            ("url=http://a.test/p", "/p"), ("url=http://a.test/p?a=1&b=2", "/p?a=1&b=2"), ("url=http%3A%2F%2Fa.test%2Fp%3Fa%3D1%26b%3D2", "/p?a=1&b=2"),
            ("url=HTTP://A.test:80/x/../p2", "/p2"), ("url=http://a.test/%70", "/p"),
        )
        for query, url in rows:
            same(query, 1, purged(desk, query))
            same(query + " once more", 0, purged(desk, query))
            same("fetched after " + query, [url], fetched(edge, origin, urls))
            same("hits after " + query, [], fetched(edge, origin, urls))
        same("another host", 0, purged(desk, "url=http://b.test/p"))
        same("hits at last", [], fetched(edge, origin, urls))


def a_prefix_is_purged():
    """All answers whose URLs begin with it go, in all shards, and no other."""
    news, others = ["/news/%d" % at for at in range(40)], ["/new", "/sport/news/1"]
    with Wires(dict.fromkeys(news + others, KEPT)) as origin, before(origin, *ADMIN) as edge:
        desk = Desk(edge)
        fetched(edge, origin, news + others)
        same("the news", 40, purged(desk, "prefix=http://a.test/news/"))
        same("the others are kept", [], fetched(edge, origin, others))
        same("the news are fetched", news, fetched(edge, origin, news))
        same("some of them, with escapes", 11, purged(desk, "prefix=http%3A%2F%2Fa.test%2Fnews%2F1"))
        same("another host", 0, purged(desk, "prefix=http://b.test"))
        same("in other letters", 0, purged(desk, "prefix=HTTP://"))
        same("all", 31, purged(desk, "prefix=http://"))
        same("nothing is left", 0, purged(desk, "prefix=http://"))
        same("all are fetched", news + others, fetched(edge, origin, news + others))


def a_prefix_is_purged_of_any_number_of_answers():
    """More than a thousand, in all shards."""
    targets = ["/news/%d" % at for at in range(1_200)]
    with Wires(dict.fromkeys(targets, KEPT)) as origin, before(origin, *ADMIN, "--capacity", "1024") as edge:
        for target in targets:
            get(edge, target)
        same("the news", 1_200, purged(Desk(edge), "prefix=http://a.test/news/"))


def a_purge_of_nothing_is_refused():
    """No query, none of the two words, a text that is no URL of a page, no prefix: 400, and what is cached stays."""
    queries = (
        "", "?", "?http://a.test/p", "?url", "?url=", "?URL=http://a.test/p", "?url=/p", "?url=https://a.test/p", "?url=http://me@a.test/p", "?url=http%3A%2F%2Fa.test/%FF",
        "?url=http://a.test/" + "x" * 2048, "?prefix", "?prefix=", "?all", "?a=1&url=http://a.test/p",
    )
    with Wires({"/p": KEPT}) as origin, before(origin, *ADMIN) as edge:
        desk = Desk(edge)
        fetched(edge, origin, ["/p"])
        for query in queries:
            came = desk.ask("/purge" + query, "POST")
            same(query, (400, "text/plain", b"url= or prefix= is wanted\n"), (came.status, came.fields["content-type"], came.body))
        same("it is kept", [], fetched(edge, origin, ["/p"]))


def a_purge_disturbs_no_page_in_flight():
    """Who waits for a fetch gets its answer, though the URL was purged meanwhile."""
    gate = threading.Event()
    texts = {"/p": lambda _: gate.wait(PATIENCE) and KEPT}
    with Wires(texts) as origin, before(origin, *ADMIN) as edge:
        desk = Desk(edge)
        clients = [client(edge, ASKED) for _ in range(3)]
        time.sleep(0.3)
        same("nothing is kept yet", 0, purged(desk, "url=http://a.test/p"))
        same("nor under a prefix", 0, purged(desk, "prefix=http://"))
        gate.set()
        same("the pages", [b"12345678"] * 3, [Response(rest(one)).body for one in clients])
        same("one fetch", ["/p"], origin.asked())
        for one in clients:
            one.close()


def a_stop_loses_no_answer():
    """While clients ask without a pause, the operator stops the server: it is told so, each connection that is accepted gets its
    whole answer or is ended before a byte of it, and the status is 0."""
    ends = []
    with Origin(PLAIN) as origin, before(origin, *ADMIN, "--client-timeout", "30000") as edge:
        desk = Desk(edge)
        clients = [threading.Thread(target=asks_until_the_end, args=(edge, ASKED, ends)) for _ in range(16)]
        for one in clients:
            one.start()
        time.sleep(0.5)
        came = desk.ask("/stop", "POST", fields="Content-Length: 0\r\n")
        same("its answer", (200, b"stopping\n"), (came.status, came.body))
        same("exit status", 0, edge.ends())
        for one in clients:
            one.join(PATIENCE)
        same("standard error", b"", edge.end())
    same("there were some", True, len(ends) > 50)
    same("answers that were cut", [], [came for came in ends if came and not came.endswith(b"\r\n\r\n[12345678]")][:3])


def what_is_under_way_ends_after_a_stop():
    """A page that is being made comes whole, and meanwhile the operator is still answered: that nobody is accepted any
    longer."""
    texts = {"/p": lambda _: time.sleep(1) or sized("HTTP/1.1 200 OK", "slow")}
    with Wires(texts) as origin, before(origin, *ADMIN) as edge:
        desk = Desk(edge)
        asking = client(edge, ASKED)
        time.sleep(0.3)
        same("its answer", 200, desk.ask("/stop", "POST").status)
        time.sleep(0.4)
        came = desk.ask("/health")
        same("health", (503, b"ending\n"), (came.status, came.body))
        same("the page", b"slow", Response(rest(asking)).body)
        same("exit status", 0, edge.ends())
        asking.close()


def a_stop_is_bounded_in_time():
    """With `grace=1` clients who are waited for are cut a second later, and the status is 0; without it they have their own time. What is
    no number of seconds doesn't stop the server."""
    with Origin(PLAIN) as origin, before(origin, *ADMIN, "--keep-alive", "20", "--client-timeout", "30000") as edge:
        desk = Desk(edge)
        for query in ("grace", "grace=", "grace=x", "grace=-1", "grace=1&x=2", "Grace=1", "when=1", "grace=4294967296", "=1", "1"):
            came = desk.ask("/stop?" + query, "POST")
            same(query, (400, "text/plain"), (came.status, came.fields["content-type"]))
        same("it still serves", b"[12345678]", get(edge, "/p", fields="connection: close\r\n").body)
        silent, half = client(edge), client(edge, b"GET /p HTTP/1.1\r\nhost:")
        time.sleep(0.3)
        began = time.monotonic()
        same("its answer", 200, desk.ask("/stop", "POST").status)
        time.sleep(1)
        same("it waits", None, edge.process.poll())
        came = desk.ask("/stop?grace=1", "POST")
        same("its second answer", (200, b"stopping\n"), (came.status, came.body))
        same("exit status", 0, edge.ends())
        same("after a second", True, 1.9 < time.monotonic() - began < 4)
        same("what the clients got", [b"", b""], [rest(silent), rest(half)])
        silent.close()
        half.close()


def a_stop_cuts_whoever_does_not_read():
    """A client that reads nothing of a long response is cut once its grace is over; one that reads has its whole response."""
    texts = {"/p": sized("HTTP/1.1 200 OK", "x" * 262144)}
    with Wires(texts) as origin, before(origin, *ADMIN, "--client-timeout", "30000") as edge:
        desk = Desk(edge)
        unread = [client(edge, ASKED) for _ in range(40)]
        time.sleep(0.5)
        same("a page", 262144, len(told(edge)[1]))
        same("its answer", 200, desk.ask("/stop?grace=0", "POST").status)
        began = time.monotonic()
        same("exit status", 0, edge.ends())
        same("at once", True, time.monotonic() - began < 3)
        for one in unread:
            one.close()


class Drawn(html.parser.HTMLParser):
    """A page in HTML, read strictly: the tags that stand open, and what each bar chart says."""

    ALONE = ("meta", "rect", "line")

    def __init__(self, text):
        super().__init__()
        self.open, self.charts, self.names = [], [], set()
        self.feed(text)
        self.close()

    def handle_starttag(self, tag, attributes):
        self.names |= {name for name, _ in attributes}
        same("%s isn't drawn" % tag, False, tag in ("script", "link", "img", "iframe", "object"))
        if tag == "svg":
            self.charts.append([])
        if tag == "rect":
            self.charts[-1].append({name: value for name, value in attributes})
        elif tag not in self.ALONE:
            self.open.append(tag)

    def handle_startendtag(self, tag, attributes):
        self.handle_starttag(tag, attributes)
        if tag not in self.ALONE:
            self.open.pop()

    def handle_endtag(self, tag):
        if tag not in self.ALONE:
            same("what ends", self.open.pop(), tag)


def the_last_ten_minutes_are_drawn():
    """A page of three charts, without anything from outside; each bar is that of ten seconds."""
    with Origin(CACHED) as origin, before(origin, *ADMIN) as edge:
        desk = Desk(edge)
        came = desk.ask("/")
        same("its type", (200, "text/html; charset=utf-8"), (came.status, came.fields["content-type"]))
        drawn = Drawn(came.body.decode())
        same("charts without bars", ([], 3, 0), (drawn.open, len(drawn.charts), sum(map(len, drawn.charts))))
        for _ in range(20):
            get(edge, "/p")
        for _ in range(120):
            drawn = Drawn(desk.ask("/").body.decode())
            if all(drawn.charts):
                break
            time.sleep(0.1)
        same("a bar in each chart", [1, 1, 1], [len(bars) for bars in drawn.charts])
        same("as high as may be", {"100"}, {bar["height"] for bars in drawn.charts for bar in bars})
        same("nothing of another place", set(), drawn.names & {"src", "href", "onload", "action"})


def a_used_operators_address_is_told():
    """An address of --admin that somebody listens on: status 5, and a line that says so."""
    with Origin() as origin:
        said = b"error: the address of --listen or --admin is in use: another process listens there\n"
        same("a used port", (5, b"", said), ended("--listen", "127.0.0.1:0", "--admin", origin.at))


TESTS = (
    health_is_told_while_all_threads_are_at_work,
    what_else_is_asked_is_refused,
    what_another_site_has_a_browser_send_is_refused,
    nobody_holds_the_operator_up,
    the_oldest_connection_makes_room,
    the_end_leaves_a_second,
    what_was_answered_is_counted,
    a_fetch_for_many_is_counted_once,
    fetches_are_counted_by_origin_and_end,
    fetches_that_are_not_made_are_counted,
    bridges_are_counted,
    connections_are_counted_by_who_holds_them,
    lines_that_are_lost_are_counted,
    a_url_is_purged,
    a_prefix_is_purged,
    a_prefix_is_purged_of_any_number_of_answers,
    a_purge_of_nothing_is_refused,
    a_purge_disturbs_no_page_in_flight,
    a_stop_loses_no_answer,
    what_is_under_way_ends_after_a_stop,
    a_stop_is_bounded_in_time,
    a_stop_cuts_whoever_does_not_read,
    the_last_ten_minutes_are_drawn,
    a_used_operators_address_is_told,
)
