"""The log in each of its formats, by a strict reader of each; and a reader that stands still."""
import datetime
import json
import os
import re
import threading
import time

from harness import ASKED, PAGE, PATIENCE, PLAIN, TEMPLATE, UNASSEMBLED, Edge, Origin, Wires, all_at_once, before, client, exchange, same, sized, told, wire

# Apache HTTP Server, "Log Files", "Combined Log Format": no quote and no control character within quotes.
COMBINED = re.compile(r'(\S+) - - \[(\d\d/[A-Z][a-z]{2}/\d{4}:\d\d:\d\d:\d\d \+0000)\] "([!#-~ ]*)" (\d+) (\d+) "([!#-~ ]+)" "([!#-~ ]+)"')
PLAIN_LINE = re.compile(r"\d{10,} \S+ \S+ \d+ \d+ \d+ \d+")
MEMBERS = ["time", "client", "method", "url", "status", "bytes", "microseconds", "answers", "hits", "joined", "bridged", "failed"]
KEPT = ("--keep-alive", "20")


def of_combined(line):
    """The fields of a line."""
    found = COMBINED.fullmatch(line)
    same("a line of the Combined Log Format: %r" % line, True, found is not None)
    client_at, time, request, status, size, referer, agent = found.groups()
    return client_at, datetime.datetime.strptime(time, "%d/%b/%Y:%H:%M:%S %z"), request, int(status), int(size), referer, agent


def of_json(line):
    """The members of a line, in order."""
    pairs = json.loads(line, object_pairs_hook=list)
    names = [name for name, _ in pairs]
    same("members of %r" % line, MEMBERS, [name for name in names if name != "fault"])
    members = dict(pairs)
    members["time"] = datetime.datetime.strptime(members["time"], "%Y-%m-%dT%H:%M:%S%z")
    return members


def near_now(time):
    return abs((datetime.datetime.now(datetime.timezone.utc) - time).total_seconds()) < 60


def lines_of(origin, format_words, asked):
    """What the log says of these requests, one after another."""
    with before(origin, *format_words, "--accept", str(len(asked))) as edge:
        for request in asked:
            exchange(edge, request)
        same("exit status", 0, edge.ends())
        return edge.end().decode("ascii").split("\n")


def logs_are_read_as_combined():
    """--log-format combined: each line is whole whatever a client sends, with its address, the time, `referer` and `user-agent`."""
    asked = (
        wire("GET /p?a=1 HTTP/1.1|host: a.test|referer: http://a.test/|user-agent: Agent/1 (x; y)||"),
        wire("GET /none HTTP/1.0|host: a.test||"),
        b'GET /p HTTP/1.1\r\nhost: a.test\r\nuser-agent: "] \\ \xc3\xa9\t"\r\n\r\n',
        wire("PUT /p HTTP/1.1|host: a.test||"),
    )
    with Origin(PLAIN) as origin:
        *lines, last = lines_of(origin, ("--log-format", "combined"), asked)
    same("the end of the last line", "", last)
    wanted = (
        ("127.0.0.1", "GET /p?a=1 HTTP/1.1", 200, 10, "http://a.test/", "Agent/1 (x; y)"),
        ("127.0.0.1", "GET /none HTTP/1.0", 404, 23, "-", "-"),
        ("127.0.0.1", "GET /p HTTP/1.1", 200, 10, "-", r"\x22] \x5C \xC3\xA9\x09\x22"),
        ("127.0.0.1", "PUT /p HTTP/1.1", 405, 20, "-", "-"),
    )
    came = [of_combined(line) for line in lines]
    # A line comes after its response, and may come after that of the next request, which another thread serves.
    same("lines", sorted(wanted), sorted((at, *others) for at, _, *others in came))
    same("the time of each", [True] * len(wanted), [near_now(time) for _, time, *_ in came])


def logs_are_read_as_json():
    """--log-format json: an object a line, whatever a client sends, with the reason of each failure."""
    bad = "A\n</esi:vars>"
    paths = dict(PLAIN, **{
        "/lost": (b"<esi:include src='/gone'/>", "text/html", TEMPLATE), "/bad": (bad.encode(), "text/html", TEMPLATE),
        "/broken": (b"<esi:include src='/x'/><esi:include src='/bad'/>", "text/html", TEMPLATE),
        "/refused": (b"<esi:include src='http://c.test/x'/>", "text/html", TEMPLATE),
        "/first": (b"<esi:include src='/gone'/><esi:include src='http://c.test/x' onerror='continue'/>", "text/html", TEMPLATE),
        "/nowhere": (b"<esi:include src='//'/>", "text/html", TEMPLATE),
    })
    words = ": error: </esi:vars> closes nothing: no element is open"
    rows = (
        ("/p?a=1", 200, None), ("/none", 404, "OriginStatus http://a.test/none"), ("/lost", 502, "IncludeFailed http://a.test/gone status 404"),
        ("/bad", 502, "BadTemplate http://a.test/bad 2:1" + words), ("/broken", 502, "IncludeFailed http://a.test/bad 2:1" + words),
        ("/refused", 502, "IncludeFailed http://c.test/x: connect"), ("/first", 502, "IncludeFailed http://a.test/gone status 404"),
        ("/nowhere", 502, "IncludeFailed"),
    )
    asked = [wire("GET %s HTTP/1.1|host: a.test||" % target) for target, _, _ in rows]
    asked += [wire("PUT /p HTTP/1.1|host: a.test||"), b'GET /"\\ HTTP/1.0\r\n\r\n', wire("GET /p HTTP/1.1|host: b.test|cdn-loop: me||"), wire("GET / HTTP/1.1|host: c.test||")]
    with Origin(paths) as origin:
        options = ("--log-format", "json", "--name", "me", "--origin", "c.test=127.0.0.1:1")
        *lines, last = lines_of(origin, options, asked)
    same("the end of the last line", "", last)
    came = [of_json(line) for line in lines]
    wanted = [("http://a.test" + target, status, fault) for target, status, fault in rows]
    wanted += [("/p", 405, "Method"), ('/"\\', 400, "Unreadable"), ("/p", 508, "Loop"), ("http://c.test/", 502, "PageFetch http://c.test/: connect")]
    # In any order, as above.
    same("lines", sorted(wanted, key=repr), sorted(((it["url"], it["status"], it.get("fault")) for it in came), key=repr))
    same("the client of each", {"127.0.0.1"}, {it["client"] for it in came})
    same("the time of each", {True}, {near_now(it["time"]) for it in came})
    page = next(it for it in came if it["url"] == "http://a.test/p?a=1")
    same("the bytes of a page, and its answers", (10, 2), (page["bytes"], page["answers"]))


def logs_tell_why_a_fragment_failed():
    """Behind the URL that could not be fetched: the word of `esi_edge_fetches_total` for it. Where an answer came, its status."""
    sent = {"/late": lambda _: time.sleep(1.5), "/cut": b"HTTP/1.1 200 OK\r\ncontent-length: 9\r\n\r\nab", "/long": sized("HTTP/1.1 200 OK", "x" * 262145)}
    sent["/gone"] = sized("HTTP/1.1 404 Not Found", "gone")
    rows = (("/late", ": timeout"), ("/cut", ": cut"), ("/long", ": too_long"), ("/gone", " status 404"), ("http://d.test/", ": no_origin"), ("http://c.test/", ": connect"))
    pages = {"/of%d" % at: wire(PAGE) + b"<esi:include src='%s'/>" % url.encode() for at, (url, _) in enumerate(rows)}
    words = ("--origin", "c.test=127.0.0.1:1", "--timeout", "500", "--log-format", "json", "--accept", str(len(rows)))
    with Wires({**sent, **pages}) as origin, Edge("--origin", "a.test=" + origin.at, *words) as edge:
        for target in pages:
            same(target, UNASSEMBLED, told(edge, target))
        same("exit status", 0, edge.ends())
        lines = edge.end().decode("ascii").splitlines()
    urls = ["http://a.test" + url if url[0] == "/" else url for url, _ in rows]
    # Lines of requests that end at the same moment may change places.
    came = sorted(map(of_json, lines), key=lambda it: it["url"])
    same("faults", ["IncludeFailed %s%s" % (url, why) for url, (_, why) in zip(urls, rows)], [it["fault"] for it in came])


def times_are_told_in_microseconds():
    """A page whose fragment takes 0.3 seconds."""
    texts = {"/p": wire(PAGE + "<esi:include src='/s'/>"), "/s": lambda _: time.sleep(0.3) or sized("HTTP/1.1 200 OK", "S")}
    with Wires(texts) as origin:
        (line, _) = lines_of(origin, ("--log-format", "json"), (ASKED,))
    taken = of_json(line)["microseconds"]
    same("it took %d microseconds" % taken, True, 300_000 <= taken < PATIENCE * 1_000_000)


def logs_tell_by_which_ways_answers_came():
    """A page of five answers, each of which comes in another way once what bridges is no longer fresh, with one fetch at a
    time and with several; the second of two pages that need one fragment at one time joins the fetch of the first."""
    kept = "HTTP/1.1 200 OK|surrogate-control: max-age=%s"
    bridges = [sized(kept % "1+600", "B")]
    texts = {"/k": sized(kept % "600", "K"), "/x": sized("HTTP/1.1 200 OK", "X"), "/b": lambda _: bridges.pop() if bridges else b""}
    texts["/p"] = wire(PAGE) + b"".join(b"<esi:include src='/%s' onerror='continue'/>" % name for name in (b"k", b"x", b"b", b"f"))
    for words in ((), ("--fetches", "8")):
        bridges[:] = [sized(kept % "1+600", "B")]
        with Wires(texts) as origin, before(origin, *words, "--log-format", "json", "--accept", "2") as edge:
            same("a page", (200, b"KXB"), told(edge))
            time.sleep(1.1)
            same("the same", (200, b"KXB"), told(edge))
            same("exit status", 0, edge.ends())
            lines = [of_json(line) for line in edge.end().decode("ascii").splitlines()]
        same("ways with %s" % (words,), [(5, 0, 0, 0, 1), (5, 1, 0, 1, 1)], [tuple(line[name] for name in MEMBERS[-5:]) for line in lines])
    texts = {"/s": lambda _: time.sleep(0.5) or sized("HTTP/1.1 200 OK", "S")}
    texts.update({path: wire(PAGE + "<esi:include src='/s'/>") for path in ("/p", "/q")})
    for words in ((), ("--fetches", "8")):
        with Wires(texts) as origin, before(origin, *words, "--threads", "2", "--log-format", "json", "--accept", "2") as edge:
            same("two pages", [(200, b"S")] * 2, all_at_once([lambda path=path: told(edge, path) for path in ("/p", "/q")]))
            same("exit status", 0, edge.ends())
            lines = [of_json(line) for line in edge.end().decode("ascii").splitlines()]
        same("joins with %s" % (words,), [(2, 0), (2, 1)], sorted((line["answers"], line["joined"]) for line in lines))


def heads_that_are_refused_are_told():
    """What the HTTP library refuses by itself has a line in each format, in any order, as above."""
    asked = (wire("GET /p HTTP/1.1|host: a.test||"), b"garbage\r\n\r\n", wire("GET /p HTTP/1.1|host: a.test|x: " + "x" * 500000))
    with Origin(PLAIN) as origin:
        plain, combined, as_json = [lines_of(origin, ("--log-format", name), asked)[:-1] for name in ("line", "combined", "json")]
    same("lines", ["N - - 400 0 0 N", "N - - 431 0 0 N", "N GET http://a.test/p 200 10 2 N"], sorted(re.sub(r"^\d+|\d+$", "N", line) for line in plain))
    same("as many in each format", [3, 3], [len(combined), len(as_json)])
    refused = sorted((at, *others) for at, _, *others in map(of_combined, combined) if others[1] != 200)
    same("combined", [("127.0.0.1", "- - HTTP/1.1", status, 0, "-", "-") for status in (400, 431)], refused)
    refused = sorted((it["client"], it["method"], it["url"], it["status"], it["answers"], it["fault"]) for it in map(of_json, as_json) if it["status"] != 200)
    same("objects", [("127.0.0.1", "", "", status, 0, "Unreadable") for status in (400, 431)], refused)


def line_is_the_format_without_a_name():
    """--log and --log-format line say the same, but for the times, and for the order of requests that end at the same moment; another word is refused (see the tests of the program)."""
    asked = (wire("GET /p HTTP/1.1|host: a.test||"), wire("GET / HTTP/1.0||"))
    with Origin(PLAIN) as origin:
        told = [lines_of(origin, words, asked) for words in (("--log",), ("--log-format", "line"), ("--log", "--log-format=line"))]
    shapes = [sorted(re.sub(r"^\d+|\d+$", "N", line) for line in lines) for lines in told]
    same("lines", [["", "N GET / 400 27 0 N", "N GET http://a.test/p 200 10 2 N"]] * 3, shapes)


def clients_behind_a_proxy_are_told():
    """--forwarded FIELD: the client is the last address of the field's last line; where that is none, whoever asks."""
    fields = (
        ("", "127.0.0.1"), ("x-forwarded-for: 203.0.113.9|", "203.0.113.9"), ("X-Forwarded-For: 192.0.2.1,\t2001:db8::1 |", "2001:db8::1"),
        ("x-forwarded-for: 192.0.2.1|x-forwarded-for: 192.0.2.2|", "192.0.2.2"), ("x-forwarded-for: 192.0.2.1, unknown|", "127.0.0.1"),
        ("x-forwarded-for: 192.0.2.1,|", "127.0.0.1"), ("x-forwarded-for: 192.0.2.1:80|", "127.0.0.1"), ("forwarded: 192.0.2.1|", "127.0.0.1"),
    )
    asked = [wire("GET /%d HTTP/1.1|host: a.test|%s|" % (at, field)) for at, (field, _) in enumerate(fields)]
    for words, wanted in ((("--forwarded", "X-Forwarded-For"), [told for _, told in fields]), ((), ["127.0.0.1"] * len(fields))):
        with Origin(PLAIN) as origin:
            *lines, _ = lines_of(origin, ("--log-format", "combined", *words), asked)
        # In whichever order the lines come, as above.
        came = sorted((request, who) for who, _, request, *_ in map(of_combined, lines))
        same("clients with %s" % (words,), [("GET /%d HTTP/1.1" % at, told) for at, told in enumerate(wanted)], came)


def ask_on(edge, count, target):
    """So many requests over one connection."""
    with client(edge) as connection:
        for _ in range(count):
            connection.sendall(wire("GET %s HTTP/1.1|host: a.test||" % target))
            came = b""
            while b"[12345678]" not in came:
                came += connection.recv(65536)


def a_reader_that_stands_still_holds_nobody():
    """10,000 requests while nobody reads the log: each is answered by the one thread; once somebody reads, each line is
    whole, and for what was lost a line says how many. The end of the server doesn't wait for a reader."""
    target = "/p?" + "x" * 200
    with Origin(PLAIN) as origin, before(origin, "--log", "--threads", "1", "--accept", "510", *KEPT) as edge:
        for _ in range(10):
            ask_on(edge, 1000, target)
        came = []
        reader = threading.Thread(target=lambda: came.extend(iter(lambda: os.read(edge.process.stderr.fileno(), 65536), b"")))
        reader.start()
        # What waits goes out with the next lines.
        for _ in range(500):
            ask_on(edge, 1, "/p")
        same("exit status", 0, edge.ends())
        reader.join()
    lines = b"".join(came).decode().split("\n")
    same("the end of the last line", "", lines.pop())
    lost = 0
    told = 0
    for line in lines:
        same("a whole line: %r" % line, True, PLAIN_LINE.fullmatch(line) is not None)
        if line.split(" ")[1] == "LOST":
            lost += int(line.split(" ")[2])
        else:
            told += 1
    same("lines and what was lost", 10500, told + lost)
    # What waits, and what the pipe holds.
    same("some were lost, some weren't", (True, True), (lost > 0, told > (1 << 20) // 260))


def no_target_wipes_a_line():
    """--log: beside a target of thousands of letters that are no ASCII each line is whole, and that target has escapes."""
    mine = wire("GET /p HTTP/1.1|host: a.test||")
    for letter in ("", "a"):
        other = ("PUT /%s%s HTTP/1.1\r\nHost: a.test\r\n\r\n" % (letter, "é" * 3000)).encode()
        with Origin(PLAIN) as origin:
            *lines, last = lines_of(origin, ("--log",), (mine, mine, mine, other, mine))
        same("the end of the last line", "", last)
        wanted = ["N GET http://a.test/p 200 10 2 N"] * 4 + ["N PUT /%s%s 405 20 0 N" % (letter, r"\xC3\xA9" * 3000)]
        same("lines", wanted, sorted(re.sub(r"^\d+|\d+$", "N", line) for line in lines))


def the_end_does_not_wait_for_a_reader():
    """A server whose log nobody reads ends by itself."""
    with Origin(PLAIN) as origin, before(origin, "--log", "--accept", "1", *KEPT) as edge:
        ask_on(edge, 2000, "/p?" + "x" * 200)
        same("exit status", 0, edge.ends())


TESTS = (
    logs_are_read_as_combined,
    logs_are_read_as_json,
    logs_tell_why_a_fragment_failed,
    times_are_told_in_microseconds,
    logs_tell_by_which_ways_answers_came,
    heads_that_are_refused_are_told,
    line_is_the_format_without_a_name,
    clients_behind_a_proxy_are_told,
    a_reader_that_stands_still_holds_nobody,
    no_target_wipes_a_line,
    the_end_does_not_wait_for_a_reader,
)
