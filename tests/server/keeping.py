"""Connections that are kept: what clients get over them, request after request, and when they end."""
import email.utils
import http.client
import itertools
import re
import time

from harness import ASKED, PAGE, PATIENCE, PLAIN, Origin, Response, Wires, all_at_once, before, client, get, rest, same, sized, wire

KEPT = ("--keep-alive", "20")
BODY = b"[12345678]"


def responses_of(came, methods=itertools.repeat("GET")):
    """The responses that these bytes are, one after another, each with the length that it says; of one to HEAD there is the head alone."""
    found = []
    for method in methods:
        if not came:
            return found
        head, end, more = came.partition(b"\r\n\r\n")
        response = Response(head + end)
        length = 0 if method == "HEAD" else int(response.fields["content-length"])
        response.body, came = more[:length], more[length:]
        same("the length of a body", length, len(response.body))
        found.append(response)
    same("bytes after the last response", b"", came)
    return found


def of_one(connection):
    """The next response over a connection, whose body is sent with its length."""
    came = b""
    while b"\r\n\r\n" not in came:
        came += more_of(connection)
    length = int(Response(came).fields["content-length"])
    while len(came.partition(b"\r\n\r\n")[2]) < length:
        came += more_of(connection)
    return responses_of(came)[0]


def more_of(connection):
    more = connection.recv(65536)
    if not more:
        raise EOFError("the connection ended within a response")
    return more


def is_last(response):
    return response.fields.get("connection") == "close"


# Requests of each kind: a method, a target and fields; then the status and the body.
KINDS = (
    ("GET", "/p", {}, 200, BODY),
    ("GET", "/none", {}, 404, b"There is no such page.\n"),
    ("PUT", "/p", {}, 405, b"Only GET is served.\n"),
    ("HEAD", "/p", {}, 405, b""),
    ("GET", "/p", {"Host": "a/b"}, 400, b"The request can't be read.\n"),
    ("GET", "/x", {"Cookie": "a=1"}, 200, b"12345678"),
)


def requests_follow_one_another_over_a_connection():
    """Each two and three kinds of requests in each order, by the client of Python's library: each gets what it
    gets over a connection of its own, and all of them come over one."""
    with Origin(PLAIN) as origin, before(origin, *KEPT) as edge:
        for kinds in itertools.chain(itertools.permutations(KINDS, 2), itertools.permutations(KINDS, 3)):
            asking = http.client.HTTPConnection("127.0.0.1", edge.port, timeout=PATIENCE)
            asking.connect()
            port = asking.sock.getsockname()[1]
            for method, target, fields, status, body in kinds:
                asking.request(method, target, headers=dict({"Host": "a.test"}, **fields))
                got = asking.getresponse()
                same("%s %s" % (method, target), (status, body), (got.status, got.read()))
                same("the connection after %s %s" % (method, target), port, asking.sock and asking.sock.getsockname()[1])
            asking.close()


def pipelined_requests_are_answered_in_order():
    """Forty requests that are sent at once, by a client that has ended its input and by one that hasn't."""
    targets = ["/p", "/x", "/none"] * 13 + ["/p"]
    wanted = {"/p": BODY, "/x": b"12345678", "/none": b"There is no such page.\n"}
    sent = b"".join(wire("GET %s HTTP/1.1|host: a.test||" % it) for it in targets)
    with Origin(PLAIN) as origin, before(origin, *KEPT) as edge:
        with client(edge, sent, ends=True) as connection:
            bodies = [it.body for it in responses_of(rest(connection))]
        same("of one that has ended its input", [wanted[it] for it in targets], bodies)
        last = wire("GET /p HTTP/1.1|host: a.test|connection: close||")
        with client(edge, sent + last) as connection:
            bodies = [it.body for it in responses_of(rest(connection))]
        same("of one that closes with the last", [wanted[it] for it in [*targets, "/p"]], bodies)


def pipelined_responses_have_a_limit_of_time_each():
    """Of two requests that are sent at once the second one's page comes after the time for a response."""
    texts = {"/p": sized("HTTP/1.1 200 OK", "p"), "/s": lambda _: time.sleep(1.5) or sized("HTTP/1.1 200 OK", "s")}
    sent = wire("GET /p HTTP/1.1|host: a.test||GET /s HTTP/1.1|host: a.test|connection: close||")
    with Wires(texts) as origin, before(origin, *KEPT, "--client-timeout", "1000") as edge:
        with client(edge, sent) as connection:
            same("the pages", [b"p", b"s"], [it.body for it in responses_of(rest(connection))])


def a_request_may_come_in_parts():
    """A second head that comes byte by byte, and one of which the first part comes with the first request."""
    with Origin(PLAIN) as origin, before(origin, *KEPT) as edge:
        with client(edge, ASKED) as connection:
            same("the first", BODY, of_one(connection).body)
            for byte in ASKED:
                connection.sendall(bytes([byte]))
                time.sleep(0.002)
            same("byte by byte", BODY, of_one(connection).body)
            connection.sendall(ASKED + ASKED[:20])
            same("with a part of the next", BODY, of_one(connection).body)
            connection.sendall(ASKED[20:])
            same("the rest of it", BODY, of_one(connection).body)


def the_last_response_says_so():
    """What ends a connection: the client's word, HTTP/1.0, a body that nobody reads, what is no request."""
    rows = (
        ("GET /p HTTP/1.1|host: a.test|connection: close||", 200, True),
        ("GET /p HTTP/1.0|host: a.test||", 200, True),
        ("POST /p HTTP/1.1|host: a.test|content-length: 5||hello", 405, True),
        ("POST /p HTTP/1.1|host: a.test|content-length: 500||hello", 405, True),
        ("POST /p HTTP/1.1|host: a.test|transfer-encoding: chunked||5|hello|", 405, True),
        ("GET / HTTP/1.1||", 400, False),
        ("no request||", 400, False),
    )
    with Origin(PLAIN) as origin, before(origin, *KEPT) as edge:
        for row, status, says in rows:
            for before_it in (b"", ASKED):
                with client(edge, before_it + wire(row)) as connection:
                    got = responses_of(rest(connection))[-1] if says else Response(rest(connection).split(BODY)[-1])
                same(repr((before_it, row)), status, got.status)
                same("it says that it is the last: %r" % row, says, says and (is_last(got) or "HTTP/1.0" in row))


def of_http_1_0_those_that_ask_are_kept():
    """A client of HTTP/1.0 that asks for it gets two responses over one connection."""
    asked = wire("GET /p HTTP/1.0|host: a.test|connection: keep-alive||")
    with Origin(PLAIN) as origin, before(origin, *KEPT) as edge, client(edge, asked) as connection:
        first = of_one(connection)
        same("the first", (BODY, "keep-alive"), (first.body, first.fields.get("connection")))
        connection.sendall(wire("GET /x HTTP/1.0|host: a.test||"))
        same("the second", b"12345678", Response(rest(connection)).body)


def long_responses_follow_one_another():
    """Three pages of 5,000,000 bytes over one connection, of which the next is asked for before the first was
    read, by a client that reads slowly at first."""
    texts = {"/p": wire(PAGE + "<esi:include src='/x'/>" * 20), "/x": wire("HTTP/1.1 200 OK||") + b"1" * 250000}
    with Wires(texts) as origin, before(origin, *KEPT) as edge, client(edge, ASKED) as connection:
        time.sleep(0.2)
        connection.sendall(ASKED + ASKED)
        time.sleep(0.2)
        came = b""
        while came.count(b"HTTP/1.1 200") < 3 or not came.endswith(b"1" * 250000) or len(came) < 15000000:
            came += more_of(connection)
        same("lengths", [5000000] * 3, [len(it.body) for it in responses_of(came)])


def idle_connections_end():
    """A connection ends once its client has sent nothing for so long, whatever came before, and one that isn't
    kept with its response."""
    with Origin(PLAIN) as origin, before(origin, "--keep-alive", "1") as edge:
        for sent in (ASKED, ASKED + ASKED):
            with client(edge, sent) as connection:
                begun = time.monotonic()
                responses_of(rest(connection))
                taken = time.monotonic() - begun
            same("ended after a second (%.2f)" % taken, True, 0.9 <= taken < 5)
    with Origin(PLAIN) as origin, before(origin) as edge, client(edge, ASKED) as connection:
        got = responses_of(rest(connection))
        same("without --keep-alive", [(BODY, True)], [(it.body, is_last(it)) for it in got])


def a_later_request_has_to_come_in_time():
    """The limit for a request counts for each: half a head after a response, and a byte now and then."""
    with Origin(PLAIN) as origin, before(origin, *KEPT, "--client-timeout", "300") as edge:
        with client(edge, ASKED) as connection:
            same("the first", BODY, of_one(connection).body)
            time.sleep(0.6)
            connection.sendall(ASKED)
            same("a second one, later than the limit of a request", BODY, of_one(connection).body)
            connection.sendall(ASKED[:20])
            begun = time.monotonic()
            same("what half a head gets", b"", rest(connection))
            taken = time.monotonic() - begun
        same("past the limit, and soon (%.2f s)" % taken, True, 0.2 <= taken < 5)


def more_connections_are_kept_than_there_are_threads():
    """Twenty by one thread and by four. Clients beyond them are answered, and each of the twenty once more."""
    for threads in ("1", "4"):
        with Origin(PLAIN) as origin, before(origin, *KEPT, "--threads", threads) as edge:
            kept = [client(edge, ASKED) for _ in range(20)]
            for connection in kept:
                same("kept", (BODY, False), (lambda it: (it.body, is_last(it)))(of_one(connection)))
            for _ in range(10):
                same("beyond them", BODY, get(edge, "/p", fields="Connection: close\r\n").body)
            for connection in kept:
                connection.sendall(ASKED)
                same("still kept", (BODY, False), (lambda it: (it.body, is_last(it)))(of_one(connection)))
                connection.close()


def busy_connections_are_kept():
    """Twelve clients ask again and again over four threads, each over one connection."""
    with Origin(PLAIN) as origin, before(origin, *KEPT, "--threads", "4") as edge:
        counts = [0] * 12

        def ask(at):
            asking = http.client.HTTPConnection("127.0.0.1", edge.port, timeout=PATIENCE)
            asking.connect()
            port = asking.sock.getsockname()[1]
            for _ in range(30):
                asking.request("GET", "/p", headers={"Host": "a.test"})
                is_page = asking.getresponse().read() == BODY
                counts[at] += is_page and asking.sock is not None and asking.sock.getsockname()[1] == port
            asking.close()

        all_at_once([lambda at=at: ask(at) for at in range(12)])
        same("responses", [30] * 12, counts)


def each_request_over_a_connection_is_told():
    """With --log the line of a request is there before its connection has ended."""
    with Origin(PLAIN) as origin, before(origin, *KEPT, "--log") as edge, client(edge) as connection:
        for target, wanted in (("/p", "200 10 2"), ("/none", "404 23 1"), ("/x", "200 8 1")):
            connection.sendall(wire("GET %s HTTP/1.1|host: a.test||" % target))
            of_one(connection)
            line = edge.process.stderr.readline().decode()
            pattern = r"\d{10,} GET http://a\.test%s %s \d+\n" % (target, wanted)
            same("%s in %r" % (pattern, line), True, re.fullmatch(pattern, line) is not None)


def head_is_answered_where_it_is_asked_for():
    """With --head it gets the fields of GET and no body, over a connection that is kept and one that isn't."""
    sent = wire("HEAD /p HTTP/1.1|host: a.test||GET /p HTTP/1.1|host: a.test|connection: close||")
    with Origin(PLAIN) as origin, before(origin, "--head", *KEPT) as edge:
        with client(edge, sent) as connection:
            head, whole = responses_of(rest(connection), ("HEAD", "GET", "GET"))
        same("statuses", (200, 200), (head.status, whole.status))
        same("bodies", (b"", BODY), (head.body, whole.body))
        same("length", "10", head.fields["content-length"])
        same("type", whole.fields["content-type"], head.fields["content-type"])
    with Origin(PLAIN) as origin, before(origin, "--head") as edge:
        same("another method", 405, get(edge, "/p", method="PUT").status)
        got = get(edge, "/p", method="HEAD")
        same("not kept", (200, "10", b""), (got.status, got.fields["content-length"], got.body))
        same("of no page", 404, get(edge, "/none", method="HEAD").status)


def responses_have_dates():
    """Each response says when it was made, within seconds of this clock, in the one form that is written today."""
    with Origin(PLAIN) as origin, before(origin, *KEPT) as edge:
        for target, method in (("/p", "GET"), ("/none", "GET"), ("/p", "PUT")):
            begun = time.time()
            date = get(edge, target, method=method, fields="connection: close\r\n").fields.get("date", "")
            told = email.utils.parsedate_to_datetime(date)
            same("the form of %r" % date, email.utils.format_datetime(told, usegmt=True), date)
            same("the time of %r" % date, True, begun - 2 < told.timestamp() < time.time() + 2)


def the_edge_ends_with_kept_connections():
    """With --accept it ends once its last connection has ended, though it was kept."""
    with Origin(PLAIN) as origin, before(origin, "--keep-alive", "1", "--accept", "2") as edge:
        with client(edge, ASKED) as connection, client(edge, ASKED) as other:
            same("both are served", [BODY, BODY], [of_one(it).body for it in (connection, other)])
            same("exit status", 0, edge.ends())


TESTS = (
    requests_follow_one_another_over_a_connection,
    pipelined_requests_are_answered_in_order,
    pipelined_responses_have_a_limit_of_time_each,
    a_request_may_come_in_parts,
    the_last_response_says_so,
    of_http_1_0_those_that_ask_are_kept,
    long_responses_follow_one_another,
    idle_connections_end,
    a_later_request_has_to_come_in_time,
    more_connections_are_kept_than_there_are_threads,
    busy_connections_are_kept,
    each_request_over_a_connection_is_told,
    head_is_answered_where_it_is_asked_for,
    responses_have_dates,
    the_edge_ends_with_kept_connections,
)
