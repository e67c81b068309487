"""What clients get, whole ones and slow ones."""
import socket
import time

from harness import ASKED, PAGE, PLAIN, TEMPLATE, Edge, Origin, Response, Wires, all_at_once, before, client, exchange, get, rest, same, wire


OTHER = wire("POST /p HTTP/1.1|host: a.test|content-length: 9||")


def one_request_is_served_a_connection():
    """A target that is a whole URL, HTTP/1.0, and requests one after another, of which the first is served."""
    rows = (
        "GET /p HTTP/1.1|host: a.test||",
        "GET http://a.test/p HTTP/1.1|host: b.test||",
        "GET /p HTTP/1.0|host: a.test||",
        "GET /p HTTP/1.1|host: a.test||GET /p HTTP/1.1|host: a.test||",
    )
    with Origin(PLAIN) as origin, Edge("--origin", "a.test=" + origin.at) as edge:
        for row in rows:
            got = Response(exchange(edge, wire(row)))
            same(row, (200, b"[12345678]"), (got.status, got.body))
        got = Response(exchange(edge, OTHER))
        same("another method", (405, b"Only GET is served.\n"), (got.status, got.body))


def own_answers_have_their_fields():
    """400, 405 and 502: status, type, `allow` and text."""
    rows = (
        (b"GET / HTTP/1.1\r\nHost: a/b\r\n\r\n", 400, None, b"The request can't be read.\n"),
        (b"GET / HTTP/1.0\r\n\r\n", 400, None, b"The request can't be read.\n"),
        (b"POST / HTTP/1.1\r\nHost: a.test\r\nContent-Length: 0\r\n\r\n", 405, "GET", b"Only GET is served.\n"),
        (b"HEAD / HTTP/1.1\r\nHost: a.test\r\n\r\n", 405, "GET", b""),
        (b"GET / HTTP/1.1\r\nHost: a.test\r\n\r\n", 502, None, b"The page could not be assembled.\n"),
    )
    with Edge() as edge:
        for sent, status, allow, body in rows:
            got = Response(exchange(edge, sent))
            came = (got.status, got.fields.get("content-type"), got.fields.get("allow"), got.body)
            same(repr(sent), (status, "text/plain", allow, body), came)


def pages_of_faults():
    """A page that isn't a template, and one whose fragment can't be fetched: 502; other statuses as they are."""
    paths = {
        "/bad": (b"<esi:try>", "text/html", TEMPLATE),
        "/gap": (b"<esi:include src='/none'/>", "text/html", TEMPLATE),
    }
    with Origin(paths) as origin, before(origin) as edge:
        for path in paths:
            same(path, (502, b"The page could not be assembled.\n"), (get(edge, path).status, get(edge, path).body))
        same("/none", (404, b"There is no such page.\n"), (get(edge, "/none").status, get(edge, "/none").body))


def silent_clients_are_cut():
    """With --client-timeout a client that sends nothing, or half a head, is hung up on."""
    with Origin(PLAIN) as origin, before(origin, "--client-timeout", "300") as edge:
        for sent in (b"", b"GET /p HT"):
            with client(edge, sent) as connection:
                begun = time.monotonic()
                rest(connection)
                same("hung up on in time", True, time.monotonic() - begun < 10)
        same("others are served", b"[12345678]", get(edge, "/p").body)


def slow_clients_lose_their_connection():
    """A client that sends nothing, one that sends half a head and one that reads nothing of a long page; another is
    served by the one thread."""
    texts = {"/p": wire(PAGE + "<esi:include src='/x'/>" * 40), "/x": wire("HTTP/1.1 200 OK||") + b"1" * 250000}
    with Wires(texts) as origin, before(origin, "--client-timeout", "50", "--threads", "1", "--accept", "4") as edge:
        with client(edge) as silent, client(edge, b"GET /p HT") as half, client(edge, ASKED):
            same("the other", b"Only GET is served.\n", Response(exchange(edge, OTHER)).body)
            same("what the slow ones get", (b"", b""), (rest(silent), rest(half)))
            same("exit status", 0, edge.ends())


def a_silent_client_holds_no_thread():
    """The one thread serves on."""
    with Origin(PLAIN) as origin, before(origin, "--client-timeout", "10000", "--threads", "1", "--accept", "4") as edge:
        with client(edge):
            for _ in range(3):
                same("others", b"[12345678]", get(edge, "/p").body)
        same("exit status", 0, edge.ends())


def without_a_limit_a_client_takes_its_time():
    """A client that pauses in the middle of its head."""
    with Origin(PLAIN) as origin, before(origin, "--client-timeout", "0") as edge:
        with client(edge, ASKED[:9]) as connection:
            time.sleep(0.1)
            connection.sendall(ASKED[9:])
            same("what it gets", b"[12345678]", Response(rest(connection)).body)


def a_request_has_to_come_in_time():
    """A head without end, a byte every 50 milliseconds: the edge hangs up past the limit, and soon."""
    with Edge("--client-timeout", "300") as edge, client(edge, b"GET /p HTTP/1.1\r\nx: ") as connection:
        connection.settimeout(0.05)
        begun = time.monotonic()
        while time.monotonic() - begun < 10:
            try:
                connection.sendall(b"x")
                connection.recv(1)
                break
            except socket.timeout:
                pass
            except OSError:
                break
        taken = time.monotonic() - begun
        same("past the limit, and soon (%.2f s)" % taken, True, 0.3 <= taken < 5)


def a_long_page_comes_whole_to_a_client_that_sends_on():
    """Ten bytes, and a second request, that come after the request and are never read."""
    texts = {"/p": wire(PAGE + "<esi:include src='/x'/>" * 8), "/x": wire("HTTP/1.1 200 OK||") + b"1" * 250000}
    with Wires(texts) as origin, before(origin) as edge:
        for more in (b"0123456789", ASKED):
            with client(edge, ASKED) as connection:
                time.sleep(0.1)
                connection.sendall(more)
                time.sleep(0.1)
                same("bytes of the body", 2000000, len(Response(rest(connection)).body))


def many_clients_are_served_side_by_side():
    """Two threads serve two hundred clients, four of them at a time, and the edge ends with the last."""
    with Origin(PLAIN) as origin, before(origin, "--threads", "2", "--accept", "200") as edge:
        came = all_at_once([lambda: [get(edge, "/p").body for _ in range(50)]] * 4)
        same("what they got", [[b"[12345678]"] * 50] * 4, came)
        same("exit status", 0, edge.ends())


TESTS = (
    one_request_is_served_a_connection,
    own_answers_have_their_fields,
    pages_of_faults,
    silent_clients_are_cut,
    slow_clients_lose_their_connection,
    a_silent_client_holds_no_thread,
    without_a_limit_a_client_takes_its_time,
    a_request_has_to_come_in_time,
    a_long_page_comes_whole_to_a_client_that_sends_on,
    many_clients_are_served_side_by_side,
)
