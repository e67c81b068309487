"""Connections between two requests, of which the edge keeps little more than the socket: what clients get who pause within
a head, when such a connection ends, and which of them ends for another."""
import contextlib
import itertools
import socket
import time

from harness import Origin, Response, before, client, rest, same, wire
from keeping import is_last, more_of, of_one, responses_of
from parking import STORED, is_ended, to_its_end

# Longer than a read may hold a thread, so that a connection is waited for over which nothing comes meanwhile.
PAUSE = 0.1
# Nothing ends by its time.
LASTING = ("--keep-alive", "600", "--client-timeout", "600000", "--threads", "2")
# A page that says what the lines of its request's head said, down to the last.
SAYING = {"/p": (b"<esi:vars>[$(HTTP_HOST) $(HTTP_COOKIE{n})]</esi:vars>", "text/html", STORED)}
CLOSES = "connection: close|"


def asked(number, more=""):
    """A request for a page with this number."""
    return wire("GET /p HTTP/1.1|host: a.test|%scookie: n=%d||" % (more, number))


def page(number):
    return b"[a.test %d]" % number


def bodies_of(connection, count):
    """So many pages that come next."""
    came = b""
    while came.count(b"HTTP/1.1 ") < count or not came.endswith(b"]"):
        came += more_of(connection)
    return [it.body for it in responses_of(came)]


def content(response):
    """What doesn't depend on the time."""
    return response.status, {name: value for name, value in response.fields.items() if name != "date"}, response.body


def whole(edge, number):
    """What a request gets that comes whole."""
    with client(edge, asked(number)) as connection:
        response = of_one(connection)
    same("a page", (200, page(number), False), (response.status, response.body, is_last(response)))
    return content(response)


def halves(head):
    """A head that is cut after each of its bytes."""
    return [(head[:at], head[at:]) for at in range(1, len(head))]


def send_all(connections, texts):
    for connection, text in zip(connections, texts):
        connection.sendall(text)


def all_get(what, connections, wanted):
    """Over each of these connections comes one response, and it is like this."""
    for at, connection in enumerate(connections, 1):
        same("%s, cut after byte %d" % (what, at), wanted, content(of_one(connection)))


def all_end(what, connections):
    """Over each of these connections one more request is answered, and then nothing comes."""
    send_all(connections, itertools.repeat(asked(9, CLOSES)))
    for at, connection in enumerate(connections, 1):
        same("the last after %s, cut after byte %d" % (what, at), [page(9)], [it.body for it in responses_of(rest(connection))])


def a_client_may_pause_at_each_byte_of_a_head():
    """In the first request of a connection, at once or after a pause before it, and in one after another that was answered: it
    gets what one gets that comes whole."""
    begins, ends = zip(*halves(asked(2)))
    with Origin(SAYING) as origin, before(origin, *LASTING, "--connections", "1024") as edge, contextlib.ExitStack() as clients:
        at_once, late, further = ([clients.enter_context(client(edge)) for _ in begins] for _ in range(3))
        send_all(at_once, begins)
        send_all(further, itertools.repeat(asked(1)))
        all_get("the one before", further, whole(edge, 1))
        time.sleep(PAUSE)
        send_all(late + further, begins + begins)
        time.sleep(PAUSE)
        for what, connections in (("a first one", at_once), ("a late one", late), ("a further one", further)):
            send_all(connections, ends)
            all_get(what, connections, whole(edge, 2))
            all_end(what, connections)


def a_head_may_begin_with_the_request_before_it():
    """Cut after each of its bytes, in one write with the request before it, which is answered during the pause: over new
    connections and over idle ones."""
    begins, ends = zip(*halves(asked(2)))
    with Origin(SAYING) as origin, before(origin, *LASTING, "--connections", "1024") as edge, contextlib.ExitStack() as clients:
        new, idle = ([clients.enter_context(client(edge)) for _ in begins] for _ in range(2))
        send_all(idle, itertools.repeat(asked(0)))
        all_get("the one before", idle, whole(edge, 0))
        time.sleep(PAUSE)
        send_all(new + idle, [asked(1) + it for it in begins + begins])
        all_get("the first", new + idle, whole(edge, 1))
        time.sleep(PAUSE)
        for what, connections in (("the second over a new one", new), ("the second over an idle one", idle)):
            send_all(connections, ends)
            all_get(what, connections, whole(edge, 2))
            all_end(what, connections)


def each_write_may_end_within_a_head():
    """Seven requests with pauses between: a write has the end of a head and the begin of the next. Behind the last is half a
    head, which gets nothing, or what is no request."""
    rows = (
        ("half a head after the connection's last request", CLOSES, asked(7)[:20], b"", None),
        ("half a head and the end of the input", "", asked(7)[:20], b"", None),
        ("no request, in halves", "", b"no requ", wire("est||"), 400),
    )
    with Origin(SAYING) as origin, before(origin, *LASTING) as edge:
        for what, more, behind, after, status in rows:
            heads = [*map(asked, range(6)), asked(6, more)]
            text, sent = b"".join(heads) + behind, 0
            with client(edge) as connection:
                for number, end in enumerate(itertools.accumulate(map(len, heads))):
                    until = end + 7 * number + 1 if number < 6 else len(text)
                    connection.sendall(text[sent:until])
                    sent = until
                    same("%s: a page before it" % what, page(number), of_one(connection).body)
                    time.sleep(PAUSE)
                if not more:
                    connection.sendall(after)
                    connection.shutdown(socket.SHUT_WR)
                came = to_its_end(connection)
            same(what, status, Response(came).status if came else None)


def long_heads_may_be_cut():
    """Three of 50,000 bytes, more than one read takes: in one write, with a pause within the last."""
    fields = "".join("x-%d: %s|" % (at, "y" * 5000) for at in range(10))
    first, second, third = (asked(number, fields) for number in (1, 2, 3))
    with Origin(SAYING) as origin, before(origin, *LASTING) as edge:
        for cut in (1, 8192, 30000, len(third) - 1):
            with client(edge, asked(0)) as connection:
                same("a short one", page(0), of_one(connection).body)
                time.sleep(PAUSE)
                connection.sendall(first + second + third[:cut])
                same("those before it", [page(1), page(2)], bodies_of(connection, 2))
                time.sleep(PAUSE)
                connection.sendall(third[cut:] + asked(4, CLOSES))
                same("cut after byte %d, and the next" % cut, [page(3), page(4)], [it.body for it in responses_of(rest(connection))])


def two_hundred_idle_connections_go_on_at_once():
    """By two threads, again and again: each gets its own page."""
    with Origin(SAYING) as origin, before(origin, *LASTING, "--connections", "1024") as edge, contextlib.ExitStack() as clients:
        idle = [clients.enter_context(client(edge)) for _ in range(200)]
        for turn in range(5):
            numbers = range(200 * turn, 200 * turn + 200)
            time.sleep(PAUSE)
            send_all(idle, map(asked, numbers))
            same("turn %d" % turn, [*map(page, numbers)], [of_one(it).body for it in idle])


def a_silent_client_has_the_time_of_its_request():
    """From the accept on, also if half a head comes late: both end before one who came a second after them."""
    with Origin(SAYING) as origin, before(origin, "--keep-alive", "600", "--client-timeout", "3000") as edge:
        begun = time.monotonic()
        with client(edge) as silent, client(edge) as late:
            time.sleep(1)
            with client(edge) as later:
                time.sleep(1)
                late.sendall(asked(1)[:20])
                same("what they get", [b"", b""], [to_its_end(silent), to_its_end(late)])
                taken = time.monotonic() - begun
                same("not before their time (%.2f s)" % taken, True, taken > 2.8)
                same("who came later has ended", False, is_ended(later))
                same("what that one gets", b"", to_its_end(later))


def half_a_head_keeps_no_connection():
    """A connection ends once its client has sent nothing for as long as it is kept, also one whose last request came with
    half a head."""
    with Origin(SAYING) as origin, before(origin, "--keep-alive", "1") as edge:
        with client(edge, asked(1) + asked(2)[:20]) as connection:
            begun = time.monotonic()
            same("the page", page(1), of_one(connection).body)
            same("what half a head gets", b"", to_its_end(connection))
            taken = time.monotonic() - begun
        same("in time (%.2f s)" % taken, True, 0.9 < taken < 10)


def a_stop_ends_idle_connections():
    """Also one with half a head. Of two silent clients one still asks and is answered; the other one has the time of its
    request, and then the server ends."""
    limits = ("--stop-with-input", "--keep-alive", "600", "--client-timeout", "3000")
    with Origin(SAYING) as origin, before(origin, *limits, piped=True) as edge, contextlib.ExitStack() as clients:
        idle, half, silent, late = (clients.enter_context(client(edge)) for _ in range(4))
        idle.sendall(asked(1))
        half.sendall(asked(1) + asked(2)[:20])
        same("pages before", [page(1)] * 2, [of_one(it).body for it in (idle, half)])
        time.sleep(PAUSE)
        edge.process.stdin.close()
        same("what idle ones get", [b"", b""], [rest(idle), rest(half)])
        same("silent ones have ended", [False, False], [is_ended(silent), is_ended(late)])
        late.sendall(asked(3))
        same("a late request", [page(3)], [it.body for it in responses_of(rest(late))])
        same("a silent one has ended", False, is_ended(silent))
        same("what it gets", b"", rest(silent))
        same("exit status", 0, edge.ends())


def no_silent_client_makes_room():
    """Of eight connections that may be open three are of silent clients. As others come those end that have been idle for
    longest, with half a head or without; then each silent one asks."""
    with Origin(SAYING) as origin, before(origin, *LASTING, "--connections", "8") as edge, contextlib.ExitStack() as clients:
        silent = [clients.enter_context(client(edge)) for _ in range(3)]
        idle = []
        for number in range(12):
            idle.append(clients.enter_context(client(edge, asked(number) + asked(12)[:20 * (number % 2)])))
            same("a page", page(number), of_one(idle[-1]).body)
            # So that it is known which have been idle for longest.
            time.sleep(PAUSE)
        ended = [is_ended(it) for it in idle]
        same("those that have ended came first", sorted(ended, reverse=True), ended)
        same("no more are open than may be", True, 1 <= ended.count(False) <= 5)
        same("silent ones that have ended", [False] * 3, [is_ended(it) for it in silent])
        send_all(silent, [asked(number, CLOSES) for number in range(3)])
        same("what they ask for", [*map(page, range(3))], [Response(rest(it)).body for it in silent])


TESTS = (
    a_client_may_pause_at_each_byte_of_a_head,
    a_head_may_begin_with_the_request_before_it,
    each_write_may_end_within_a_head,
    long_heads_may_be_cut,
    two_hundred_idle_connections_go_on_at_once,
    a_silent_client_has_the_time_of_its_request,
    half_a_head_keeps_no_connection,
    a_stop_ends_idle_connections,
    no_silent_client_makes_room,
)
