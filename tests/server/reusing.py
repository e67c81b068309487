"""Connections to origins that are kept for further fetches: which are, what comes over them, and when they end."""
import socket
import threading
import time
from itertools import product

from harness import PATIENCE, UNASSEMBLED, Edge, Listening, all_at_once, before, client, get, same, told, wire
from keeping import of_one
from operating import ADMIN, Desk, metrics
from parking import IS_FULL

# Threads that fetch one by one, and those that may have several fetches in flight.
WAYS = ((), ("--fetches", "2"))
# Connections to an origin, and to a client, that are kept.
REUSED = ("--origin-keep-alive", "4")
KEPT = ("--keep-alive", "20")
REQUESTS = 10000
# The seconds after which an idle connection to an origin isn't used again.
MOST_IDLE = 15


def whole(target):
    """What an origin sends for a target: the target, with its length."""
    return wire("HTTP/1.1 200 OK|content-length: %d||%s" % (len(target), target))


class Lasting(Listening):
    """An origin that keeps its connections: each is served by a thread, until `answer` says that it ends. That is
    given the target and how many requests came before over the connection; it gives what is sent, and whether the
    connection ends behind that."""

    def __init__(self, answer=lambda target, before_it: (whole(target), False), *place):
        self.answer = answer
        self.connections = self.open = 0
        self.lock = threading.Lock()
        super().__init__(*place)

    def accepted(self, connection):
        connection.setsockopt(socket.IPPROTO_TCP, socket.TCP_NODELAY, 1)
        with self.lock:
            self.connections += 1
            self.open += 1
        threading.Thread(target=self.serve, args=(connection,), daemon=True).start()

    def serve(self, connection):
        try:
            with connection:
                self.serve_all(connection)
        except OSError:
            pass
        with self.lock:
            self.open -= 1

    def answer_to(self, head, count):
        """What is sent for a head that comes after so many others over its connection, and whether the connection ends."""
        return self.answer(head.split(b" ")[1].decode(), count)

    def serve_all(self, connection):
        came, count, ends = b"", 0, False
        while not ends:
            while b"\r\n\r\n" not in came:
                more = connection.recv(4096)
                if not more:
                    return
                came += more
            head, end, came = came.partition(b"\r\n\r\n")
            with self.lock:
                self.heads.append(head + end)
            sent, ends = self.answer_to(head + end, count)
            for piece in sent if isinstance(sent, tuple) else (sent,):
                connection.sendall(piece) if isinstance(piece, bytes) else time.sleep(piece)
            count += 1


def asks_in_turn(edge, targets, pause=0):
    """Asks for these targets, one after another over one connection: each gets its own answer."""
    with client(edge) as connection:
        for target in targets:
            connection.sendall(wire("GET %s HTTP/1.1|host: a.test||" % target))
            got = of_one(connection)
            same("what %s gets" % target, (200, target.encode()), (got.status, got.body))
            time.sleep(pause)


def numbered(count):
    return ["/%d" % k for k in range(count)]


def resting(port):
    """How many sockets of this port the system still keeps, though their connection has ended."""
    with open("/proc/net/tcp", encoding="ascii") as it:
        rows = [line.split() for line in it.read().split("\n")[1:] if line]
    is_one = lambda row: row[3] == "06" and any(end.endswith(":%04X" % port) for end in row[1:3])
    return sum(map(is_one, rows))


def one_connection_serves_many_fetches():
    """Ten thousand fetches, one after another, come over one connection, and leave nothing behind; what is sent says
    nothing of an end."""
    with Lasting() as origin, before(origin, *REUSED, *KEPT) as edge:
        asks_in_turn(edge, numbered(REQUESTS))
        same("connections", 1, origin.connections)
        same("sockets that rest are few (%d)" % resting(origin.port), True, resting(origin.port) < 100)
        same("fields that an end is asked by", [], [head for head in origin.heads if b"\r\nconnection:" in head.lower()])
        same("requests for bodies as they are", REQUESTS, sum(b"\r\naccept-encoding: identity\r\n" in head for head in origin.heads))


def each_origin_keeps_as_many_as_may_be():
    """One connection each to two origins, whose fetches take turns."""
    with Lasting() as one, Lasting() as other:
        origins = ("--origin", "a.test=" + one.at, "--origin", "b.test=" + other.at)
        with Edge(*origins, "--origin-keep-alive", "1") as edge:
            for target in numbered(3):
                for host in ("a.test", "b.test"):
                    same("%s of %s" % (target, host), (200, target.encode()), told(edge, target, host))
        same("connections", (1, 1), (one.connections, other.connections))


def without_the_option_each_fetch_has_its_own():
    """Each request asks for the end of its connection, and for a body as it is."""
    with Lasting() as origin, before(origin, *KEPT) as edge:
        asks_in_turn(edge, numbered(20))
        same("connections", 20, origin.connections)
        for field in (b"\r\nconnection: close\r\n", b"\r\naccept-encoding: identity\r\n"):
            same(repr(field), 20, sum(field in head for head in origin.heads))


def responses_say_whether_a_connection_is_kept():
    """What an origin sends for each of three fetches, and over how many connections they come."""
    rows = (
        ("HTTP/1.1 200 OK|content-length: 2||/0", 1),
        ("HTTP/1.1 200 OK|connection: keep-alive|keep-alive: timeout=5|content-length: 2||/0", 1),
        ("HTTP/1.1 200 OK|transfer-encoding: chunked||2|/0|0||", 1),
        ("HTTP/1.1 100 Continue||HTTP/1.1 200 OK|content-length: 2||/0", 1),
        ("HTTP/1.1 200 OK|connection: close|content-length: 2||/0", 3),
        ("HTTP/1.1 200 OK|connection: keep-alive , CLOSE|content-length: 2||/0", 3),
        ("HTTP/1.1 200 OK|connection: x|connection: close|transfer-encoding: chunked||2|/0|0||", 3),
        ("HTTP/1.0 200 OK|content-length: 2||/0", 3),
        ("HTTP/1.0 200 OK|connection: keep-alive|content-length: 2||/0", 3),
        ("HTTP/1.1 200 OK|content-length: 2||/0|", 3),
        ("HTTP/1.1 200 OK|transfer-encoding: chunked||2|/0|0||0", 3),
    )
    for text, connections in rows:
        with Lasting(lambda target, before_it: (wire(text), False)) as origin, before(origin, *REUSED, *KEPT) as edge:
            asks_in_turn(edge, ["/0"] * 3)
            same(text, connections, origin.connections)


def unasked_bytes_are_no_answer():
    """An origin that sends a second response behind each, with it or while the connection is idle: nobody gets it."""
    unasked = wire("HTTP/1.1 200 OK|content-length: 5||wrong")
    with Lasting(lambda target, before_it: (whole(target) + unasked, False)) as origin:
        with before(origin, *REUSED, *KEPT) as edge:
            asks_in_turn(edge, numbered(REQUESTS))
            same("connections", REQUESTS, origin.connections)
    with Lasting(lambda target, before_it: ((whole(target), 0.001, unasked), False)) as origin:
        with before(origin, *REUSED, *KEPT) as edge:
            asks_in_turn(edge, numbered(100), pause=0.02)
            same("connections", 100, origin.connections)


def an_address_that_sends_unasked_keeps_no_connection():
    """Once an origin has sent bytes unasked, with an answer or after it, each fetch has a connection of its own, those that
    were idle are closed, and the metrics tell of it; another origin keeps its own."""
    for pause in ((), (0.001,)):
        sends = lambda target, before_it: ((whole(target), *pause, b"HTTP") if target == "/2" else whole(target), False)
        with Lasting(sends) as origin, Lasting() as other:
            names = ("--origin", "a.test=" + origin.at, "--origin", "b.test=" + other.at)
            with Edge(*names, *ADMIN, *REUSED, *KEPT) as edge:
                desk = Desk(edge)
                asks_in_turn(edge, numbered(10), pause=0.02)
                for k in range(3):
                    same("the other", 200, get(edge, "/%d" % k, "b.test", "connection: close\r\n").status)
                same("connections", (8, 1), (origin.connections, other.connections))
                told_of = {'esi_edge_strays_total{origin="%s"}' % name: count for name, count in (("a.test", 1), ("b.test", 0))}
                same("what is told", told_of, {name: count for name, count in metrics(desk).items() if "strays" in name})
                same("connections that are open", 0, origin.open)


def a_connection_may_end_as_a_request_goes_out():
    """An origin that ends each connection as its second request comes: that is asked once more over a new one."""

    def once(target, before_it):
        return (b"", True) if before_it else (whole(target), False)

    with Lasting(once) as origin, before(origin, *REUSED, *KEPT) as edge:
        asks_in_turn(edge, numbered(REQUESTS))
        same("requests that came", 2 * REQUESTS - 1, len(origin.heads))
        same("connections", REQUESTS, origin.connections)


def a_connection_may_end_while_it_is_idle():
    """An origin that ends each connection soon after its response is asked over a new one, and no request is lost."""
    with Lasting(lambda target, before_it: ((whole(target), 0.001), True)) as origin, before(origin, *REUSED, *KEPT) as edge:
        asks_in_turn(edge, numbered(100), pause=0.02)
        same("requests that came", 100, len(origin.heads))


def what_was_cut_is_not_asked_for_again():
    """A response over a kept connection that is cut after its first byte fails its fetch, and is asked for once."""
    parts = (b"H", wire("HTTP/1.1 200 OK|content-length: 5||/"), wire("HTTP/1.1 600 Odd||"))
    for several, sent in product(WAYS, parts):
        answer = lambda target, before_it: (sent, True) if before_it else (whole(target), False)
        with Lasting(answer) as origin, before(origin, *REUSED, *several) as edge:
            same("the first", (200, b"/p"), told(edge))
            same("cut after %r" % sent, UNASSEMBLED, told(edge))
            same("requests that came", 2, len(origin.heads))
            same("over a new one", (200, b"/p"), told(edge))


def one_limit_of_time_counts_for_a_fetch():
    """An origin that doesn't answer over a kept connection fails the fetch at its limit, which isn't begun anew."""

    def late(target, before_it):
        return ((5, whole(target)), True) if before_it else (whole(target), False)

    with Lasting(late) as origin, before(origin, *REUSED, "--timeout", "400") as edge:
        same("the first", (200, b"/p"), told(edge))
        begun = time.monotonic()
        same("the second", UNASSEMBLED, told(edge))
        taken = time.monotonic() - begun
        same("at the limit (%.2f s)" % taken, True, 0.35 <= taken < 0.75)
        same("requests that came", 2, len(origin.heads))


def origins_keep_their_own_connections():
    """Two origins that are asked in turn: each over one connection, and never over the other's."""
    answers = [lambda target, before_it, text=text: (whole(text + target), False) for text in ("a", "b")]
    for several in WAYS:
        with Lasting(answers[0]) as a, Lasting(answers[1]) as b:
            with Edge("--origin", "a.test=" + a.at, "--origin", "b.test=" + b.at, *REUSED, *several) as edge:
                for k, (host, text) in product(range(50), (("a.test", b"a"), ("b.test", b"b"))):
                    with client(edge, wire("GET /%d HTTP/1.1|host: %s|connection: close||" % (k, host))) as connection:
                        same("%s, %d" % (host, k), text + b"/%d" % k, of_one(connection).body)
            same("connections", (1, 1), (a.connections, b.connections))


def no_more_are_kept_than_may_be():
    """Twelve fetches at one time have twelve connections, of which four are kept."""
    met = threading.Barrier(12)

    def together(target, before_it):
        if target.startswith("/together"):
            met.wait(PATIENCE)
        return whole(target), False

    for several in WAYS:
        with Lasting(together) as origin, before(origin, *REUSED, "--threads", "16", *several) as edge:
            came = all_at_once([lambda k=k: told(edge, "/together%d" % k) for k in range(12)])
            same("what they got", sorted((200, b"/together%d" % k) for k in range(12)), sorted(came))
            until = time.monotonic() + PATIENCE
            while origin.open > 4 and time.monotonic() < until:
                time.sleep(0.01)
            same("connections that are open", 4, origin.open)
            same("one more", (200, b"/p"), told(edge))
            same("connections", 12, origin.connections)


def idle_connections_to_origins_end():
    """A connection that no fetch needed for so long isn't used again."""
    if not IS_FULL:
        return
    with Lasting() as origin, before(origin, *REUSED) as edge:
        for pause, connections in ((MOST_IDLE - 2, 1), (MOST_IDLE + 1, 1), (0, 2)):
            same("/p", (200, b"/p"), told(edge))
            same("connections", connections, origin.connections)
            time.sleep(pause)
        same("connections that are open", 1, origin.open)


TESTS = (
    one_connection_serves_many_fetches,
    each_origin_keeps_as_many_as_may_be,
    without_the_option_each_fetch_has_its_own,
    responses_say_whether_a_connection_is_kept,
    unasked_bytes_are_no_answer,
    an_address_that_sends_unasked_keeps_no_connection,
    a_connection_may_end_as_a_request_goes_out,
    a_connection_may_end_while_it_is_idle,
    what_was_cut_is_not_asked_for_again,
    one_limit_of_time_counts_for_a_fetch,
    origins_keep_their_own_connections,
    no_more_are_kept_than_may_be,
    idle_connections_to_origins_end,
)
