"""Clients who are waited for, and hold no thread meanwhile: what others get beside many of them, what they cost, for
how long they are waited for, and what they get in the end.

With PARKING=full in the environment there are thousands of them, and what they cost is printed; the machine should have
little else to do then."""
import contextlib
import http.client
import os
import re
import resource
import socket
import threading
import time

from harness import ASKED, PATIENCE, Origin, Response, all_at_once, before, client, get, rest, same, wire
from keeping import BODY, is_last, more_of, of_one, responses_of

IS_FULL = os.environ.get("PARKING") == "full"
# Clients who send nothing and who send a byte a second; and the seconds in which others are answered beside these and
# all others who are waited for.
SILENT, DRIPPING, SOON = (1000, 1000, 0.05) if IS_FULL else (300, 300, 0.5)
# Clients who read nothing, and the parts of 250,000 bytes that their page has.
READERS, PARTS = (200, 80) if IS_FULL else (100, 8)
# The bytes that the edge may have in memory for each of them, beyond what they share: it takes a part at a time.
OF_A_READER = 1000000
# Connections that are kept and idle, and the bytes that the edge may have in memory with them.
IDLE, WITH_IDLE = (10000, 200000000) if IS_FULL else (1000, 100000000)

# Stored pages: what an origin takes for its answers doesn't count.
STORED = 'max-age=600, content="ESI/1.0"'
SHORT = {"/p": (b"[<esi:include src='/x'/>]", "text/html", STORED), "/x": (b"12345678", "text/plain", "max-age=600")}
BODIES = {"/p": BODY, "/x": b"12345678", "/none": b"There is no such page.\n"}
ASKED_LONG = wire("GET /long HTTP/1.1|host: a.test||")
CLOSES = "Connection: close\r\n"
# Connections that are kept, and clients who may take their time, for longer than any test takes.
KEPT = ("--keep-alive", "600")
PATIENT = ("--client-timeout", "600000")


def with_long(parts):
    """The short page and a long one of so many parts, no two lines of which are equal; and the long one's bytes."""
    pieces = {"/part%d" % at: b"".join(b"%07d\n" % line for line in range(31250 * at, 31250 * (at + 1))) for at in range(parts)}
    template = "".join("<esi:include src='%s'/>" % path for path in pieces).encode()
    paths = {path: (piece, "text/plain", "max-age=600") for path, piece in pieces.items()}
    return {**SHORT, **paths, "/long": (template, "text/html", STORED)}, b"".join(pieces.values())


def open_files(count):
    """Lets this process, and edges that it starts from now on, have as many open files."""
    soft, hard = resource.getrlimit(resource.RLIMIT_NOFILE)
    if soft != resource.RLIM_INFINITY and soft < count:
        resource.setrlimit(resource.RLIMIT_NOFILE, (count, hard))


def slow_client(edge, sent):
    """A connection like one from far away: of what isn't read the systems at its ends keep little."""
    connection = socket.socket()
    connection.setsockopt(socket.IPPROTO_TCP, socket.TCP_MAXSEG, 1400)
    connection.setsockopt(socket.SOL_SOCKET, socket.SO_RCVBUF, 8192)
    connection.settimeout(PATIENCE)
    connection.connect(("127.0.0.1", edge.port))
    connection.sendall(sent)
    return connection


@contextlib.contextmanager
def dripping(connections):
    """Sends a byte a second over each of these connections, one after another."""
    over = threading.Event()

    def drip():
        while True:
            for connection in connections:
                if over.wait(1 / len(connections)):
                    return
                connection.sendall(b"x")

    thread = threading.Thread(target=drip, daemon=True)
    thread.start()
    try:
        yield
    finally:
        over.set()
        thread.join()


def resident(edge):
    """The bytes that the edge has in memory."""
    with open("/proc/%d/status" % edge.process.pid, encoding="ascii") as it:
        return 1024 * int(re.search(r"^VmRSS:\s+(\d+) kB$", it.read(), re.M).group(1))


def serve_others(edge, seconds):
    """Others are served, one after another, for so many seconds. Gives how long the slowest was, in seconds."""
    slowest, until = 0, time.monotonic() + seconds
    while time.monotonic() < until:
        begun = time.monotonic()
        same("what another gets", BODY, get(edge, "/p", fields=CLOSES).body)
        slowest = max(slowest, time.monotonic() - begun)
    return slowest


def others_are_served_soon(edge, beside):
    slowest = serve_others(edge, 2)
    if IS_FULL:
        print("%s: %.1f MB resident, slowest answer to another %.1f ms" % (beside, resident(edge) / 1e6, 1000 * slowest))
    same("%s: others are answered soon (%.3f s)" % (beside, slowest), True, slowest < SOON)


def gets_nothing(connection, seconds):
    """Whether nothing comes for so many seconds, not even the end."""
    connection.settimeout(seconds)
    try:
        connection.recv(1)
        return False
    except socket.timeout:
        return True
    finally:
        connection.settimeout(PATIENCE)


def is_ended(connection):
    """Whether the edge has ended a connection over which nothing is under way."""
    connection.setblocking(False)
    try:
        return connection.recv(1) == b""
    except BlockingIOError:
        return False
    except ConnectionResetError:
        return True
    finally:
        connection.settimeout(PATIENCE)


def to_its_end(connection):
    """All that comes over a connection that may be cut."""
    came = b""
    try:
        while more := connection.recv(65536):
            came += more
    except ConnectionResetError:
        pass
    return came


def read_slowly(connection):
    """The body of the next response, of which a few bytes at a time are read."""
    came = b""
    while b"\r\n\r\n" not in came:
        came += more_of(connection)
    length = int(Response(came).fields["content-length"])
    came = bytearray(came.partition(b"\r\n\r\n")[2])
    while len(came) < length:
        time.sleep(0.005)
        came += more_of(connection)
    return bytes(came)


def who_sends_nothing_holds_nobody_up():
    """Clients who are silent, and clients who send a byte of their head a second. At last they too are answered."""
    open_files(SILENT + DRIPPING + 200)
    with Origin(SHORT) as origin, before(origin, *PATIENT, "--threads", "4", "--connections", "4096") as edge:
        others_are_served_soon(edge, "nobody is waited for")
        with contextlib.ExitStack() as clients:
            silent = [clients.enter_context(client(edge)) for _ in range(SILENT)]
            partial = [clients.enter_context(client(edge, ASKED[:-2] + b"x: ")) for _ in range(DRIPPING)]
            with dripping(partial):
                others_are_served_soon(edge, "%d silent ones and %d that send a byte a second" % (SILENT, DRIPPING))
            for connections, more in ((silent, ASKED), (partial, b"\r\n\r\n")):
                for connection in connections[::50]:
                    connection.sendall(more)
                    same("what is sent at last", BODY, Response(rest(connection)).body)


def who_reads_nothing_holds_nobody_up():
    """Clients who have asked for a long page and read nothing of it: the edge has a part of it in memory for each, and
    what all share. At last they get every byte."""
    open_files(READERS + 200)
    paths, page = with_long(PARTS)
    with Origin(paths) as origin, before(origin, *PATIENT, "--threads", "4", "--connections", "1024") as edge:
        same("the page", True, get(edge, "/long").body == page)
        alone = resident(edge)
        with contextlib.ExitStack() as clients:
            readers = [clients.enter_context(slow_client(edge, ASKED_LONG)) for _ in range(READERS)]
            same("their first bytes", {b"H"}, {reader.recv(1) for reader in readers})
            others_are_served_soon(edge, "%d that read nothing of %d bytes" % (READERS, len(page)))
            more = resident(edge) - alone
            same("memory for each (%d bytes)" % (more // READERS), True, more < READERS * OF_A_READER)
            for reader in readers[::READERS // 4]:
                same("what is read at last", True, rest(reader).partition(b"\r\n\r\n")[2] == page)


def idle_connections_cost_little():
    """Connections that are kept, many more than threads. Over each a further request is answered."""
    open_files(IDLE + 200)
    with Origin(SHORT) as origin, before(origin, *KEPT, "--threads", "4", "--connections", str(IDLE + 100)) as edge:
        with contextlib.ExitStack() as clients:
            kept = []
            for _ in range(IDLE):
                kept.append(clients.enter_context(client(edge, ASKED)))
                first = of_one(kept[-1])
                same("the first", (BODY, False), (first.body, is_last(first)))
            others_are_served_soon(edge, "%d idle ones" % IDLE)
            same("memory (%d bytes)" % resident(edge), True, resident(edge) < WITH_IDLE)
            for connection in kept[::IDLE // 100]:
                connection.sendall(ASKED)
                same("a further one", BODY, of_one(connection).body)


def one_more_waits_until_another_ends():
    """All 64 connections are of silent clients."""
    with Origin(SHORT) as origin, before(origin, *PATIENT, "--threads", "4", "--connections", "64") as edge:
        with contextlib.ExitStack() as clients:
            silent = [clients.enter_context(client(edge)) for _ in range(64)]
            with client(edge, ASKED) as other:
                same("one more waits", True, gets_nothing(other, 0.5))
                silent[7].close()
                same("once another has ended", BODY, Response(rest(other)).body)


def idle_connections_make_room():
    """Of eight that may be open those end that have been idle longest, as often as somebody comes."""
    with Origin(SHORT) as origin, before(origin, *KEPT, "--threads", "2", "--connections", "8") as edge:
        with contextlib.ExitStack() as clients:
            kept = []
            for _ in range(24):
                kept.append(clients.enter_context(client(edge, ASKED)))
                same("each is answered", BODY, of_one(kept[-1]).body)
                # So that it is known which have been idle longest.
                time.sleep(0.02)
            ended = [is_ended(it) for it in kept]
            same("the first have ended", [True] * 8, ended[:8])
            same("no more are open than may be", True, ended.count(False) <= 8)
            same("the last is open", False, ended[-1])
            kept[-1].sendall(ASKED)
            same("and served", BODY, of_one(kept[-1]).body)


def busy_clients_take_turns():
    """Twelve clients ask again and again with four connections: each is answered, over a new connection where the last
    has ended between two requests."""
    with Origin(SHORT) as origin, before(origin, *KEPT, "--threads", "4", "--connections", "4") as edge:
        counts = [0] * 12

        def ask(at):
            asking = http.client.HTTPConnection("127.0.0.1", edge.port, timeout=PATIENCE)
            until = time.monotonic() + PATIENCE
            while counts[at] < 20 and time.monotonic() < until:
                try:
                    asking.request("GET", "/p", headers={"Host": "a.test"})
                    counts[at] += asking.getresponse().read() == BODY
                except ConnectionError:
                    asking.close()
            asking.close()

        all_at_once([lambda at=at: ask(at) for at in range(12)])
        same("responses", [20] * 12, counts)


def nobody_is_waited_for_longer():
    """Silent clients and those with half a head end at the limit for a request, those that read nothing at that for a
    response, and idle ones once they were kept for as long as they are; ten of each, with two threads."""
    paths, page = with_long(4)
    limits = ("--client-timeout", "1000", "--keep-alive", "3")
    with Origin(paths) as origin, before(origin, *limits, "--threads", "2", "--connections", "256") as edge:
        same("the page", True, get(edge, "/long", fields=CLOSES).body == page)
        with contextlib.ExitStack() as clients:
            begun = time.monotonic()
            late = [clients.enter_context(client(edge, sent)) for sent in (b"", ASKED[:9]) for _ in range(10)]
            readers = [clients.enter_context(slow_client(edge, ASKED_LONG)) for _ in range(10)]
            idle = [clients.enter_context(client(edge, ASKED)) for _ in range(10)]
            same("pages of idle ones", {BODY}, {of_one(it).body for it in idle})
            same("what late ones get", {b""}, {rest(it) for it in late})
            taken = time.monotonic() - begun
            same("past their limit, and soon (%.2f s)" % taken, True, 0.9 <= taken < 10)
            same("what idle ones get", {b""}, {rest(it) for it in idle})
            taken = time.monotonic() - begun
            same("past theirs, and soon (%.2f s)" % taken, True, 2.9 <= taken < 15)
            most = max(len(to_its_end(it)) for it in readers)
            same("what those get that read nothing in time (%d bytes)" % most, True, 0 < most < len(page))


def a_request_may_come_seconds_apart():
    """In two parts, as the first of its connection and as a further one. The one thread serves others meanwhile."""
    with Origin(SHORT) as origin, before(origin, *KEPT, "--threads", "1") as edge:
        with client(edge, ASKED[:20]) as first, client(edge, ASKED + ASKED[:20]) as further:
            same("the request before", BODY, of_one(further).body)
            serve_others(edge, 2)
            for connection in (first, further):
                connection.sendall(ASKED[20:])
                same("both parts", BODY, of_one(connection).body)


def a_slow_reader_gets_every_byte():
    """A page of 2 MB, a few KB at a time, over a connection that is kept; meanwhile one that isn't waits. One thread
    serves both."""
    paths, page = with_long(8)
    last = wire("GET /long HTTP/1.1|host: a.test|connection: close||")
    with Origin(paths) as origin, before(origin, *KEPT, "--threads", "1") as edge:
        with slow_client(edge, ASKED_LONG) as kept, slow_client(edge, last) as other:
            same("over the one that is kept", True, read_slowly(kept) == page)
            kept.sendall(ASKED)
            same("and a further page", BODY, of_one(kept).body)
            same("over the other", True, rest(other).partition(b"\r\n\r\n")[2] == page)


def pipelined_requests_are_answered_in_order():
    """Over connections that were waited for: between two requests, within a head and within a long response. Each client
    has ended its input."""
    targets = ["/p", "/x", "/none"] * 13
    many = b"".join(wire("GET %s HTTP/1.1|host: a.test||" % it) for it in targets)
    wanted = [BODIES[it] for it in targets]
    paths, page = with_long(8)
    rows = (
        ("between two requests", ASKED, many, [BODY, *wanted]),
        ("within a head", many[:20], many[20:], wanted),
        ("within a long response", ASKED_LONG + many, b"", [page, *wanted]),
    )
    with Origin(paths) as origin, before(origin, *KEPT, "--threads", "1") as edge:
        for what, sent, more, wanted_of_all in rows:
            with slow_client(edge, sent) as connection:
                time.sleep(0.3)
                connection.sendall(more)
                connection.shutdown(socket.SHUT_WR)
                came = responses_of(rest(connection))
            same(what, True, wanted_of_all == [it.body for it in came])


def the_edge_ends_after_those_it_waits_for():
    """With --accept it waits for its last connections for as long as they may take: a silent one, one with half a head
    and an idle one."""
    limits = ("--client-timeout", "500", "--keep-alive", "1")
    with Origin(SHORT) as origin, before(origin, *limits, "--threads", "1", "--accept", "4") as edge:
        with client(edge) as silent, client(edge, ASKED[:9]) as half, client(edge, ASKED) as idle:
            same("a page", BODY, of_one(idle).body)
            same("another", BODY, get(edge, "/p", fields=CLOSES).body)
            same("exit status", 0, edge.ends())
            same("what they get", [b""] * 3, [rest(it) for it in (silent, half, idle)])
        same("standard error", b"", edge.end())


TESTS = (
    who_sends_nothing_holds_nobody_up,
    who_reads_nothing_holds_nobody_up,
    idle_connections_cost_little,
    one_more_waits_until_another_ends,
    idle_connections_make_room,
    busy_clients_take_turns,
    nobody_is_waited_for_longer,
    a_request_may_come_seconds_apart,
    a_slow_reader_gets_every_byte,
    pipelined_requests_are_answered_in_order,
    the_edge_ends_after_those_it_waits_for,
)
