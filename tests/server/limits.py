"""What the edge does where it runs out of something: the time of a page, threads, open files."""
import contextlib
import os
import resource
import subprocess
import tempfile
import threading
import time

from harness import ASKED, HERE, PATIENCE, PLAIN, Origin, Response, Wires, Wrong, before, client, get, rest, same, told, wire
from bounding import soon, timed
from keeping import BODY, more_of
from operating import ADMIN, Desk, metrics, read
from parking import SHORT, resident

# After how many seconds a slow answer comes.
SLOWLY = 0.4
ALTERNATIVE = "<esi:try><esi:attempt><esi:include src='%s'/></esi:attempt><esi:except>late</esi:except></esi:try>"


def slow(text, seconds=SLOWLY):
    """An answer that comes after a while."""

    def send(_):
        time.sleep(seconds)
        return wire("HTTP/1.1 200 OK|content-length: %d||" % len(text)) + text.encode()

    return send


def page_of(text):
    return wire('HTTP/1.1 200 OK|surrogate-control: content="ESI/1.0"|content-length: %d||' % len(text)) + text.encode()


def a_page_ends_soon_after_its_time():
    """Past --page-timeout nothing more is fetched, and no fetch takes longer: an `except` counts, and a page without one
    is 502."""
    paths = ("/a", "/b", "/c")
    texts = {path: slow(path[1:]) for path in paths}
    texts["/p"] = page_of("".join(ALTERNATIVE % path for path in paths))
    texts["/q"] = page_of("".join("<esi:include src='%s'/>" % path for path in paths))
    alone = ("--workers", "1", "--ahead", "0")
    with Wires(texts) as origin, before(origin, *alone, "--page-timeout", "200") as edge:
        begun = time.monotonic()
        same("with alternatives", (200, b"latelatelate"), told(edge, "/p"))
        same("in time", True, time.monotonic() - begun < 2 * SLOWLY)
        same("without any", (502, b"The page could not be assembled.\n"), told(edge, "/q"))
        same("what was asked for", ["/p", "/a", "/q", "/a"], origin.asked())
    with Wires(texts) as origin, before(origin, *alone) as edge:
        same("without a limit", (200, b"abc"), told(edge, "/p"))


def what_is_stored_counts_past_a_page_s_time():
    """A stored fragment takes no time, so it comes in a page whose time is over."""
    texts = {
        "/slow": slow("s"),
        "/stored": wire("HTTP/1.1 200 OK|surrogate-control: max-age=600|content-length: 1||1"),
        "/p": page_of(ALTERNATIVE % "/slow" + "<esi:include src='/stored'/>"),
    }
    with Wires(texts) as origin, before(origin, "--workers", "1", "--ahead", "0", "--page-timeout", "200") as edge:
        same("stored", (200, b"1"), told(edge, "/stored"))
        same("past the limit", (200, b"late1"), told(edge, "/p"))


def a_page_has_no_more_than_its_bytes():
    """A page of as many bytes as it may have comes, whatever they are made of; one of a byte more is 503, and costs
    nobody else anything."""
    texts = {
        "/kilobyte": wire("HTTP/1.1 200 OK|surrogate-control: max-age=600|content-length: 1000||") + b"x" * 1000,
        "/p": page_of("<esi:include src='/kilobyte'/>" * 10),
        "/values": page_of("<esi:vars>%s</esi:vars>" % ("$(HTTP_COOKIE)" * 10)),
        "/plain": wire("HTTP/1.1 200 OK|content-length: 10000||") + b"x" * 10000,
    }
    cookie = "Cookie: %s\r\n" % ("x" * 1000)
    for most, status in (("10000", 200), ("9999", 503)):
        with Wires(texts) as origin, before(origin, "--page-bytes", most) as edge:
            for path in ("/p", "/values", "/plain"):
                same("%s with %s bytes" % (path, most), status, get(edge, path, fields=cookie).status)
            same("a fragment with %s bytes" % most, (200, b"x" * 1000), told(edge, "/kilobyte"))


def long_values_are_not_copied():
    """A page that has one long value at 2,000 places, a hundred megabytes of text, takes memory for the value alone."""
    value, times = 50000, 2000
    longest = "x" * value
    fields = {
        "$(HTTP_COOKIE)": "Cookie: %s\r\n" % longest,
        "$(HTTP_COOKIE{b})": "Cookie: a=1; b=%s ; c=2\r\n" % longest,
        "$(HTTP_USER_AGENT{version})": "User-Agent: Mozilla/%s (X11)\r\n" % ("1" * value),
    }
    for reference, field in fields.items():
        texts = {"/small": page_of("small"), "/p": page_of("<esi:vars>%s</esi:vars>" % (reference * times))}
        with Wires(texts) as origin, before(origin) as edge:
            told(edge, "/small")
            begun = resident(edge)
            head = "GET /p HTTP/1.1\r\nHost: a.test\r\n%s\r\n" % field
            with client(edge, head.encode()) as connection:
                first = connection.recv(1)
                time.sleep(0.2)
                grown = resident(edge) - begun
                response = Response(first + rest(connection))
            same(reference, (200, value * times), (response.status, len(response.body)))
            if grown > 16 << 20:
                raise Wrong("%s: %d bytes more in memory" % (reference, grown))


def a_late_page_shows_older_answers():
    """Past its time a page has what would bridge a failing origin, and nobody is asked for it: by a thread for each fetch,
    or several fetches of one. What nothing bridges fails."""
    texts = {
        "/slow": slow("s", 1.5),
        "/older": wire("HTTP/1.1 200 OK|surrogate-control: max-age=1+600|content-length: 1||1"),
        "/expired": wire("HTTP/1.1 200 OK|surrogate-control: max-age=1|content-length: 1||2"),
        "/p": page_of(ALTERNATIVE % "/slow" + "<esi:include src='/older'/>" + ALTERNATIVE % "/expired"),
    }
    for several in ((), ("--fetches", "2")):
        with Wires(texts) as origin, before(origin, "--workers", "1", "--ahead", "0", "--page-timeout", "700", *several) as edge:
            same("stored", [(200, b"1"), (200, b"2")], [told(edge, "/older"), told(edge, "/expired")])
            time.sleep(1.1)
            same("past the limit", (200, b"late1late"), told(edge, "/p"))
            same("what was asked for", ["/older", "/expired", "/p", "/slow"], origin.asked())


def a_fetch_ends_with_its_page_unless_others_wait():
    """Past --page-timeout a fetch for which a thread waits ends, unless another page waits for it: that one gets the answer."""
    texts = {
        "/first": slow("1", 1.5),
        "/second": slow("2", 2.5),
        "/p": page_of("<esi:include src='/first'/>" + ALTERNATIVE % "/second"),
        "/q": page_of(ALTERNATIVE % "/second"),
    }
    alone = ("--workers", "1", "--ahead", "0", "--page-timeout", "3000")
    with Wires(texts) as origin, before(origin, *alone) as edge:
        came, taken = timed(lambda: told(edge, "/p"))
        same("by itself", (200, b"1late"), came)
        same("it took %.3f s" % taken, True, taken < 3.9)
    with Wires(texts) as origin, before(origin, *alone) as edge:
        pages = []
        asking = threading.Thread(target=lambda: pages.append(told(edge, "/p")))
        asking.start()
        soon("the fetch is under way", lambda: "/second" in origin.asked())
        same("who waits for it", (200, b"2"), told(edge, "/q"))
        asking.join()
        same("who began it", [(200, b"1late")], pages)
        same("what was asked for", ["/p", "/first", "/second", "/q"], origin.asked())


def a_page_is_assembled_by_one_thread_where_no_other_starts():
    """A page that could have sixteen workers, under a limit of threads."""
    paths = ["/%d" % at for at in range(8)]
    texts = {path: slow(path[1:], 0.1) for path in paths}
    texts["/p"] = page_of("".join("<esi:include src='%s'/>" % path for path in paths))
    for threads in (4, 100):
        with Wires(texts) as origin, before(origin, "--workers", "16", threads=threads) as edge:
            same("%d threads" % threads, (200, b"01234567"), told(edge))


def connections_have_room_among_the_files():
    """With fewer files than --connections may need, as many are kept as have room, whoever comes is served, and no accept
    fails."""
    with Origin(SHORT) as origin, before(origin, *ADMIN, "--connections", "1000", "--keep-alive", "600", files=60) as edge:
        desk = Desk(edge)
        idle = [client(edge, ASKED) for _ in range(20)]
        for connection in idle:
            same("a page", True, more_of(connection).startswith(b"HTTP/1.1 200 "))
        samples, _ = read(desk.ask("/metrics").body.decode())
        same("open connections, of 60 files", True, 1 < samples["esi_edge_connections"] <= 5)
        same("accepts that failed", 0, samples["esi_edge_accepts_failed_total"])
        for connection in idle:
            connection.close()


def who_lets_it_wait_gives_a_file_back():
    """Without a file left whoever has let the edge wait for longest is ended, however often: each further client is
    served, and who came last is still waited for."""
    with Origin(SHORT) as origin, before(origin, *ADMIN, "--threads", "1", "--client-timeout", "600000") as edge:
        desk = Desk(edge)
        same("before", (200, BODY), told(edge))
        resource.prlimit(edge.process.pid, resource.RLIMIT_NOFILE, (30, 4096))
        silent = [client(edge) for _ in range(60)]
        for nth in range(40):
            same("page %d" % nth, (200, BODY), told(edge))
        same("the first have ended", [b""] * 30, [rest(connection) for connection in silent[:30]])
        silent[-1].sendall(ASKED)
        same("the last", BODY, Response(rest(silent[-1])).body)
        same("health", (200, b"ok\n"), (desk.ask("/health").status, desk.ask("/health").body))
        for connection in silent:
            connection.close()


@contextlib.contextmanager
def refused_accepts():
    """What is added to a program's environment so that its accepts fail at the port that is written into a file; and that
    file's path."""
    with tempfile.TemporaryDirectory() as room:
        library, sign = os.path.join(room, "refuse_accepts.so"), os.path.join(room, "sign")
        subprocess.run(["cc", "-O2", "-shared", "-fPIC", "-o", library, os.path.join(HERE, "refuse_accepts.c")], check=True)
        yield {"LD_PRELOAD": library, "REFUSE_ACCEPTS": sign}, sign


def failed_accepts_end_the_edge_in_the_end():
    """Sixteen accepts in succession that fail for another reason end it: after some seconds nobody is accepted any longer, and
    the operator is told so; once each client has left, the status is 5."""
    with refused_accepts() as (added, sign), Origin(PLAIN) as origin:
        with before(origin, *ADMIN, "--client-timeout", "600000", added=added) as edge:
            desk = Desk(edge)
            same("before", (200, b"ok\n"), health_of(desk))
            with client(edge):
                soon("who is there", lambda: metrics(desk)["esi_edge_connections"] == 1)
                begun = time.monotonic()
                with open(sign, "w") as file:
                    file.write(str(edge.port))
                # Whoever accepted before that waits for one more.
                client(edge).close()
                while health_of(desk)[0] == 200 and time.monotonic() - begun < PATIENCE:
                    time.sleep(0.1)
                same("health", (503, b"accepts failed\n"), health_of(desk))
                same("after its pauses", True, 4 < time.monotonic() - begun)
                same("while a client is there", None, edge.process.poll())
            same("status", 5, edge.ends())


def health_of(desk):
    came = desk.ask("/health")
    return came.status, came.body


TESTS = (
    a_page_ends_soon_after_its_time,
    what_is_stored_counts_past_a_page_s_time,
    a_page_has_no_more_than_its_bytes,
    long_values_are_not_copied,
    a_late_page_shows_older_answers,
    a_fetch_ends_with_its_page_unless_others_wait,
    a_page_is_assembled_by_one_thread_where_no_other_starts,
    connections_have_room_among_the_files,
    who_lets_it_wait_gives_a_file_back,
    failed_accepts_end_the_edge_in_the_end,
)
