"""A server that is stopped by the end of its standard input."""
import threading
import time

from harness import ASKED, PATIENCE, PLAIN, Origin, Wires, Wrong, asks_until_the_end, before, client, get, rest, same, sized
from keeping import of_one

STOPS = ("--stop-with-input", "--client-timeout", "30000")


def what_is_under_way_ends_first():
    """A page that is being made and one that is being sent come whole, and connections that are idle end at once; then
    the server ends with status 0. Nobody else is accepted."""
    long = "x" * 200_000
    texts = {"/p": lambda _: time.sleep(0.6) or sized("HTTP/1.1 200 OK", "slow"), "/x": sized("HTTP/1.1 200 OK", long)}
    with Wires(texts) as origin, before(origin, *STOPS, "--keep-alive", "30", piped=True) as edge:
        kept = client(edge, ASKED.replace(b"/p", b"/x"))
        same("a page before", long.encode(), of_one(kept).body)
        asking, reading = client(edge, ASKED), client(edge, ASKED.replace(b"/p", b"/x"))
        time.sleep(0.2)
        began = time.monotonic()
        edge.process.stdin.close()
        same("an idle connection", b"", rest(kept))
        same("it ends within half a second", True, time.monotonic() - began < 0.5)
        same("the page that was being made", b"slow", of_one(asking).body)
        same("the page that was being sent", long.encode(), of_one(reading).body)
        same("exit status", 0, edge.ends())
        same("both within two seconds", True, time.monotonic() - began < 2)
        same("standard error", b"", edge.end())
        for connection in (kept, asking, reading):
            connection.close()
        refused("a client after it", edge)


def refused(what, edge):
    try:
        client(edge).close()
    except ConnectionRefusedError:
        return
    raise Wrong(what + "\n  wanted a refused connection\n  came   a connection")


def what_comes_on_input_stops_nothing():
    """Bytes on standard input are dropped; without the option its end is nothing either."""
    with Origin(PLAIN) as origin:
        with before(origin, *STOPS, piped=True) as edge:
            edge.process.stdin.write(b"stop\n" * 50_000)
            edge.process.stdin.flush()
            time.sleep(0.3)
            same("a page with the option", b"[12345678]", get(edge, "/p").body)
        with before(origin, piped=True) as edge:
            edge.process.stdin.close()
            time.sleep(0.3)
            same("a page without it", b"[12345678]", get(edge, "/p").body)


def no_answer_is_lost_by_a_stop():
    """While clients ask without a pause, the server stops: each connection that is accepted gets its whole answer, or is
    ended before a byte of it."""
    ends = []
    with Origin(PLAIN) as origin, before(origin, *STOPS, piped=True) as edge:
        clients = [threading.Thread(target=asks_until_the_end, args=(edge, ASKED, ends)) for _ in range(16)]
        for one in clients:
            one.start()
        time.sleep(0.5)
        edge.process.stdin.close()
        same("exit status", 0, edge.ends())
        for one in clients:
            one.join(PATIENCE)
    same("there were some", True, len(ends) > 50)
    same("answers that were cut", [], [came for came in ends if came and not came.endswith(b"\r\n\r\n[12345678]")][:3])


TESTS = (
    what_is_under_way_ends_first,
    what_comes_on_input_stops_nothing,
    no_answer_is_lost_by_a_stop,
)
