"""Pages that wait for their fetches, and hold no thread meanwhile."""
import contextlib
import os
import random
import resource
import socket
import threading
import time

from harness import ASKED, PAGE, PATIENCE, UNASSEMBLED, Edge, Response, Wires, all_at_once, before, client, rest, same, sized, told, wire
from bounding import soon, timed
from leaving import reset
from operating import ADMIN, Desk

FLYING = ("--workers", "1", "--fetches", "64")
# What is stored for ten minutes.
KEPT = "HTTP/1.1 200 OK|surrogate-control: max-age=600"
MANY = 64
# What a client gets whose connection ends before its request was read.
ENDED = (None, b"")


class Held:
    """An origin's fragments that are held back until they are let go; it counts how many are asked for."""

    def __init__(self, text):
        self.text = text
        self.released = threading.Event()
        self.asked = 0
        self.lock = threading.Lock()

    def __call__(self, _):
        with self.lock:
            self.asked += 1
        self.released.wait(PATIENCE)
        return self.text


def page(*fragments):
    return wire(PAGE + "".join("<esi:include src='%s'/>" % fragment for fragment in fragments))


def threads_of(edge):
    with open("/proc/%d/status" % edge.process.pid) as status:
        return int(next(line for line in status if line.startswith("Threads:")).split()[1])


def files_of(edge):
    return len(os.listdir("/proc/%d/fd" % edge.process.pid))


def pages_that_wait_hold_no_thread():
    """As many pages as connections wait for fragments that hang, and two threads serve: a stored page comes at once
    meanwhile, and all come once their fragments do."""
    held = Held(sized("HTTP/1.1 200 OK", "late"))
    texts = {"/k": sized(KEPT, "stored")}
    for i in range(MANY):
        texts["/p%d" % i] = page("/f%d" % i)
        texts["/f%d" % i] = held
    with Wires(texts) as origin, before(origin, *FLYING, "--threads", "2", "--connections", "128") as edge:
        same("stored", (200, b"stored"), told(edge, "/k"))
        came = []
        asking = [threading.Thread(target=lambda i=i: came.append(told(edge, "/p%d" % i))) for i in range(MANY)]
        for one in asking:
            one.start()
        soon("all fragments are asked for", lambda: held.asked == MANY)
        got, taken = timed(lambda: told(edge, "/k"))
        same("stored meanwhile", (200, b"stored"), got)
        same("it took %.3f s" % taken, True, taken < 2)
        same("threads", True, threads_of(edge) <= 6)
        held.released.set()
        for one in asking:
            one.join()
        same("the pages", [(200, b"late")] * MANY, came)


@contextlib.contextmanager
def many_files():
    """How many files this process and an edge may have open: as many as the system lets them."""
    soft, hard = resource.getrlimit(resource.RLIMIT_NOFILE)
    resource.setrlimit(resource.RLIMIT_NOFILE, (hard, hard))
    try:
        yield hard
    finally:
        resource.setrlimit(resource.RLIMIT_NOFILE, (soft, hard))


def crowd(edge, count, sent=ASKED):
    """As many clients, each of whom waits, with two files by which its page does."""
    open_before = files_of(edge)
    clients = [client(edge, sent) for _ in range(count)]
    # The files of a page that has ended may serve again.
    soon("all wait", lambda: files_of(edge) - open_before > 3 * count - 8)
    return clients


def rest_of_all(clients):
    """What each of these gets, to the end of its connection."""
    came = []
    for one in clients:
        with one:
            came.append(rest(one))
    return came


def equal_pages_that_wait_cost_one_fetch():
    """Many clients ask for one page at once, and thousands, whose two fragments take a while: the origin is asked once for
    each, and eight threads serve them all."""
    kept = sized('HTTP/1.1 200 OK|surrogate-control: content="ESI/1.0", max-age=600', "<esi:include src='/x'/><esi:include src='/y'/>")
    with many_files() as files:
        for count in (64, min(4000, files // 4 - 64)):
            held = Held(sized(KEPT, "x"))
            with Wires({"/p": kept, "/x": held, "/y": held}) as origin:
                with before(origin, *FLYING, "--threads", "8", "--connections", str(count + 8)) as edge:
                    clients = crowd(edge, count)
                    same("threads", True, threads_of(edge) <= 18)
                    held.released.set()
                    came = [Response(one) for one in rest_of_all(clients)]
                    same("the pages", [(200, b"xx")] * count, [(one.status, one.body) for one in came])
                    same("times that the fragments were asked for", 2, held.asked)


def who_joins_a_fetch_holds_no_thread():
    """Of 64 readers of one URL whose origin hangs one fetches, and all others wait for that, for two threads and however few
    fetches an origin may have: an older answer stands in for none of them. A kept page of another origin is answered meanwhile."""
    held = Held(sized(KEPT, "new"))
    with Wires({"/x": sized("HTTP/1.1 200 OK|surrogate-control: max-age=1+600", "old")}) as hangs, Wires({"/k": sized(KEPT, "stored")}) as other:
        options = ("--threads", "2", "--connections", "128", "--origin-fetches", "1", "--origin-queue", "0")
        with Edge("--origin", "a.test=" + other.at, "--origin", "b.test=" + hangs.at, *FLYING, *options) as edge:
            same("stored", [(200, b"stored"), (200, b"old")], [told(edge, "/k"), told(edge, "/x", host="b.test")])
            time.sleep(1.1)
            hangs.texts["/x"] = held
            open_before, came = files_of(edge), []
            asking = [threading.Thread(target=lambda: came.append(told(edge, "/x", host="b.test"))) for _ in range(MANY)]
            for one in asking:
                one.start()
            # Each has a connection, and two files by which it waits; those of a page that has ended may serve again.
            soon("all wait", lambda: files_of(edge) - open_before > 3 * MANY - 8)
            taken = min(timed(lambda: same("stored meanwhile", (200, b"stored"), told(edge, "/k")))[1] for _ in range(5))
            same("it took %.3f s" % taken, True, taken < 0.2)
            same("who doesn't wait, and threads", ([], True), (came, threads_of(edge) <= 6))
            held.released.set()
            for one in asking:
                one.join()
            same("those who waited", [(200, b"new")] * MANY, came)
            same("times that it was asked for", 1, held.asked)


def who_joins_a_fetch_is_told_whenever_it_lands():
    """A page joins another's fetch shortly before that lands, as it does, and after: it never waits for its time limit. Of two
    threads none waits with a page; of eight some do for 30 ms, so that pages are parked as the fetch lands."""
    for threads, shortest, longest in (("2", 0.0, 0.004), ("8", 0.02, 0.05)):
        joined_at_any_moment(threads, shortest, longest)


def joined_at_any_moment(threads, shortest, longest):
    place = random.Random(7)
    wait = {}

    def fragment(_):
        time.sleep(wait["fetch"])
        return sized("HTTP/1.1 200 OK|surrogate-control: max-age=1", "x")

    # Something else of the page is fetched beside it, so that the page may be parked at any moment.
    texts = {"/p": page("/x", "/z"), "/q": page("/z", "/x"), "/z": sized("HTTP/1.1 200 OK", "z")}
    with Wires({**texts}) as origin, before(origin, *FLYING, "--threads", threads, "--timeout", "15000") as edge:
        for turn in range(100):
            path = "/x%d" % turn
            origin.texts[path] = fragment
            origin.texts["/p"] = page(path, "/z")
            origin.texts["/q"] = page("/z", path)
            wait["fetch"] = place.uniform(shortest, longest)
            second = place.uniform(0.0, 0.006 + shortest)
            calls = [lambda: told(edge, "/p"), lambda: time.sleep(second) or told(edge, "/q")]
            came, taken = timed(lambda: all_at_once(calls))
            same("turn %d" % turn, [(200, b"xz"), (200, b"zx")], sorted(came))
            same("turn %d took %.3f s" % (turn, taken), True, taken < 10)


def crossed_pages_wait_for_each_other():
    """Two pages of which each leads the fetch that the other needs next: both come, and each fragment is asked for once."""
    held = [Held(sized(KEPT, "a")), Held(sized(KEPT, "b"))]
    with Wires({"/p": page("/a", "/b"), "/q": page("/b", "/a"), "/a": held[0], "/b": held[1]}) as origin:
        # Nothing is asked for ahead, so each page first asks for its first fragment alone.
        with before(origin, "--workers", "1", "--fetches", "2", "--ahead", "0", "--threads", "2") as edge:
            came = {}
            asking = [threading.Thread(target=lambda path=path: came.update({path: told(edge, path)})) for path in ("/p", "/q")]
            for one in asking:
                one.start()
            soon("both are asked for", lambda: held[0].asked == held[1].asked == 1)
            held[0].released.set()
            held[1].released.set()
            for one in asking:
                one.join()
            same("the pages", {"/p": (200, b"ab"), "/q": (200, b"ba")}, came)
            same("times that the fragments were asked for", (1, 1), (held[0].asked, held[1].asked))


def a_page_ends_at_its_time():
    """A fragment hangs, for less than a fetch may take, beyond the time of a page whose template came late: the page ends at its
    own time, with what stands in for the fragment. Another page, which has joined the fetch and has time left, gets its answer."""
    held = Held(sized(KEPT, "x"))
    template = wire(PAGE + "<esi:try><esi:attempt><esi:include src='/x'/></esi:attempt><esi:except>none</esi:except></esi:try>")
    texts = {"/p": lambda _: time.sleep(1) or template, "/q": template, "/x": held}
    with Wires(texts) as origin, before(origin, *FLYING, "--threads", "2", "--page-timeout", "2000") as edge:
        came = {}
        begun = time.monotonic()
        first = threading.Thread(target=lambda: came.update(first=(told(edge), time.monotonic() - begun)))
        first.start()
        soon("it is asked for", lambda: held.asked == 1)
        second = threading.Thread(target=lambda: came.update(second=told(edge, "/q")))
        second.start()
        first.join()
        got, taken = came["first"]
        same("the first page", (200, b"none"), got)
        same("it took %.3f s" % taken, True, 1.9 < taken < 2.9)
        held.released.set()
        second.join()
        same("the second page", (200, b"x"), came["second"])
        same("times that it was asked for", 1, held.asked)


def a_client_who_leaves_ends_his_page():
    """While a fragment hangs its client leaves: with --abort-on-close the line of the page comes at once, not when the
    fragment does; another client, who has joined the fetch, gets its answer."""
    for leave in (socket.socket.close, reset):
        held = Held(sized(KEPT, "x"))
        options = ("--threads", "2", "--abort-on-close", "--timeout", "15000", "--log")
        with Wires({"/p": page("/x"), "/x": held}) as origin, before(origin, *FLYING, *options) as edge:
            leaver = client(edge, ASKED)
            soon("it is asked for", lambda: held.asked == 1)
            came = []
            other = threading.Thread(target=lambda: came.append(told(edge)))
            other.start()
            time.sleep(0.3)
            begun = time.monotonic()
            leave(leaver)
            edge.process.stderr.readline()
            taken = time.monotonic() - begun
            same("the line came after %.3f s" % taken, True, taken < 3)
            held.released.set()
            other.join()
            same("the other's page", [(200, b"x")], came)
            same("times that it was asked for", 1, held.asked)


def a_page_that_owes_a_fetch_is_sent_at_once():
    """A page is done, and another page waits for a fetch that it began: its own response doesn't wait for that."""
    held = Held(sized(KEPT, "A"))
    slow = Held(sized("HTTP/1.1 200 OK", "1"))
    texts = {"/p": wire(PAGE + "<esi:include src='/x' alt='/a'/>"), "/q": page("/a"), "/x": slow, "/a": held}
    with Wires(texts) as origin, before(origin, *FLYING, "--threads", "2", "--timeout", "15000") as edge:
        came = {}
        first = threading.Thread(target=lambda: came.update(first=told(edge)))
        first.start()
        soon("both are asked for", lambda: held.asked == slow.asked == 1)
        second = threading.Thread(target=lambda: came.update(second=told(edge, "/q")))
        second.start()
        soon("the other page is asked for", lambda: "/q" in origin.asked())
        time.sleep(0.3)
        slow.released.set()
        _, taken = timed(first.join)
        same("the first page, after %.3f s" % taken, ((200, b"1"), True), (came.get("first"), taken < 3))
        held.released.set()
        second.join()
        same("the second page", (200, b"A"), came["second"])
        same("times that it was asked for", 1, held.asked)


def pipelined_requests_wait_their_turn():
    """Requests that follow one that waits, over the same connection, are answered after it."""
    held = Held(sized("HTTP/1.1 200 OK", "late"))
    with Wires({"/p": page("/x"), "/x": held, "/k": sized(KEPT, "stored")}) as origin:
        with before(origin, *FLYING, "--threads", "2", "--keep-alive", "20") as edge:
            last = wire("GET /k HTTP/1.1|host: a.test|connection: close||")
            with client(edge, ASKED + last) as connection:
                soon("it is asked for", lambda: held.asked == 1)
                held.released.set()
                came = rest(connection)
            same("the bodies, in order", (True, True), (came.find(b"late") < came.find(b"stored"), b"late" in came))


def a_stop_lets_pages_that_wait_end():
    """With many pages waiting a server stops: within its grace each of them comes whole, and then it ends."""
    held = Held(sized("HTTP/1.1 200 OK", "late"))
    texts = {}
    for i in range(MANY):
        texts["/p%d" % i] = page("/f%d" % i)
        texts["/f%d" % i] = held
    options = ("--threads", "2", "--connections", "128", "--stop-with-input")
    with Wires(texts) as origin, before(origin, *FLYING, *options, piped=True) as edge:
        came = []
        asking = [threading.Thread(target=lambda i=i: came.append(told(edge, "/p%d" % i))) for i in range(MANY)]
        for one in asking:
            one.start()
        soon("all fragments are asked for", lambda: held.asked == MANY)
        edge.process.stdin.close()
        time.sleep(0.3)
        held.released.set()
        for one in asking:
            one.join()
        same("the pages", [(200, b"late")] * MANY, came)
        same("exit status", 0, edge.ends())


def a_stop_without_grace_cuts_pages_that_wait():
    """With 200 pages waiting a server is told to stop at once: none of them comes, and it ends."""
    held = Held(sized("HTTP/1.1 200 OK", "late"))
    with many_files(), Wires({"/p": page("/x"), "/x": held}) as origin:
        with before(origin, *FLYING, *ADMIN, "--threads", "2", "--connections", "256") as edge:
            desk = Desk(edge)
            clients = crowd(edge, 200)
            same("its answer", 200, desk.ask("/stop?grace=0", "POST").status)
            status, taken = timed(edge.ends)
            same("exit status, after %.3f s" % taken, (0, True), (status, taken < 3))
            same("what the clients get", [b""] * 200, rest_of_all(clients))
            held.released.set()


def descriptors_that_run_out_fail_fragments_alone():
    """With fewer files than the pages need that wait, fragments fail, or a client is ended who hadn't asked yet, and the edge
    goes on: a later page is whole."""
    held = Held(sized("HTTP/1.1 200 OK", "late"))
    texts = {"/k": sized("HTTP/1.1 200 OK", "well")}
    for i in range(MANY):
        texts["/p%d" % i] = page("/f%d" % i)
        texts["/f%d" % i] = held
    with Wires(texts) as origin, before(origin, *FLYING, "--threads", "2", "--connections", "128") as edge:
        resource.prlimit(edge.process.pid, resource.RLIMIT_NOFILE, (120, 120))
        came = []
        asking = [threading.Thread(target=lambda i=i: came.append(told(edge, "/p%d" % i))) for i in range(MANY)]
        for one in asking:
            one.start()
        time.sleep(1)
        held.released.set()
        for one in asking:
            one.join()
        same("pages of another kind", [], [one for one in came if one not in ((200, b"late"), UNASSEMBLED, ENDED)])
        same("a later page", (200, b"well"), told(edge, "/k"))


TESTS = (
    pages_that_wait_hold_no_thread,
    equal_pages_that_wait_cost_one_fetch,
    who_joins_a_fetch_holds_no_thread,
    who_joins_a_fetch_is_told_whenever_it_lands,
    crossed_pages_wait_for_each_other,
    a_page_ends_at_its_time,
    a_client_who_leaves_ends_his_page,
    a_page_that_owes_a_fetch_is_sent_at_once,
    pipelined_requests_wait_their_turn,
    a_stop_lets_pages_that_wait_end,
    a_stop_without_grace_cuts_pages_that_wait,
    descriptors_that_run_out_fail_fragments_alone,
)
