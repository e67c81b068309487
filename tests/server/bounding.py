"""Bounds for each origin: how many fetches may be in flight to it, and how long it rests once it has failed."""
import socket
import threading
import time
from itertools import product

from harness import PAGE, PATIENCE, UNASSEMBLED, Edge, Origin, Wires, all_at_once, before, get, same, sized, told, wire
from leaving import reset
from reusing import WAYS, Lasting, whole

ONE = wire("HTTP/1.1 200 OK|content-length: 1||1")
# Kept for a second, and bridged for ten minutes.
BRIDGED = wire("HTTP/1.1 200 OK|content-length: 1|surrogate-control: max-age=1+600||x")


def soon(what, wanted):
    """Waits until this holds."""
    until = time.monotonic() + PATIENCE
    while not wanted() and time.monotonic() < until:
        time.sleep(0.005)
    same(what, True, wanted())


def timed(call):
    """What a call gives, and the seconds that it took."""
    begun = time.monotonic()
    came = call()
    return came, time.monotonic() - begun


class Unready(Wires):
    """An origin that refuses connections until it is `full` or `listens`. One that is full neither refuses nor takes them."""

    def __init__(self, texts):
        self.texts, self.heads, self.sent = dict(texts), [], 0
        self.listener = socket.socket()
        self.listener.bind(("127.0.0.1", 0))
        self.port = self.listener.getsockname()[1]
        self.at = "127.0.0.1:%d" % self.port
        self.thread = threading.Thread(target=self.accept, daemon=True)
        self.first = None

    def __exit__(self, *_):
        if self.first:
            self.first.close()
        if self.thread.is_alive():
            super().__exit__()
        else:
            self.listener.close()

    def full(self):
        """A queue of one, which a connection fills that nobody accepts."""
        self.listener.listen(0)
        self.first = socket.create_connection(("127.0.0.1", self.port), PATIENCE)

    def listens(self):
        if self.first:
            self.first.close()
        self.listener.listen(128)
        self.thread.start()


def hangs(_):
    """Longer than any limit of time here."""
    time.sleep(0.5)


def later(edge, seconds, path):
    """What a page gives to a reader who comes in so many seconds, and whether most of a limit of 500 milliseconds is waited for it."""
    time.sleep(seconds)
    came, taken = timed(lambda: told(edge, path))
    return path, came, 0.4 < taken


def hanging_fetches_hold_no_more_threads_than_may_be():
    """Of 64 fetches from an origin that hangs, for as many threads, 16 wait and the others fail at once. A kept page of
    another origin is answered meanwhile, in 20 milliseconds; and once they have ended, the origin is asked again."""
    released, came = threading.Event(), []
    texts = {"/%d" % k: lambda _: released.wait(PATIENCE) and b"" for k in range(64)}
    with Wires({**texts, "/x": ONE}) as hangs, Origin({"/k": (b"kept", "text/plain", "max-age=600")}) as other:
        with Edge("--origin", "a.test=" + other.at, "--origin", "b.test=" + hangs.at, "--origin-fetches", "16", "--origin-queue", "0") as edge:
            same("kept", b"kept", get(edge, "/k").body)
            threads = [threading.Thread(target=lambda path=path: came.append(get(edge, path, host="b.test").status)) for path in texts]
            for thread in threads:
                thread.start()
            soon("48 fail at once", lambda: len(came) == 48)
            same("what they get, and how many are asked for", ([502] * 48, 16), (came, len(hangs.heads)))
            taken = min(timed(lambda: same("kept", b"kept", get(edge, "/k").body))[1] for _ in range(5))
            same("a kept page meanwhile (%.4f s)" % taken, True, taken < 0.02)
            released.set()
            for thread in threads:
                thread.join()
            same("asked again", (200, b"1"), (get(edge, "/x", host="b.test").status, get(edge, "/x", host="b.test").body))


def a_hanging_fetch_holds_no_more_threads_than_may_wait():
    """Of 64 readers of one URL whose origin hangs one fetches and 16 wait for it, by threads that fetch one by one. The others
    get the older answer at once, or fail where there is none, and a kept page of another origin is answered meanwhile."""
    for older in ((200, b"x"), UNASSEMBLED):
        released, came = threading.Event(), []
        with Wires({"/x": BRIDGED}) as hangs, Origin({"/k": (b"kept", "text/plain", "max-age=600")}) as other:
            with Edge("--origin", "a.test=" + other.at, "--origin", "b.test=" + hangs.at, "--origin-fetches", "16") as edge:
                path = "/x" if older != UNASSEMBLED else "/y"
                same("kept", [b"kept", 200], [get(edge, "/k").body, get(edge, "/x", host="b.test").status])
                time.sleep(1.1)
                hangs.texts[path] = lambda _: released.wait(PATIENCE) and ONE
                asked = len(hangs.heads)
                threads = [threading.Thread(target=lambda: came.append(told(edge, path, host="b.test"))) for _ in range(64)]
                for thread in threads:
                    thread.start()
                soon("47 don't wait", lambda: len(came) == 47)
                same("what they get, and how often it is asked for", ([older] * 47, asked + 1), (came, len(hangs.heads)))
                taken = min(timed(lambda: same("kept", b"kept", get(edge, "/k").body))[1] for _ in range(5))
                same("a kept page meanwhile (%.4f s)" % taken, True, taken < 0.02)
                released.set()
                for thread in threads:
                    thread.join()
                same("those who waited", ([(200, b"1")] * 17, asked + 1), (came[47:], len(hangs.heads)))


def others_are_asked_beside_one_that_is_full():
    """The bound is of one address: another is asked meanwhile, and two authorities at one address share it."""
    released = threading.Event()
    with Wires({"/p": lambda _: released.wait(PATIENCE) and ONE, "/x": ONE}) as full, Wires({"/x": ONE}) as other:
        options = ("--origin", "a.test=" + full.at, "--origin", "b.test=" + full.at, "--origin", "c.test=" + other.at)
        with Edge(*options, "--origin-fetches", "1", "--origin-queue", "0") as edge:
            first = threading.Thread(target=lambda: get(edge, "/p"))
            first.start()
            soon("one is in flight", lambda: len(full.heads) == 1)
            for host, status in (("a.test", 502), ("b.test", 502), ("c.test", 200)):
                same(host, status, get(edge, "/x", host=host).status)
            released.set()
            first.join()
            same("asked again", 200, get(edge, "/x", host="b.test").status)


def begun(call):
    """A thread that makes a call, and what comes of it."""
    came = []
    thread = threading.Thread(target=lambda: came.append(call()))
    thread.start()
    return thread, came


def ended(threads):
    """What came of these calls, in the order in which they were begun."""
    for thread, _ in threads:
        thread.join()
    return [came[0] for _, came in threads]


def fetches_over_the_bound_go_in_the_order_of_asking():
    """One fetch may be in flight. Eight others wait, by threads that fetch one by one and by those that have several fetches
    in flight, and are asked for in the order in which they came."""
    paths = ["/%d" % k for k in range(9)]
    for several in ((), ("--fetches", "4")):
        released = threading.Event()
        texts = {path: ONE for path in paths}
        texts["/0"] = lambda _: released.wait(PATIENCE) and ONE
        with Wires(texts) as origin, before(origin, "--origin-fetches", "1", *several) as edge:
            threads = []
            for path in paths:
                threads.append(begun(lambda path=path: told(edge, path)))
                time.sleep(0.15)
            same("one is asked for", ["/0"], origin.asked())
            released.set()
            same("all are answered", [(200, b"1")] * 9, ended(threads))
            same("in the order of asking", paths, origin.asked())


def a_page_of_many_fragments_has_them_all():
    """Two may be in flight: a page of twelve fragments, and six readers of others meanwhile, have all that they ask for."""
    texts = {"/%d" % k: lambda _: time.sleep(0.01) or ONE for k in range(12)}
    page = wire("HTTP/1.1 200 OK|surrogate-control: content=\"ESI/1.0\"||" + "".join("<esi:include src='/%d'/>" % k for k in range(12)))
    with Wires({**texts, "/p": page, "/x": ONE}) as origin, before(origin, "--origin-fetches", "2", "--fetches", "16") as edge:
        page = begun(lambda: told(edge, "/p"))
        others = [begun(lambda: told(edge, "/x")) for _ in range(6)]
        same("the page", [(200, b"1" * 12)], ended([page]))
        same("others", [(200, b"1")] * 6, ended(others))


def no_more_wait_than_may():
    """One fetch may be in flight, and two may wait: a third fails at once, and another one waits when these have gone."""
    released = threading.Event()
    texts = {"/0": lambda _: released.wait(PATIENCE) and ONE, **{"/%d" % k: ONE for k in range(1, 5)}}
    with Wires(texts) as origin, before(origin, "--origin-fetches", "1", "--origin-queue", "2") as edge:
        threads = []
        for k in range(3):
            threads.append(begun(lambda k=k: told(edge, "/%d" % k)))
            time.sleep(0.3)
        came, taken = timed(lambda: told(edge, "/3"))
        same("one too many (%.2f s)" % taken, (UNASSEMBLED, True), (came, taken < 2))
        released.set()
        same("those who waited", [(200, b"1")] * 3, ended(threads))
        same("later", (200, b"1"), told(edge, "/4"))


def who_gives_up_leaves_the_queue():
    """One fetch hangs for the limit of time. Who waits behind it gives up after half of his own, and is never asked for; who
    waits behind him is answered once the first one has ended."""
    gone = threading.Event()
    hangs_on = lambda _: gone.wait(PATIENCE) and b""
    with Wires({"/0": hangs_on, "/1": ONE, "/2": ONE}) as origin, before(origin, "--origin-fetches", "1", "--timeout", "2000") as edge:
        threads = []
        for path in ("/0", "/1", "/2"):
            threads.append(begun(lambda path=path: timed(lambda: told(edge, path))))
            time.sleep(0.7)
        came = ended(threads)
        gone.set()
        same("what they get", [UNASSEMBLED, UNASSEMBLED, (200, b"1")], [answer for answer, _ in came])
        taken = [taken for _, taken in came]
        same("within their time (%s)" % (taken,), (True, True, True), (taken[0] < 2.8, 0.9 < taken[1] < 1.6, taken[2] < 1.6))
        same("what was asked for", ["/0", "/2"], origin.asked())


def an_origin_answers_as_much_as_it_can():
    """Two fetches may be in flight, of 400 ms each, and twelve a second are asked for: while others wait, for threads that
    fetch one by one and for pages that hold none, the origin still answers almost five a second, and is asked for few more."""
    for several in WAYS:
        texts = {"/%d" % k: lambda _: time.sleep(0.4) or ONE for k in range(96)}
        with Wires(texts) as origin, before(origin, "--origin-fetches", "2", "--timeout", "2000", *several) as edge:
            threads, since = [], time.monotonic()
            for k in range(96):
                time.sleep(max(0, since + k / 12 - time.monotonic()))
                threads.append(begun(lambda k=k: told(edge, "/%d" % k)[0]))
            came = ended(threads)
            # Of what is asked for within the last four seconds twenty could be answered.
            late = came[48:].count(200)
            same("%d answered late, and %d asked for" % (late, len(origin.heads)), (True, True), (late >= 12, len(origin.heads) <= 60))


def an_origin_that_rests_answers_all_who_wait():
    """Five connections aren't made within the limit of time, after which the origin rests: the last six of ten who wait fail at
    once, with most of their time left."""
    with Unready({"/%d" % k: ONE for k in range(15)}) as origin:
        with before(origin, "--origin-fetches", "5", "--timeout", "2000", "--origin-rest", "60") as edge:
            origin.full()
            first = [begun(lambda k=k: told(edge, "/%d" % k)) for k in range(5)]
            time.sleep(1.5)
            threads = []
            for k in range(5, 15):
                threads.append(begun(lambda k=k: timed(lambda: told(edge, "/%d" % k))))
                time.sleep(0.02)
            same("the first", [UNASSEMBLED] * 5, ended(first))
            came = ended(threads)
            same("those who wait", [UNASSEMBLED] * 10, [answer for answer, _ in came])
            same("at once (%s)" % ([taken for _, taken in came[4:]],), True, all(taken < 0.95 for _, taken in came[4:]))


def an_origin_that_takes_no_connections_rests():
    """Five pages wait for the limit of time. From then on 20 fail at once. When the rest is over one fetch is let through, no
    other in the 200 milliseconds behind it, and then a further one, though the first one still waits. They fail, and the origin
    rests again; one succeeds, and the rest is over."""
    for several in WAYS:
        with Unready({"/x": ONE}) as origin, before(origin, "--timeout", "500", "--origin-rest", "1", *several) as edge:
            origin.full()
            for k in range(5):
                same("%d waits for the limit" % k, ("/x", UNASSEMBLED, True), later(edge, 0, "/x"))
            came, taken = timed(lambda: all_at_once([lambda: told(edge, "/x")] * 20))
            same("20 fail at once (%.2f s)" % taken, ([UNASSEMBLED] * 20, True), (came, taken < 0.45))
            time.sleep(1.1)
            came = all_at_once([lambda path=path, at=at: later(edge, at, path) for path, at in (("/0", 0), ("/1", 0.05), ("/2", 0.35))])
            same("two wait", [("/0", UNASSEMBLED, True), ("/1", UNASSEMBLED, False), ("/2", UNASSEMBLED, True)], sorted(came))
            origin.listens()
            same("it rests again", (("/x", UNASSEMBLED, False), []), (later(edge, 0, "/x"), origin.asked()))
            time.sleep(1.1)
            same("one succeeds, and so does the next", [(200, b"1")] * 2, [told(edge, "/x"), told(edge, "/x")])


def an_origin_that_refuses_rests():
    """Five connections that are refused have an origin rest. Meanwhile 20 pages are bridged at once, and what can't be bridged
    fails, though the origin is there again; when the rest is over it is asked."""
    origin = Origin({"/x": (b"x", "text/plain", "max-age=1+600"), "/y": (b"y", "text/plain", "")})
    site, port = origin.site, origin.port
    with before(origin, "--origin-rest", "1") as edge:
        same("/x", (200, b"x"), told(edge, "/x"))
        origin.__exit__()
        time.sleep(2.1)
        same("refused", [UNASSEMBLED] * 5, [told(edge, "/y") for _ in range(5)])
        began = time.monotonic()
        with Origin(port=port, site=site):
            came, taken = timed(lambda: all_at_once([lambda: told(edge, "/x")] * 20))
            same("20 pages at once (%.2f s)" % taken, ([(200, b"x")] * 20, True), (came, taken < 0.6))
            same("it is there again, and rests", UNASSEMBLED, told(edge, "/y"))
            time.sleep(max(0, began + 1.1 - time.monotonic()))
            same("the rest is over", (200, b"y"), told(edge, "/y"))


def a_connection_ends_the_rest():
    """The fetch behind a rest has its connection, and hangs: the next one, of another URL, is let through at once."""
    for several in WAYS:
        with Unready({"/bad": hangs, "/x": ONE}) as origin, before(origin, "--timeout", "100", "--origin-rest", "1", *several) as edge:
            same("refused", [UNASSEMBLED] * 5, [told(edge, "/x") for _ in range(5)])
            origin.listens()
            same("it rests", (UNASSEMBLED, []), (told(edge, "/x"), origin.asked()))
            time.sleep(1.1)
            same("one hangs, and the next succeeds", [UNASSEMBLED, (200, b"1")], [told(edge, "/bad"), told(edge, "/x")])
            same("asked", ["/bad", "/x"], origin.asked())


def four_failures_and_a_connection_begin_no_rest():
    """Between four connections that are refused and four more one is made: the origin is asked each time that it is there."""
    origin = Origin({"/x": (b"x", "text/plain", "")})
    site, port = origin.site, origin.port
    with before(origin, "--origin-rest", "600") as edge:
        origin.__exit__()
        for _ in range(3):
            same("refused", [UNASSEMBLED] * 4, [told(edge, "/x") for _ in range(4)])
            with Origin(port=port, site=site):
                same("asked", (200, b"x"), told(edge, "/x"))


def fetches_that_are_given_up_rest_no_origin():
    """Ten pages of which each needs no answer of a fetch to their origin that hangs."""
    page = PAGE + "<esi:try><esi:attempt><esi:include src='/x'/><esi:include src='/hangs'/></esi:attempt><esi:except>e</esi:except></esi:try>"
    texts = {"/hangs": lambda connection: connection.recv(1), "/q": sized("HTTP/1.1 200 OK", "q")}
    texts.update({"/p%d" % at: wire(page) for at in range(10)})
    with Wires(texts) as origin, before(origin, "--fetches", "8", "--origin-rest", "60") as edge:
        for at in range(10):
            same("a page", (200, b"e"), told(edge, "/p%d" % at))
        same("another page", (200, b"q"), told(edge, "/q"))


def a_bad_url_rests_no_origin():
    """Whoever asks for a URL that hangs, whose connections are reset or cut, or that is no HTTP, gets no page; who asks for
    another one of its origin does, though six have failed in succession before, and as many again."""
    bad = (("hangs", hangs), ("is reset", reset), ("is cut", b""), ("is no HTTP", wire("no HTTP||")))
    for several, (what, text) in product(WAYS, bad):
        with Wires({"/bad": text, "/x": ONE}) as origin, before(origin, "--timeout", "100", "--origin-rest", "600", *several) as edge:
            for _ in range(2):
                same("what " + what, [UNASSEMBLED] * 6, [told(edge, "/bad") for _ in range(6)])
                same("beside what " + what, (200, b"1"), told(edge, "/x"))


def a_bad_url_rests_no_origin_over_kept_connections():
    """Eight connections are kept, and over six of them, in succession, a URL hangs: the next one is asked for."""
    for several in WAYS:
        # All eight are asked for before one of them is answered, so none comes over another's connection.
        met = threading.Barrier(8)

        def answer(target, _):
            if target == "/bad":
                return (0.5, b""), True
            if target != "/x":
                met.wait(PATIENCE)
            return whole(target), False

        with Lasting(answer) as origin, before(origin, "--origin-keep-alive", "8", "--timeout", "300", "--origin-rest", "600", *several) as edge:
            pages = all_at_once([lambda k=k: told(edge, "/%d" % k) for k in range(8)])
            same("at first", ([(200, b"/%d" % k) for k in range(8)], 8), (sorted(pages), origin.connections))
            same("what hangs", [UNASSEMBLED] * 6, [told(edge, "/bad") for _ in range(6)])
            same("over kept ones", 8, origin.connections)
            same("beside it", (200, b"/x"), told(edge, "/x"))


TESTS = (
    hanging_fetches_hold_no_more_threads_than_may_be,
    a_hanging_fetch_holds_no_more_threads_than_may_wait,
    others_are_asked_beside_one_that_is_full,
    fetches_over_the_bound_go_in_the_order_of_asking,
    a_page_of_many_fragments_has_them_all,
    no_more_wait_than_may,
    who_gives_up_leaves_the_queue,
    an_origin_answers_as_much_as_it_can,
    an_origin_that_rests_answers_all_who_wait,
    an_origin_that_takes_no_connections_rests,
    an_origin_that_refuses_rests,
    a_connection_ends_the_rest,
    four_failures_and_a_connection_begin_no_rest,
    fetches_that_are_given_up_rest_no_origin,
    a_bad_url_rests_no_origin,
    a_bad_url_rests_no_origin_over_kept_connections,
)
