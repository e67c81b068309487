"""URLs that failed, which rest: their failing answer is given again, and they aren't asked."""
import time
from itertools import product

from harness import UNASSEMBLED, Origin, Wires, before, same, told, wire

ONE = wire("HTTP/1.1 200 OK|content-length: 1||1")
FAILING = wire("HTTP/1.1 500 Failing|content-length: 1||5")
LOOP = wire("HTTP/1.1 508 Loop Detected|content-length: 1||8")
# Kept for a second, and bridged for ten minutes.
BRIDGED = wire("HTTP/1.1 200 OK|content-length: 1|surrogate-control: max-age=1+600||x")
PAGE = '<esi:include src="/f" onerror="continue"/>.<esi:include src="/x"/>'
KEPT_PAGE = wire('HTTP/1.1 200 OK|surrogate-control: max-age=600, content="ESI/1.0"|content-length: %d||%s' % (len(PAGE), PAGE))
# Whether the threads of a page fetch one by one, or one thread has several fetches in flight.
WAYS = ((), ("--fetches", "4"))


def a_failing_fragment_is_asked_once_in_its_rest():
    """Of 20 pages one after another one asks for the fragment whose origin fails, and each for the one beside it, which is
    never to be stored. When the rest is over it is asked again; and what it then answers comes at once."""
    for several in WAYS:
        with Wires({"/p": KEPT_PAGE, "/f": FAILING, "/x": ONE}) as origin, before(origin, "--url-rest", "2", *several) as edge:
            began = time.monotonic()
            same("20 pages", [(200, b".1")] * 20, [told(edge) for _ in range(20)])
            same("in one rest", True, time.monotonic() - began < 1)
            same("asked for", (1, 20), (origin.asked().count("/f"), origin.asked().count("/x")))
            origin.texts["/f"] = ONE
            same("it rests", (200, b".1"), told(edge))
            time.sleep(max(0, began + 2.1 - time.monotonic()))
            same("the rest is over", [(200, b"1.1")] * 3, [told(edge) for _ in range(3)])
            same("it is asked each time", 4, origin.asked().count("/f"))


def without_a_rest_each_page_asks():
    """Unless it is asked for, no URL rests: each of five pages asks again."""
    with Wires({"/p": KEPT_PAGE, "/f": FAILING, "/x": ONE}) as origin, before(origin) as edge:
        same("5 pages", [(200, b".1")] * 5, [told(edge) for _ in range(5)])
        same("asked for", 5, origin.asked().count("/f"))


def a_url_that_cannot_be_reached_rests():
    """Where nobody listens, the URL rests as well: it isn't had while the rest lasts, though its origin is there by
    then; another one of that origin is."""
    paths = {"/x": (b"x", "text/plain", ""), "/y": (b"y", "text/plain", "")}
    for several in WAYS:
        origin = Origin(paths)
        site, port = origin.site, origin.port
        with before(origin, "--url-rest", "2", *several) as edge:
            origin.__exit__()
            began = time.monotonic()
            same("refused", [UNASSEMBLED] * 3, [told(edge, "/x") for _ in range(3)])
            with Origin(port=port, site=site):
                same("it is there again, and one URL rests", [UNASSEMBLED, (200, b"y")], [told(edge, "/x"), told(edge, "/y")])
                time.sleep(max(0, began + 2.1 - time.monotonic()))
                same("the rest is over", (200, b"x"), told(edge, "/x"))


def a_url_that_rests_is_bridged():
    """An older answer counts in place of the failing one, for which its URL is asked once in its rest."""
    for several in WAYS:
        with Wires({"/x": BRIDGED}) as origin, before(origin, "--url-rest", "600", *several) as edge:
            same("stored", (200, b"x"), told(edge, "/x"))
            time.sleep(2.1)
            origin.texts["/x"] = FAILING
            same("bridged", [(200, b"x")] * 10, [told(edge, "/x") for _ in range(10)])
            same("asked for", ["/x"] * 2, origin.asked())


def what_says_nothing_of_its_url_begins_no_rest():
    """After a status of 404, or of 508, which is about who asked, the URL is asked on."""
    for text, several in product((LOOP, wire("HTTP/1.1 404 Not Found|content-length: 1||4")), WAYS):
        with Wires({"/p": KEPT_PAGE, "/f": text, "/x": ONE}) as origin, before(origin, "--url-rest", "600", *several) as edge:
            same("3 pages", [(200, b".1")] * 3, [told(edge) for _ in range(3)])
            same("asked for", 3, origin.asked().count("/f"))


TESTS = (
    a_failing_fragment_is_asked_once_in_its_rest,
    without_a_rest_each_page_asks,
    a_url_that_cannot_be_reached_rests,
    a_url_that_rests_is_bridged,
    what_says_nothing_of_its_url_begins_no_rest,
)
