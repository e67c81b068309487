"""Clients that leave before their page is made: what is still fetched for it."""
import socket
import struct
import time

from harness import ASKED, PATIENCE, Response, Wires, before, client, rest, same, told, wire

FRAGMENTS = 40
PATHS = ["/%d" % k for k in range(FRAGMENTS)]
TEXT = "".join('<esi:include src="%s" onerror="continue"/>' % path for path in PATHS)
PAGE = wire('HTTP/1.1 200 OK|surrogate-control: content="ESI/1.0"|content-length: %d||%s' % (len(TEXT), TEXT))
ONE = wire("HTTP/1.1 200 OK|content-length: 1||1")
WHOLE = (200, b"1" * FRAGMENTS)
# In which time each fragment comes. Four at a time take a second for all.
SLOWLY = 0.1
# Whether the threads of a page fetch one by one, or one thread has several fetches in flight.
WAYS = (("--workers", "4"), ("--fetches", "4"))


def slow(_):
    time.sleep(SLOWLY)
    return ONE


def slow_origin():
    return Wires({"/p": PAGE, **{path: slow for path in PATHS}})


def reset(connection):
    """Ends a connection by a reset."""
    connection.setsockopt(socket.SOL_SOCKET, socket.SO_LINGER, struct.pack("ii", 1, 0))
    connection.close()


def asked_in_vain(leave, *options):
    """How many fragments are asked for once a client has left, some time after it asked for the page."""
    with slow_origin() as origin, before(origin, *options) as edge:
        connection = client(edge, ASKED)
        time.sleep(0.35)
        leave(connection)
        asked = len(origin.heads)
        until, seen = time.monotonic() + PATIENCE, -1
        while seen != len(origin.heads) and time.monotonic() < until:
            seen = len(origin.heads)
            time.sleep(5 * SLOWLY)
        connection.close()
        return len(origin.heads) - asked


def is_few(what, count):
    """No more fetches than were in flight, and as many that were about to begin."""
    same("%s: %d further fetches" % (what, count), True, count <= 8)


def is_rest(what, count):
    """All fragments that weren't asked for yet."""
    same("%s: %d further fetches" % (what, count), True, count >= FRAGMENTS // 2)


def a_client_that_closes_ends_the_fetches():
    """With --abort-on-close the end of a client's input ends the fetches of its page, also by a reset; without it all that
    are left are made, since the client may have ended its input alone."""
    for way in WAYS:
        is_few("closed", asked_in_vain(socket.socket.close, *way, "--abort-on-close"))
        is_few("reset", asked_in_vain(reset, *way, "--abort-on-close"))
        is_rest("closed, by itself", asked_in_vain(socket.socket.close, *way))
        is_rest("closed, with a limit", asked_in_vain(socket.socket.close, *way, "--page-timeout", "60000"))


def a_reset_ends_the_fetches_of_a_page_with_a_limit():
    """With --page-timeout a reset connection ends the fetches of its page; without any of the two it doesn't."""
    for way in WAYS:
        is_few("reset", asked_in_vain(reset, *way, "--page-timeout", "60000"))
        is_rest("reset, by itself", asked_in_vain(reset, *way))


def ended(edge):
    """What a client gets that ends its input behind its request."""
    with client(edge, ASKED, ends=True) as connection:
        got = Response(rest(connection))
    return got.status, got.body


def a_client_may_end_its_input():
    """Without --abort-on-close a client that ends its input behind its request gets its whole page, with a limit of the
    page's time or without."""
    for way in WAYS:
        for limit in ((), ("--page-timeout", "60000")):
            with slow_origin() as origin, before(origin, *way, *limit) as edge:
                same("whole", WHOLE, ended(edge))


def a_client_that_stays_gets_its_page():
    """With --abort-on-close a client that waits for its page gets it whole; one that has ended its input gets what is
    stored, and nothing is asked for it."""
    for way in WAYS:
        with slow_origin() as origin, before(origin, *way, "--abort-on-close", "--page-timeout", "60000") as edge:
            same("whole", WHOLE, told(edge))
            origin.texts["/p"] = wire("HTTP/1.1 200 OK|surrogate-control: max-age=600|content-length: 1||k")
            same("stored", (200, b"k"), told(edge))
            asked = len(origin.heads)
            same("to one that has ended its input", ((200, b"k"), asked), (ended(edge), len(origin.heads)))


TESTS = (
    a_client_that_closes_ends_the_fetches,
    a_reset_ends_the_fetches_of_a_page_with_a_limit,
    a_client_may_end_its_input,
    a_client_that_stays_gets_its_page,
)
