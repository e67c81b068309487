"""Requests that go in a circle, or from one edge to the next."""
import socket
import time

from harness import PLAIN, Edge, Origin, Wires, all_at_once, before, get, same, sized, told
from limits import page_of

REFUSED = (508, b"The request has passed this edge before, or too many edges.\n")
# How long who is asked waits for others to join, in seconds.
MEANWHILE = 0.4
# One fetch after another, by several threads and by one; and several of one thread.
WAYS = ((), ("--workers", "1"), ("--workers", "1", "--fetches", "8"))


def free_port():
    with socket.create_server(("127.0.0.1", 0)) as found:
        return found.getsockname()[1]


def ways_of(origin):
    """What the requests that came to an origin say of their way."""
    lines = [line for head in origin.heads for line in head.decode("latin-1").split("\r\n")]
    return [line.partition(": ")[2] for line in lines if line.lower().startswith("cdn-loop: ")]


def an_edge_that_asks_itself_ends_at_once():
    """An edge that is its own origin: its own request is refused, without a further one."""
    port = free_port()
    with Edge("--origin", "*=127.0.0.1:%d" % port, "--name", "edge-a", port=port) as edge:
        begun = time.monotonic()
        same("the answer", REFUSED, told(edge))
        same("at once", True, time.monotonic() - begun < 1)


def a_circle_of_several_edges_ends_at_once():
    """Edges of different names that ask one another: each request says the whole way, so that the first edge that it
    reaches again refuses it; without any limit of time too."""
    for count in (2, 3):
        for options in WAYS + (("--timeout", "0"), ("--timeout", "0", "--origin-keep-alive", "4")):
            edges, port = [], free_port()
            try:
                for i in range(count):
                    asked = edges[-1].port if edges else port
                    last = port if i == count - 1 else 0
                    edges.append(Edge("--origin", "*=127.0.0.1:%d" % asked, "--name", "edge-%d" % i, *options, port=last))
                for edge in edges:
                    begun = time.monotonic()
                    same("%d edges, %s" % (count, options), REFUSED, told(edge))
                    same("at once", True, time.monotonic() - begun < 1)
            finally:
                for edge in edges:
                    edge.end()


def edges_in_a_row_are_no_circle():
    """An edge before another one, each with its name: the page comes, and its origin sees both names, and what came with the
    client's request before them. An edge without a name says nothing."""
    lines = "CDN-Loop: cdn.test; a=\"b, c\"\r\nX: y\r\nCDN-Loop: b.test\r\n"
    for options in WAYS:
        with Wires({"/p": page_of("<esi:include src='/x'/>"), "/x": sized("HTTP/1.1 200 OK", "[1]")}) as origin:
            with before(origin, "--name", "inner", *options) as inner:
                with Edge("--origin", "*=127.0.0.1:%d" % inner.port, "--name", "outer", *options) as outer:
                    same("the page", (200, b"[1]"), told(outer))
                    same("the ways", ["outer, inner"] * 2, ways_of(origin))
                    capability = b'\r\nsurrogate-capability: inner="surrogate/1.0 esi/1.0"\r\n'
                    same("what the inner edge can do", True, capability in origin.heads[0].lower())
                    origin.heads.clear()
                    same("with a list", 200, get(outer, "/p", fields=lines).status)
                    same("its ways", ['cdn.test; a="b, c", b.test, outer, inner'] * 2, ways_of(origin))
                origin.heads.clear()
                same("from nobody", (200, b"[1]"), told(inner))
                same("its name alone", ["inner"] * 2, ways_of(origin))
            origin.heads.clear()
            with before(origin, *options) as edge:
                same("without a name", 200, get(edge, "/p", fields=lines).status)
                same("nothing is said", [], ways_of(origin))


def what_is_stored_is_for_all_ways():
    """What was fetched for a request of one way is there for one of another."""
    text = sized("HTTP/1.1 200 OK|surrogate-control: max-age=600", "1")
    fields = "CDN-Loop: elsewhere\r\n"
    for options in WAYS:
        with Wires({"/a": text, "/b": text}) as origin, before(origin, "--name", "edge-a", *options) as edge:
            got = [get(edge, "/a"), get(edge, "/a", fields=fields), get(edge, "/b", fields=fields), get(edge, "/b")]
            same("the pages", [(200, b"1")] * 4, [(it.status, it.body) for it in got])
            same("what was asked for", ["/a", "/b"], origin.asked())


def a_made_up_way_spoils_no_other_page():
    """A client that says that its request has passed the next edge gets 508. Whoever asks for the same page meanwhile
    waits for the same fetch, and then fetches for itself."""
    for options in WAYS:
        with Wires({}) as next_edge:

            def refusing(_):
                # What led to the fetch came first.
                if b"\r\ncdn-loop: next, edge-a\r\n" not in next_edge.heads[-1].lower():
                    return sized("HTTP/1.1 200 OK", "page")
                time.sleep(MEANWHILE)
                return sized("HTTP/1.1 508 Loop Detected|surrogate-control: max-age=600", "circle")

            next_edge.texts["/p"] = refusing
            with before(next_edge, "--name", "edge-a", *options) as edge:

                def later():
                    time.sleep(MEANWHILE / 4)
                    return told(edge)

                made_up = lambda: (get(edge, "/p", fields="CDN-Loop: next\r\n").status, None)
                came = all_at_once([made_up] + [later] * 3)
                same("the answers, %s" % (options,), [(200, b"page")] * 3 + [(508, None)], sorted(came, key=lambda it: it[0]))
                same("none of the others asked before", ["next, edge-a"] + ["edge-a"] * 3, ways_of(next_edge))
                same("later", (200, b"page"), told(edge))


def made_up_ways_among_many_readers():
    """The same before a real edge, many times at once: each reader gets the page, and such a client 508, or the page where
    it has joined a reader's fetch."""
    for options in WAYS:
        with Origin(PLAIN) as origin, before(origin, "--name", "next") as next_edge:
            with Edge("--origin", "*=127.0.0.1:%d" % next_edge.port, "--name", "edge-a", *options) as edge:
                made_up = lambda: ("made up", get(edge, "/p", fields="CDN-Loop: next\r\n").status in (200, 508))
                came = all_at_once([made_up, lambda: ("a reader", told(edge))] * 40)
                wanted = [("a reader", (200, b"[12345678]"))] * 40 + [("made up", True)] * 40
                same("the answers, %s" % (options,), wanted, sorted(came, key=lambda it: it[0]))


def a_circle_is_bridged():
    """A stored answer that may be shown where its origin fails takes the place of a refused request's, as of any failure."""
    with Wires({"/p": sized("HTTP/1.1 200 OK|surrogate-control: max-age=1+600", "older")}) as origin:
        with before(origin, "--name", "edge-a") as edge:
            same("stored", (200, b"older"), told(edge))
            time.sleep(1.1)
            origin.texts["/p"] = sized("HTTP/1.1 508 Loop Detected", "circle")
            same("bridged", (200, b"older"), told(edge))


def a_request_that_was_here_is_refused():
    """By a member of `CDN-Loop` alone, whatever its parameters; without --name nobody is refused."""
    rows = (("edge-a", 508), ("cdn.test, edge-a; x=1", 508), ("edge-ab", 200), ("b; edge-a", 200))
    with Origin(PLAIN) as origin:
        with before(origin, "--name", "edge-a") as edge:
            for value, status in rows:
                same(value, status, get(edge, "/p", fields="CDN-Loop: %s\r\n" % value).status)
        with before(origin) as edge:
            same("without a name", 200, get(edge, "/p", fields="CDN-Loop: edge-a, edge1\r\n").status)


def a_request_that_has_passed_too_many_edges_is_refused():
    """Where the edges that it has passed take more than 1,024 bytes, in one line or in several, and without a fetch."""
    rows = (("x" * 1024, 200), ("x" * 1025, 508), ("x" * 511 + "\r\nCDN-Loop: " + "y" * 511, 200), ("x" * 511 + "\r\nCDN-Loop: " + "y" * 512, 508))
    with Wires({"/p": sized("HTTP/1.1 200 OK", "1")}) as origin:
        with before(origin, "--name", "edge-a") as edge:
            for value, status in rows:
                same("%d bytes" % len(value), status, get(edge, "/p", fields="CDN-Loop: %s\r\n" % value).status)
            same("how often the origin was asked", 2, len(origin.heads))
        with before(origin) as edge:
            same("without a name", 200, get(edge, "/p", fields="CDN-Loop: %s\r\n" % ("x" * 1025)).status)


TESTS = (
    an_edge_that_asks_itself_ends_at_once, a_circle_of_several_edges_ends_at_once, edges_in_a_row_are_no_circle,
    what_is_stored_is_for_all_ways, a_made_up_way_spoils_no_other_page, made_up_ways_among_many_readers, a_circle_is_bridged,
    a_request_that_was_here_is_refused, a_request_that_has_passed_too_many_edges_is_refused,
)
