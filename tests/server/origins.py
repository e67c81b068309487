"""What origins are asked, and what becomes of what they send."""
import signal
import threading
import time

from harness import PAGE, PLAIN, TRY, UNASSEMBLED, Edge, Origin, Wires, before, get, same, told, wire


def each_cut_of_a_fragment_fails_its_page():
    """A fragment that is cut anywhere, in its head, after it or in its body, can't be fetched."""
    whole = wire("HTTP/1.1 200 OK|content-length: 1||1")
    chunks = wire("HTTP/1.1 200 OK|transfer-encoding: chunked||1|1|0||")
    with Wires({"/p": wire(PAGE + "A<esi:include src='/x'/>B")}) as origin, before(origin) as edge:
        for text in (whole, chunks):
            for k in range(len(text) + 1):
                origin.texts["/x"] = text[:k]
                same("the first %d of %r" % (k, text), (200, b"A1B") if k == len(text) else UNASSEMBLED, told(edge))


MOST = 262144


def no_more_is_read_than_a_body_may_have():
    """A fragment of 262,144 bytes can be fetched, and one of a byte more can't, whether its length is given
    or its connection ends; nor can one without an end, of which no more is read than that."""
    heads = ("HTTP/1.1 200 OK||", "HTTP/1.1 200 OK|content-length: %d||")
    page = PAGE + TRY[0].decode()
    with Wires({"/p": wire(page), "/q": wire(PAGE + "<esi:include src='/x'/>")}) as origin, before(origin) as edge:
        for head in heads:
            for more, body in ((0, b"[" + b"x" * MOST + b"]"), (1, b"none")):
                text = wire(head % (MOST + more) if "%" in head else head) + b"x" * (MOST + more)
                origin.texts["/x"] = text
                status, came = told(edge)
                same("%s and %d more" % (head, more), (200, len(body), True), (status, len(came), came == body))
            same(head, UNASSEMBLED, told(edge, "/q"))
        for head in ("HTTP/1.1 200 OK||", "HTTP/1.1 200 OK|content-length: 999999999999||"):
            origin.texts["/x"] = [wire(head), b"x" * 65536]
            begun = time.monotonic()
            same("without an end", (200, b"none"), told(edge))
            same("and soon", True, time.monotonic() - begun < 5)
        # What is still sent into the sockets' buffers isn't read.
        same("bytes that were sent (%d)" % origin.sent, True, origin.sent < 64 * MOST)


# How many bytes an origin may send around a body.
MOST_AROUND = 65536
CONTINUE = wire("HTTP/1.1 100 Continue||")
IN_CHUNKS = wire("HTTP/1.1 200 OK|transfer-encoding: chunked||")


def no_more_is_read_around_a_body_than_may_be():
    """A fragment can't be fetched whose origin sends 1xx heads, a head, or zeros in a chunk's size without end, and that is found soon;
    nor one whose heads are longer together than they may be. One whose heads are nearly so long can, and one that comes byte by byte
    in chunks, also where each says its size in eight digits."""
    whole = wire("HTTP/1.1 200 OK|content-length: 1||1")
    fits = MOST_AROUND // len(CONTINUE) - 10
    endless = ([CONTINUE, CONTINUE * 1000], [wire("HTTP/1.1 200 OK|x: "), b"x" * 65536], [IN_CHUNKS, b"0" * 65536], [IN_CHUNKS + b"1\r\n1\r\n", b"0" * 65536])
    rows = (
        *((text, b"none") for text in endless),
        (CONTINUE * fits + whole, b"[1]"),
        (CONTINUE * (fits + 20) + whole, b"none"),
        *((IN_CHUNKS + one * 20000 + b"0\r\n\r\n", b"[" + b"x" * 20000 + b"]") for one in (b"1\r\nx\r\n", b"00000001\r\nx\r\n")),
    )
    for words in ((), ("--workers", "1", "--fetches", "8")):
        with Wires({"/p": wire(PAGE + TRY[0].decode())}) as origin, before(origin, "--timeout", "60000", *words) as edge:
            for k, (text, wanted) in enumerate(rows):
                origin.texts["/x"] = text
                begun = time.monotonic()
                status, came = told(edge)
                same("row %d" % k, (200, len(wanted), True), (status, len(came), came == wanted))
                same("row %d soon" % k, True, time.monotonic() - begun < 15)


def origins_are_asked_by_authority():
    """Each authority at its own origin, others at that of `*`, and none where there is no such."""
    with Origin({"/": (b"A", "text/plain", "")}) as a, Origin({"/": (b"B", "text/plain", "")}) as b:
        with Edge("--origin", "a.test=" + a.at, "--origin", "*=" + b.at) as edge:
            same("a.test", b"A", get(edge, "/").body)
            same("b.test", b"B", get(edge, "/", host="b.test").body)
            same("a.test:8080", b"B", get(edge, "/", host="a.test:8080").body)
        with Edge("--origin", "a.test:8080=" + a.at) as edge:
            same("a.test:8080", b"A", get(edge, "/", host="a.test:8080").body)
            same("a.test", 502, get(edge, "/").status)


def an_origin_is_asked_for_the_url_alone():
    """It is asked for the URL, with the host and the edge's capability, for a body that isn't coded and an end of
    the connection, and with nothing of the client. Each line of Surrogate-Control counts."""
    answer = wire('HTTP/1.1 200 OK|content-length: 27|content-type: text/html|surrogate-control: max-age=60|surrogate-control: content="ESI/1.0"||')
    with Wires({"/x?q=1": answer + b"1<esi:comment text='here'/>"}) as origin, Wires({}) as silent:
        with Edge("--origin", "b.test=" + silent.at, "--origin", "a.test=" + origin.at, "--origin", "*=" + silent.at) as edge:
            for _ in range(2):
                got = get(edge, "/x?q=1", fields="Cookie: a=1\r\nUser-Agent: x\r\n")
                same("what the client gets", (200, "text/html", b"1"), (got.status, got.fields.get("content-type"), got.body))
            wanted = wire('GET /x?q=1 HTTP/1.1|host: a.test|surrogate-capability: edge1="Surrogate/1.0 ESI/1.0"|connection: close|accept-encoding: identity||')
            same("what the origin is asked, once", [wanted], origin.heads)


def what_is_no_answer_is_a_failed_one():
    """What an origin sends for a page, and what a client gets."""
    rows = (
        ("HTTP/1.1 404 Not Found|content-length: 4||gone", (404, b"gone")),
        ("HTTP/1.1 200 OK|content-length: 2||1", UNASSEMBLED),
        ("HTTP/1.1 200 OK||to the end", (200, b"to the end")),
        ("HTTP/1.1 100 Continue||HTTP/1.1 200 OK|content-length: 1||1", (200, b"1")),
        ("HTTP/1.1 600 Odd|content-length: 1||1", UNASSEMBLED),
        ("HTTP/1.1 200 OK|transfer-encoding: chunked||1|1|0||", (200, b"1")),
        ("HTTP/1.1 200 OK|transfer-encoding: chunked||1|1|", UNASSEMBLED),
        ("HTTP/1.1 200 OK|content-length: 262145||", UNASSEMBLED),
        ("no HTTP||", UNASSEMBLED),
    )
    with Wires({}) as origin, before(origin) as edge:
        for text, wanted in rows:
            origin.texts["/p"] = wire(text)
            same(text, wanted, told(edge))


def a_type_of_other_bytes_is_left_out():
    """A content type that no response may have: the page has its body, and no type."""
    with Wires({"/p": b"HTTP/1.1 200 OK\r\ncontent-type: text/h\xe9\r\ncontent-length: 1\r\n\r\n1"}) as origin, before(origin) as edge:
        got = get(edge, "/p")
        same("the page", (200, b"1", None), (got.status, got.body, got.fields.get("content-type")))


def coded_answers_are_failed_ones():
    """An answer in a coding that the edge doesn't read is none, in whichever line and letters the coding stands."""
    kept = "HTTP/1.1 200 OK|surrogate-control: max-age=60|content-length: 1"
    codings = ("gzip", "Identity, GZIP", "br,", "identity|content-encoding: zstd")
    with Wires({}) as origin, before(origin) as edge:
        for k, coding in enumerate(codings):
            origin.texts["/%d" % k] = wire(kept + "|content-encoding: %s||1" % coding)
            for _ in range(2):
                same(coding, UNASSEMBLED, told(edge, "/%d" % k))
        same("asked again, since none was kept", 2 * len(codings), len(origin.heads))
        for k, coding in enumerate(("identity", "IDENTITY , identity", "")):
            origin.texts["/plain%d" % k] = wire(kept + "|content-encoding: %s||1" % coding)
            same(repr(coding), (200, b"1"), told(edge, "/plain%d" % k))
        origin.texts["/chunks"] = wire("HTTP/1.1 200 OK|transfer-encoding: gzip, chunked||1|1|0||")
        same("chunks of a coding", UNASSEMBLED, told(edge, "/chunks"))


def what_only_the_close_ends_is_not_kept():
    """An answer without a length or chunks is used, and asked for each time; with either it is asked for once."""
    kept = "HTTP/1.%d 200 OK|surrogate-control: max-age=60"
    rows = (
        (kept % 1 + "||1", 2),
        (kept % 0 + "||1", 2),
        (kept % 1 + "|content-length: 1||1", 1),
        (kept % 0 + "|content-length: 1||1", 1),
        (kept % 1 + "|transfer-encoding: chunked||1|1|0||", 1),
    )
    for text, times in rows:
        with Wires({"/p": wire(text)}) as origin, before(origin) as edge:
            same(text, [(200, b"1")] * 2, [told(edge), told(edge)])
            same("times that it was asked for, of %s" % text, times, len(origin.heads))


def an_edge_that_was_stopped_goes_on():
    """A signal that stops the edge while it waits for an origin, and one that lets it go on: it gets the answer."""

    def late(_):
        time.sleep(0.4)
        return wire("HTTP/1.1 200 OK|content-length: 1||1")

    with Wires({"/p": late}) as origin, before(origin) as edge:
        for _ in range(3):
            asking = threading.Thread(target=lambda: came.append(told(edge)))
            came = []
            asking.start()
            for _ in range(3):
                time.sleep(0.05)
                edge.process.send_signal(signal.SIGSTOP)
                edge.process.send_signal(signal.SIGCONT)
            asking.join()
            same("what came", [(200, b"1")], came)


def a_fragment_cut_short_is_none():
    """A fragment whose connection is cut after half of it can't be fetched; whole again, it can."""
    with Origin(PLAIN) as origin, before(origin) as edge:
        for how, body in (("usual", b"[12345678]"), ("short", b"none"), ("failing", b"none"), ("usual", b"[12345678]")):
            origin.site.tell("/x", how)
            same(how, (200, body), (get(edge, "/p").status, get(edge, "/p").body))


def an_origin_goes_and_comes_back():
    """Without its origin a page is 502, and with it again the page."""
    origin = Origin(PLAIN)
    site, port = origin.site, origin.port
    with before(origin) as edge:
        same("there", b"[12345678]", get(edge, "/p").body)
        origin.__exit__()
        same("gone", 502, get(edge, "/p").status)
        with Origin(port=port, site=site):
            same("back", b"[12345678]", get(edge, "/p").body)


def a_hanging_origin_is_given_up():
    """With --timeout a fetch that isn't answered in time can't be fetched."""
    with Origin(PLAIN) as origin, before(origin, "--timeout", "300") as edge:
        origin.site.tell("/x", "hanging")
        begun = time.monotonic()
        same("hanging", (200, b"none"), (get(edge, "/p").status, get(edge, "/p").body))
        taken = time.monotonic() - begun
        same("it took some time, and not too long (%.1f s)" % taken, True, 0.5 < taken < 10)


def who_never_answers_fails_at_the_limit():
    """An origin that never answers, or a byte every ten milliseconds to whoever reads on, fails at a limit of
    fifty; so does an authority that has no origin."""

    def never(connection):
        connection.recv(1)

    def trickle(connection):
        for k in range(len(whole)):
            time.sleep(0.01)
            connection.sendall(whole[k:k + 1])

    whole = wire("HTTP/1.1 200 OK|content-length: 1||1")
    with Wires({"/never": never, "/trickle": trickle}) as origin:
        with Edge("--origin", "a.test=" + origin.at, "--timeout", "50") as edge:
            for path in ("/never", "/trickle"):
                begun = time.monotonic()
                same(path, UNASSEMBLED, told(edge, path))
                taken = time.monotonic() - begun
                same("%s soon, and not at once (%.2f s)" % (path, taken), True, 0.04 < taken < 5)
            same("no origin", 502, get(edge, "/never", host="b.test").status)


TESTS = (
    each_cut_of_a_fragment_fails_its_page,
    no_more_is_read_than_a_body_may_have,
    no_more_is_read_around_a_body_than_may_be,
    origins_are_asked_by_authority,
    an_origin_is_asked_for_the_url_alone,
    what_is_no_answer_is_a_failed_one,
    a_type_of_other_bytes_is_left_out,
    coded_answers_are_failed_ones,
    what_only_the_close_ends_is_not_kept,
    an_edge_that_was_stopped_goes_on,
    a_fragment_cut_short_is_none,
    an_origin_goes_and_comes_back,
    a_hanging_origin_is_given_up,
    who_never_answers_fails_at_the_limit,
)
