"""Pages: those of the example site, those of the tables beside these tests, and long ones."""
import importlib.machinery
import importlib.util
import itertools
import os
import subprocess
import time

from harness import ASKED, HERE, PAGE, PROGRAM, UNASSEMBLED, Origin, Response, Wires, before, client, exchange, get, same, sized, told, wire

ONE = sized("HTTP/1.1 200 OK", "1")


def tables_of(kind):
    """The rows of the tables of a kind, as the script beside them reads them."""
    path = os.path.join(HERE, "..", "tables", "run")
    loader = importlib.machinery.SourceFileLoader("tables", path)
    module = importlib.util.module_from_spec(importlib.util.spec_from_loader("tables", loader))
    loader.exec_module(module)
    return module, list(module.rows(kind))


def of_case(origin, target, fields, options):
    """What `esi_edge case` prints for this page over all that the site answers."""
    site, page = origin.site, "http://a.test" + target
    urls = {page: target.partition("?")[0]}
    for path in list(site.paths) + ["/advert"]:
        urls.setdefault("http://a.test" + path, path)
    text = ["page %s\nhost a.test\n%s" % (page, fields)]
    text = [line.encode() for line in text]
    for url, path in urls.items():
        status, kind, control, body = site.answer(path)
        text.append(b"answer %d %d %s\n" % (status, len(body), url.encode()))
        text.append(b"type %s\n" % kind.encode())
        if control:
            text.append(b"control %s\n" % control.encode())
        text.append(b"body\n%s\n" % body)
    text.append(b"end\n")
    words = ["esi_edge", "case", *options]
    return subprocess.run(words, executable=PROGRAM, input=b"".join(text), stdout=subprocess.PIPE, check=True).stdout


# A target, the fields of a request, and the same fields as lines of a case text.
REQUESTS = (
    ("/", "", ""),
    ("/", "Cookie: a=1; name=Ann\r\n", "cookie a=1; name=Ann\n"),
    ("/", "Cookie: a=1\r\nCookie: name=Ann\r\n", "cookie a=1; name=Ann\n"),
    ("/", "Accept-Language: de, en;q=0.5\r\n", "language de, en;q=0.5\n"),
    ("/?search=boats&x=1", "", ""),
    ("/story?id=1", "", ""),
    ("/story?id=2", "", ""),
    ("/story", "", ""),
    ("/headlines", "", ""),
    ("/weather", "", ""),
    ("/advert", "", ""),
)


def pages_are_those_of_case():
    """The site's pages, byte for byte, by any number of workers and slots ahead."""
    for options in ((), ("--workers", "1", "--ahead", "0"), ("--workers", "16", "--ahead", "256", "--capacity", "1"), ("--levels", "1")):
        levels = options if "--levels" in options else ()
        with Origin() as origin, before(origin, *options) as edge:
            for target, fields, lines in REQUESTS:
                got = get(edge, target, fields=fields)
                kind = got.fields.get("content-type", "")
                came = b"%d %d %s\n" % (got.status, len(got.body), kind.encode()) + got.body
                same("%s %s %s" % (options, target, fields), of_case(origin, target, lines, levels), came)


def pages_are_what_origins_send():
    """What an origin sends for a page and its fragments, to the end of each connection, and what a client gets."""
    rows = (
        (PAGE + "A<esi:include src='/x'/>B", "HTTP/1.1 200 OK||1", "", (200, b"A1B")),
        (PAGE + "A<esi:include src='/x' alt='/y'/>B", "HTTP/1.1 404 Not Found||gone", "HTTP/1.1 200 OK||2", (200, b"A2B")),
        (PAGE + "A<esi:include src='/x' alt='/y'/>B", "HTTP/1.1 404 Not Found||gone", "HTTP/1.1 404 Not Found||gone", UNASSEMBLED),
        ("HTTP/1.1 200 OK||A<esi:include src='/x'/>B", "HTTP/1.1 200 OK||1", "", (200, b"A<esi:include src='/x'/>B")),
        ("HTTP/1.1 404 Not Found||gone", "", "", (404, b"gone")),
    )
    with Wires({}) as origin, before(origin) as edge:
        for row in rows:
            origin.texts.update(zip(("/p", "/x", "/y"), map(wire, row)))
            same(repr(row), row[3], told(edge))


def wires_of(answers, kept=""):
    """What an origin sends for the answers of a page's row, and how long they are kept; nothing for one that can't be fetched."""
    texts = {}
    for path, answer in answers:
        if answer is not None:
            status, is_template, body = answer
            control = ", ".join(it for it in (kept, 'content="ESI/1.0"' if is_template else "") if it)
            control = "surrogate-control: %s|" % control if control else ""
            head = "HTTP/1.1 %s It|content-type: text%s|%scontent-length: %d||" % (status, path.partition("?")[0], control, len(body))
            texts[path] = wire(head) + body.encode()
    return texts


def row_is_right(edge, origin, head, name, texts, wanted):
    """Whether a page's row is what the client gets."""
    target = "/p?" + head["query"] if "query" in head else "/p"
    origin.texts = dict(texts)
    if "/p" in texts:
        origin.texts[target] = texts["/p"]
    origin.heads.clear()
    cookie = "Cookie: %s\r\n" % head["cookie"] if "cookie" in head else ""
    got = get(edge, target, fields=cookie)
    came = "%d %s %s" % (got.status, got.fields.get("content-type", ""), got.body.decode())
    if wanted.startswith("fault"):
        wanted = "502 text/plain The page could not be assembled.\n"
    same(name, wanted, came)


def row_is_served(edge, origin, head, name, texts, wanted):
    """The same, and the origin is asked for no URL twice; which it was asked for is returned."""
    row_is_right(edge, origin, head, name, texts, wanted)
    asked = origin.asked()
    same("%s: each URL is asked once" % name, len(set(asked)), len(asked))
    return asked


def pages_are_the_same_whoever_fetches():
    """Each page of the tables, by any number of workers and slots ahead: what its row says. No URL is asked
    twice, and the log has as many answers as there were fetches."""
    module, rows = tables_of("pages")
    for levels in sorted({head.get("levels", "4") for _, head, _, _, _ in rows}):
        these = [row for row in rows if row[1].get("levels", "4") == levels]
        for workers, ahead in itertools.product((1, 2, 4, 16), (0, 1, 16, 256)):
            words = ["--levels", levels, "--workers", str(workers), "--ahead", str(ahead), "--threads", "1"]
            with Wires({}) as origin, before(origin, *words, "--log", "--accept", str(len(these))) as edge:
                asked, answers = [], []
                for file, head, name, given, wanted in these:
                    told_of = "%s of %s, by %s" % (name, file, " ".join(words))
                    asked.append(len(row_is_served(edge, origin, head, told_of, wires_of(module.answers_of(given)), wanted)))
                    # The line may come after the response.
                    answers.append(int(edge.process.stderr.readline().split()[5]))
                same("exit status", 0, edge.ends())
                same("answers in the log, by %s" % " ".join(words), asked, answers)


def pages_are_the_same_where_answers_are_ready():
    """Each page of the tables, asked for twice, where its answers are kept: then none that was had is fetched."""
    module, rows = tables_of("pages")
    for file, head, name, given, wanted in rows:
        answers = module.answers_of(given)
        kept = {path for path, answer in answers if answer is not None and answer[0] == "200"}
        with Wires({}) as origin, before(origin, "--levels", head.get("levels", "4"), "--workers", "2") as edge:
            first = row_is_served(edge, origin, head, name, wires_of(answers, "max-age=600"), wanted)
            again = row_is_served(edge, origin, head, name + " again", wires_of(answers, "max-age=600"), wanted)
            same("%s: fetched again" % name, set(), kept.intersection(first, again))


def include(path):
    return "<esi:include src='%s'/>" % path


def is_assembled(texts, wanted, workers, times):
    """A page by this many workers, several times, each URL asked once each time."""
    with Wires(texts) as origin, before(origin, "--workers", str(workers), "--ahead", "256") as edge:
        for _ in range(times):
            origin.heads.clear()
            same("by %d workers" % workers, (200, wanted), told(edge))
            same("fetches by %d workers" % workers, sorted(texts), sorted(origin.asked()))


def slots_that_answers_bring_are_fetched():
    """A page of 4 fragments, each of which includes 4 more, each of which includes one of its own; and a page
    of a thousand fragments."""
    texts = {"/p": PAGE + "".join(include("/a%d" % i) for i in range(4))}
    for i in range(4):
        texts["/a%d" % i] = PAGE + "a" + "".join(include("/b%d%d" % (i, j)) for j in range(4))
        for j in range(4):
            texts["/b%d%d" % (i, j)] = PAGE + "b" + include("/c%d%d" % (i, j))
            texts["/c%d%d" % (i, j)] = "HTTP/1.1 200 OK||c"
    tree = {path: wire(text) for path, text in texts.items()}
    for workers in (1, 2, 4, 16):
        is_assembled(tree, b"abcbcbcbc" * 4, workers, 10)
    many = {"/%d" % i: wire("HTTP/1.1 200 OK||%d" % i) for i in range(1000)}
    many["/p"] = wire(PAGE + "P" + "".join(map(include, list(many))))
    for workers in (1, 16):
        is_assembled(many, b"P" + b"".join(b"%d" % i for i in range(1000)), workers, 1)


PIECE = 250000


def of_pieces(count, millis=0):
    """What an origin sends for a page of this many fragments of 250,000 bytes, each answer after some time."""

    def late(text):
        def send(_):
            time.sleep(millis / 1000)
            return text

        return send

    page, piece = wire(PAGE + "A" + include("/x") * count + "B"), wire("HTTP/1.1 200 OK||") + b"1" * PIECE
    return {"/p": late(page), "/x": late(piece)}


def read_of(edge, pause=0.0):
    """How many bytes of the body come, and its first and last one, read with a pause after each read. Without
    one the client has ended its input after its request."""
    front, last, count = b"", b"", 0
    with client(edge, ASKED, ends=not pause) as connection:
        while True:
            try:
                more = connection.recv(65536)
            except ConnectionResetError:
                more = b""
            if not more:
                break
            front += more[:1000 - len(front)]
            last, count = more[-1:], count + len(more)
            time.sleep(pause)
    head = front.find(b"\r\n\r\n") + 4
    return count - head, front[head:head + 1] + last


def each_piece_goes_out():
    """Pages of 17 to 900 pieces of 250,000 bytes, to a client that has ended its input, and to a slow one."""
    for count, pause in ((17, 0), (41, 0), (900, 0), (200, 0.0001)):
        with Wires(of_pieces(count)) as origin, before(origin, "--client-timeout", "50000") as edge:
            same("%d pieces" % count, (2 + PIECE * count, b"AB"), read_of(edge, pause))


def a_response_has_to_be_read_in_time():
    """To read on to the end would take seven seconds, though no write waits for long: the edge hangs up."""
    with Wires(of_pieces(200)) as origin, before(origin, "--client-timeout", "400") as edge:
        count, _ = read_of(edge, 0.01)
        same("a part came (%d bytes)" % count, True, 65536 < count < PIECE * 200)


def a_page_may_take_its_time():
    """The page and its fragment take longer than a client may, and all of it comes."""
    with Wires(of_pieces(17, 700)) as origin, before(origin, "--client-timeout", "1000") as edge:
        same("17 pieces", (2 + PIECE * 17, b"AB"), read_of(edge))


def targets_have_bytes_of_targets():
    """A byte before its query that no target may have is refused, and the origin isn't asked, as by a spelling that a server
    in front takes for another folder; behind it such bytes go to the origin."""
    strange = (b"\\", b'"', b"<", b">", b"^", b"`", b"{", b"|", b"}", b"\x01", b"\x7f", b"\x80", "é".encode())
    with Wires({"/x?|": ONE, "/x?\\{^}`": ONE}) as origin, before(origin) as edge:
        for mark in (*strange, b"y\\..\\internal/"):
            for target in (b"/" + mark + b"x", b"http://a.test/" + mark + b"x?y"):
                came = Response(exchange(edge, b"GET " + target + b" HTTP/1.1\r\nHost: a.test\r\n\r\n"))
                same(repr(target), 400, came.status)
        same("what was asked for", [], origin.asked())
        same("behind the query", [(200, b"1")] * 2, [told(edge, "/x?|"), told(edge, "/x?\\{^}`")])


def a_page_of_205_has_no_body():
    """Nothing is sent under 205, whatever the origin sends: the page reaches its reader, as under 204."""
    with Wires({"/p": sized("HTTP/1.1 205 Reset Content", "12345")}) as origin, before(origin) as edge:
        same("the page", (205, b""), told(edge))


def processor_ticks(edge):
    """The processor time that a server has taken, in ticks of the system's clock."""
    with open("/proc/%d/stat" % edge.process.pid) as it:
        fields = it.read().rpartition(") ")[2].split()
    return int(fields[11]) + int(fields[12])


def a_long_field_is_searched_once_for_a_page():
    """A page that compares a cookie twenty times, or asks for a language as often, costs little more than one that does so
    once, though each is at the end of 60,000 bytes that are slow to search."""
    cookie, language = "Cookie: %sb=20\r\n" % ("ab=; " * 11900), "Accept-Language: %sbc\r\n" % ("b, " * 19900)
    for fields, test in ((cookie, "$(HTTP_COOKIE{b})=='%d'"), (language, "$(HTTP_ACCEPT_LANGUAGE{bc})=='no'|%d>19")):
        whens = ['<esi:when test="%s">%d</esi:when>' % (test % i, i) for i in range(1, 21)]
        head = 'HTTP/1.1 200 OK|surrogate-control: max-age=600, content="ESI/1.0"'
        texts = {"/%d" % count: sized(head, "<esi:choose>%s</esi:choose>" % "".join(whens[-count:])) for count in (1, 20)}
        with Wires(texts) as origin, before(origin) as edge:
            took = {}
            for target in texts:
                begun = processor_ticks(edge)
                for _ in range(100):
                    came = get(edge, target, fields=fields)
                    same(target, (200, b"20"), (came.status, came.body))
                took[target] = processor_ticks(edge) - begun
            same("ticks: %r" % took, True, took["/20"] < 3 * took["/1"] + 10)


TESTS = (
    pages_are_those_of_case,
    pages_are_what_origins_send,
    pages_are_the_same_whoever_fetches,
    pages_are_the_same_where_answers_are_ready,
    slots_that_answers_bring_are_fetched,
    each_piece_goes_out,
    a_response_has_to_be_read_in_time,
    a_page_may_take_its_time,
    targets_have_bytes_of_targets,
    a_page_of_205_has_no_body,
    a_long_field_is_searched_once_for_a_page,
)
