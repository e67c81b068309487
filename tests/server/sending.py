"""What requests to origins carry besides what the edge itself sets, and how long the bodies of answers may be."""
import re

from harness import UNASSEMBLED, Wires, all_at_once, before, client, ended, same, sized, told, wire
from keeping import of_one
from limits import ALTERNATIVE
from passing import ONE_BY_ONE_AND_AT_ONCE
from private import KEPT, KEPT_PAGE, OK, PRIVATE, SHOP, Echo, LastingEcho, body_for, include, times_asked

# The fields that the edge itself sets.
SET = ("host", "surrogate-capability", "accept-encoding", "cdn-loop", "connection", "cookie")
# An origin whose connections end, and one that keeps them.
ORIGINS = ((Echo, ()), (LastingEcho, ("--fetches", "8", "--origin-keep-alive", "16")))


def target_of(head):
    return head.split(b" ")[1].decode()


def lines_of(head):
    """The lines of a request that the edge doesn't set, by their names, those of one name in their order."""
    pairs = [line.partition(": ")[::2] for line in head.rstrip(b"\r\n").decode("latin-1").split("\r\n")[1:]]
    return sorted(((name.lower(), value) for name, value in pairs if name.lower() not in SET), key=lambda pair: pair[0])


def asked_with(origin):
    """What was asked for, and with which lines."""
    return sorted((target_of(head), lines_of(head)) for head in origin.heads)


# Pages that are kept, with a private box and without one, a private template, and what they include.
TEXTS = {
    "/": sized(KEPT_PAGE, include("/news", "/box/a")),
    "/guests": sized(KEPT_PAGE, include("/news")),
    "/cart/": sized(KEPT_PAGE, include("/box/b", "/news")),
    "/news": sized(KEPT, "news"),
    "/box/a": sized(OK, "a"),
    "/box/b": sized(OK, "b"),
}
SENT = ("--send-fields", "X-Forwarded-Proto:https", "--send-fields", "x-a: \t one, two: three\t", "--send-fields", "X-A:\u00e9", "--send-fields=x-b: 1\t2")
# As the origin gets them, byte for byte.
SENT_LINES = [("x-a", "one, two: three"), ("x-a", "\u00e9".encode().decode("latin-1")), ("x-b", "1\t2"), ("x-forwarded-proto", "https")]


def fields_to_send_come_with_each_request():
    """For a page, a fragment and a private URL, each once, their names in lower case, those of one name in their order, and their
    values without the blanks around them; whatever the reader sends. What is shared is still asked for once."""
    shared, own = ["/", "/news"], ["/box/a", "/box/a"]
    for kind, words in ORIGINS:
        with kind(TEXTS) as origin, before(origin, *PRIVATE, *SENT, *words) as edge:
            for proto in ("http", "ftp"):
                same("the page with %s" % (words,), (200, b"newsa"), body_for(edge, "/", "x-forwarded-proto: %s|x-a: of the reader|" % proto, SHOP))
            same("what was asked for with %s" % (words,), sorted((target, SENT_LINES) for target in shared + own), asked_with(origin))


def names_are_sent_in_lower_case():
    """Each with one blank behind its colon, and once."""
    with Wires({"/p": sized(OK, "1")}) as origin, before(origin, "--name", "inner", *SENT) as edge:
        same("the answer", (200, b"1"), told(edge))
        for line in (b"x-forwarded-proto: https", b"x-a: one, two: three", b"x-a: \xc3\xa9", b"x-b: 1\t2"):
            same("times that %s came" % line, 1, origin.heads[0].count(b"\r\n%s\r\n" % line))


def without_the_options_no_field_is_added():
    fields = "x-forwarded-for: 192.0.2.1|user-agent: x|x-a: 1|"
    for words in ((), PRIVATE):
        with Wires(TEXTS) as origin, before(origin, *words) as edge:
            for target, body in (("/", b"newsa"), ("/cart/", b"bnews")):
                same("%s with %s" % (target, words), (200, body), body_for(edge, target, fields, SHOP))
            same("lines that were added with %s" % (words,), [], [line for head in origin.heads for line in lines_of(head)])


FORWARDED = ("--forward-fields", "X-Forwarded-For ,\tuser-agent")
OF_A_READER = "x-forwarded-for: 192.0.2.1|User-Agent: a  (b); c|X-FORWARDED-FOR: 192.0.2.2, ::1|x-forwarded-for2: no|forwarded: for=192.0.2.1|authorization: Basic YTpi|x-forwarded-for: 192.0.2.1|"
FORWARDED_LINES = [("user-agent", "a  (b); c"), *(("x-forwarded-for", it) for it in ("192.0.2.1", "192.0.2.2, ::1", "192.0.2.1"))]


def named_fields_reach_private_urls_alone():
    """Each line of a field that is named, whatever the case of its name, as it came and in its order; for a box of a page and for a page
    of its own, beside the cookies that are named. No other field does, and no other URL's origin gets any; nor does one of a reader who
    sends none."""
    for kind, words in ORIGINS:
        with kind(TEXTS) as origin, before(origin, *PRIVATE, "--private-cookies", "SHOPSESS", *FORWARDED, *words) as edge:
            for target, body, private, shared in (("/", b"newsa", ["/box/a"], ["/", "/news"]), ("/cart/", b"bnews", ["/box/b", "/cart/"], []), ("/guests", b"news", [], ["/guests"])):
                same("%s with %s" % (target, words), (200, body), body_for(edge, target, OF_A_READER + "cookie: SHOPSESS=1|", SHOP))
                wanted = sorted([*((it, FORWARDED_LINES) for it in private), *((it, []) for it in shared)])
                same("what was asked for %s with %s" % (target, words), wanted, asked_with(origin))
                same("cookies for %s" % target, len(private), sum(b"\r\ncookie: SHOPSESS=1\r\n" in head for head in origin.heads))
                origin.heads.clear()
            same("another reader", (200, b"newsa"), body_for(edge, "/", "x-forwarded: 1|", SHOP))
            same("what was asked for him", [("/box/a", [])], asked_with(origin))


def fields_are_sent_beside_those_of_the_reader():
    """An origin of a private URL gets both."""
    for words in ONE_BY_ONE_AND_AT_ONCE:
        with Wires(TEXTS) as origin, before(origin, *PRIVATE, *FORWARDED, *SENT, *words) as edge:
            same("the page", (200, b"newsa"), body_for(edge, "/", "user-agent: x|", SHOP))
            both = sorted([*SENT_LINES, ("user-agent", "x")], key=lambda pair: pair[0])
            same("what was asked for", [("/", SENT_LINES), ("/box/a", both), ("/news", SENT_LINES)], asked_with(origin))


def box(head):
    """A private box that tells which reader it was asked for."""
    return sized(OK, "(%s)" % b"+".join(re.findall(rb"\r\nx-reader: ([^\r]*)", head)).decode("latin-1"))


TOLD = {"/": sized(KEPT_PAGE, include("/box/a", "/news", "/box/b")), "/guests": TEXTS["/guests"], "/news": TEXTS["/news"], "/box/a": box, "/box/b": box}
TARGETS = ("/", "/box/a", "/guests", "/news")


def reads_on(edge, reader, count):
    """Asks for the pages in turn over one connection, each time as another reader, now and then as nobody; what came that wasn't
    this reader's."""
    wrong = []
    with client(edge) as connection:
        for at in range(count):
            target, name = TARGETS[(at + reader) % len(TARGETS)], "%d-%d" % (reader, at) if at % 3 else ""
            connection.sendall(wire("GET %s HTTP/1.1|host: shop.test|user-agent: %d|%s|" % (target, reader, "x-reader: %s|" % name if name else "")))
            got = of_one(connection)
            wanted = {"/": "(%s)news(%s)" % (name, name), "/box/a": "(%s)" % name}.get(target, "news").encode()
            if (got.status, got.body) != (200, wanted):
                wrong.append((target, name, got.status, got.body))
    return wrong


def fields_of_readers_never_cross():
    """Thirty-two readers at once ask sixty times each for pages with boxes and without: each box is asked for with the fields of that
    very request. Each shared URL is asked for once, without any."""
    readers, each = 32, 60
    for kind, words in ORIGINS:
        with kind(TOLD) as origin, before(origin, *PRIVATE, "--forward-fields", "x-reader", "--keep-alive", "20", *words) as edge:
            came = all_at_once([lambda reader=reader: reads_on(edge, reader, each) for reader in range(readers)])
            same("boxes of others with %s" % (words,), [[]] * readers, came)
            pages = readers * each // len(TARGETS)
            same("times that each was asked for with %s" % (words,), {"/": 1, "/guests": 1, "/news": 1, "/box/a": 2 * pages, "/box/b": pages}, dict(times_asked(origin)))
            same("shared URLs with a reader's field", [], [target_of(head) for head in origin.heads if b"/box/" not in head and lines_of(head)])


# Which fields no request can be told to carry: those of a connection, those that the edge sets or that tell of a body, and those that
# change what the answer is.
NOT_CARRIED = (
    "connection", "keep-alive", "proxy-authenticate", "proxy-authorization", "proxy-connection", "te", "trailer", "transfer-encoding", "upgrade",
    "accept-encoding", "cdn-loop", "content-length", "content-type", "cookie", "expect", "host", "surrogate-capability",
    "if-match", "if-modified-since", "if-none-match", "if-range", "if-unmodified-since", "range",
)
HERE = ("--listen", "127.0.0.1:0")
BEHIND = b"none that the edge sets, nor one of a connection, a body, a condition or a range\n"


def taken(*words):
    """That an edge with these options listens."""
    status, printed, _ = ended(*HERE, *words, "--accept", "0")
    same(repr(words)[:200], (0, True), (status, printed.startswith(b"listening on ")))


def fields_that_are_not_sent_are_told():
    """No colon, a name that is no token or of a field that requests can't be told to carry, whatever the case of its letters, no value
    or one that HTTP can't carry, and more than 8,192 bytes together: status 2, and a line. Other fields are taken."""
    said = b"error: --send-fields takes a field with a value, as x-forwarded-proto: https, and at most 8192 bytes of fields; " + BEHIND
    words = [
        "", " ", ":", "x-a", "x-a 1", "x-a=1", "x-a:", "x-a: \t ", ": 1", " x-a: 1", "x-a : 1", "x a: 1", "x-a\t: 1", "x/a: 1", "x-\u00e9: 1", '"x-a": 1',
        "x-a: 1\n", "x-a: 1\nx-b: 2", "x-a: 1\rx-b: 2", "x-a: \x7f", "x-a: \x01", "x-a: \x1b[0m", "x-a: " + "b" * 8190, "n" * 8192 + ": 1",
    ]
    for name in NOT_CARRIED:
        words += [name + ": 1", name.title() + ":1", name.upper() + ":\t1"]
    for word in words:
        same(repr(word)[:200], (2, b"", said), ended(*HERE, "--send-fields=" + word))
        same(repr(word)[:200] + " behind another", (2, b"", said), ended(*HERE, "--send-fields=x-c: 3", "--send-fields=" + word))
    same("together", (2, b"", said), ended(*HERE, "--send-fields=x-a: " + "b" * 4093, "--send-fields=x-b: " + "b" * 4094))
    taken("--send-fields=x-a: " + "b" * 4093, "--send-fields=x-b: " + "b" * 4093)
    for word in ("x-a:1", "X-A: \t1\t ", "x-a: a\tb", "x-a: :", "x-a: \u00e9", "!#$%&'*+-.^_`|~: 1", "x-a: " + "b" * 8189, *("x%s: 1" % name for name in NOT_CARRIED)):
        taken("--send-fields=" + word)


def names_of_fields_that_are_not_forwarded_are_told():
    """No names, an empty one, one that is no token or too long, one of a field that requests can't be told to carry, and any where no
    URL is private: status 2, and a line. Other names are taken, with blanks around them."""
    said = b"error: --forward-fields takes names of fields with commas between, as x-forwarded-for,user-agent, beside --private; " + BEHIND
    words = ["", " ", ",", "a,", ",a", "a,,b", "a b", "a:", "a\n", "\u00e9", "n" * 65, "a," + "n" * 65]
    for name in NOT_CARRIED:
        words += [name, name.title(), name.upper() + ",x-a", "x-a ,\t%s " % name]
    for word in words:
        same(repr(word), (2, b"", said), ended(*HERE, *PRIVATE, "--forward-fields=" + word))
    same("no private URL", (2, b"", said), ended(*HERE, "--forward-fields", "user-agent"))
    for word in ("user-agent", " X-Forwarded-For ,\tuser-agent\t", "n" * 64, "a,a,A", *("x" + name for name in NOT_CARRIED)):
        taken(*PRIVATE, "--forward-fields=" + word)


def bodies_of(head, length):
    """Answers with so many bytes of a body, by its length, in chunks, and up to the end of their connection."""
    body = b"x" * length
    return {
        "/length": sized(head, "x" * length),
        "/chunks": wire(head + "|transfer-encoding: chunked||") + b"%x\r\n%s\r\n0\r\n\r\n" % (length, body),
        "/end": wire(head + "||") + body,
    }


def bodies_are_no_longer_than_their_limit():
    """An answer of as many bytes as --body-bytes says comes, as a page and as a fragment, however its length is told. With one byte more
    it can't be fetched: the page is 502, and the fragment has failed. A larger --template-bytes changes nothing."""
    rows = (((), 262144), (("--body-bytes", "262144"), 262144), (("--body-bytes", "300000"), 300000), (("--body-bytes", "299999", "--template-bytes", "16777216"), 299999))
    for words, most in rows:
        for length in (most, most + 1):
            comes = length == most
            texts = bodies_of(OK, length)
            texts.update(("/in" + target, sized(KEPT_PAGE, ALTERNATIVE % target)) for target in tuple(texts))
            with Wires(texts) as origin, before(origin, *words) as edge:
                for target in ("/length", "/chunks", "/end"):
                    what = "%s of %d bytes with %s" % (target, length, words)
                    # Compared first: what is so long isn't to be printed.
                    same("whether %s comes" % what, True, told(edge, target) == ((200, b"x" * length) if comes else UNASSEMBLED))
                    same("whether it does in a page", True, told(edge, "/in" + target) == (200, b"x" * length if comes else b"late"))


def templates_are_no_longer_than_theirs():
    """So is a template with --template-bytes, as a page and as a fragment, whatever --body-bytes says."""
    rows = (((), 262144), (("--body-bytes", "16777216"), 262144), (("--template-bytes", "300000"), 300000), (("--template-bytes", "299999", "--body-bytes", "300000"), 299999))
    for words, most in rows:
        for length in (most, most + 1):
            comes = length == most
            begins = include("/x")
            texts = {"/p": sized(KEPT_PAGE, begins + "x" * (length - len(begins))), "/x": sized(KEPT, "1"), "/in": sized(KEPT_PAGE, ALTERNATIVE % "/p")}
            with Wires(texts) as origin, before(origin, *words) as edge:
                whole = b"1" + b"x" * (length - len(begins))
                # Compared first: what is so long isn't to be printed.
                same("whether a page of %d bytes comes with %s" % (length, words), True, told(edge) == ((200, whole) if comes else UNASSEMBLED))
                same("whether it does as a fragment", True, told(edge, "/in") == (200, whole if comes else b"late"))


def the_longest_body_comes_whole():
    """16 MiB, as they were sent, and from the cache; a byte more doesn't."""
    body = "".join("%015x\n" % at for at in range(1 << 20))
    texts = {"/p": sized(KEPT, body), "/more": sized(KEPT, body + "\n")}
    with Wires(texts) as origin, before(origin, "--body-bytes", "16777216") as edge:
        for _ in range(2):
            same("whether it is whole", True, told(edge) == (200, body.encode()))
        same("a byte more", UNASSEMBLED, told(edge, "/more"))
        same("times that each was asked for", {"/p": 1, "/more": 1}, dict(times_asked(origin)))


TESTS = (
    fields_to_send_come_with_each_request,
    names_are_sent_in_lower_case,
    without_the_options_no_field_is_added,
    named_fields_reach_private_urls_alone,
    fields_are_sent_beside_those_of_the_reader,
    fields_of_readers_never_cross,
    fields_that_are_not_sent_are_told,
    names_of_fields_that_are_not_forwarded_are_told,
    bodies_are_no_longer_than_their_limit,
    templates_are_no_longer_than_theirs,
    the_longest_body_comes_whole,
)
