"""Private URLs: each request has their answers for itself, asked for with its reader's cookies, and nobody else gets them."""
import collections
import re
import time

from circles import ways_of
from harness import PAGE, UNASSEMBLED, Wires, all_at_once, before, client, exchange, get, rest, same, sized, wire
from keeping import of_one, responses_of
from operating import ADMIN, Desk, metrics, of
from passing import ONE_BY_ONE_AND_AT_ONCE, TEMPLATE_HEAD, lines_of
from reusing import Lasting
from sharing import Meeting

SHOP = "shop.test"
PRIVATE = ("--private", "http://shop.test/box/, http://shop.test/cart/")
OPTIONS = (*PRIVATE, "--private-cookies", "SHOPSESS, other")
ONE_LINE = "cookie: SHOPSESS=1|"
OK = "HTTP/1.1 200 OK"
KEPT = OK + "|surrogate-control: max-age=600"
KEPT_PAGE = KEPT + ', content="ESI/1.0"'
FAILING = sized("HTTP/1.1 500 Failing", "5")
# What a response says that rests on a private answer.
FOR_ITS_READER = [("cache-control", "private, no-cache")]


def cookie_in(head):
    """What a request says in `cookie`, with a plus between its lines."""
    return b"+".join(re.findall(rb"\r\ncookie: ([^\r]*)", head, re.I)).decode("latin-1")


def box(head):
    """A private box that tells which cookies it was asked with, and that it may be kept."""
    return sized(KEPT, "(%s)" % cookie_in(head))


def text_for(texts, head):
    text = texts.get(head.split(b" ")[1].decode(), b"")
    return text(head) if callable(text) else text


class Echo(Wires):
    """An origin some of whose texts are functions of the head that asks for them."""

    def asked_of(self, connection):
        return super().asked_of(connection) and text_for(self.texts, self.heads[-1])


class LastingEcho(Lasting):
    """The same, which keeps its connections."""

    def __init__(self, texts):
        self.texts = texts
        super().__init__()

    def answer_to(self, head, count):
        return text_for(self.texts, head), False


def asked_with(head):
    """The host and the target that a head asks for, and its cookies."""
    return re.search(rb"\r\nhost: ([^\r]*)", head)[1].decode(), head.split(b" ")[1].decode(), cookie_in(head)


def times_asked(origin):
    return collections.Counter(head.split(b" ")[1].decode() for head in origin.heads)


def body_for(edge, target, fields, host=SHOP):
    """The status and the body of a response to a request with these lines."""
    got = get(edge, target, host, wire(fields).decode())
    return got.status, got.body


def read(edge, target, cookie="", host=SHOP):
    """What a reader with these cookies gets."""
    return body_for(edge, target, "cookie: %s|" % cookie if cookie else "", host)


def include(*sources):
    return "".join("<esi:include src='%s'/>" % source for source in sources)


# Pages that are kept, with and without a private box, private ones, of which one is a template, and a fragment of all.
TARGETS = ("/", "/box/a", "/news", "/cart/", "/guests")
TEXTS = {
    "/": sized(KEPT_PAGE, "%s, %s, %s" % (include("/box/a"), include("/news"), include("/box/b?c=1"))),
    "/box/a": box,
    "/box/b?c=1": box,
    "/news": sized(KEPT, "news"),
    "/cart/": lambda head: sized(KEPT_PAGE, "%s: %s, %s" % (cookie_in(head), include("/box/a"), include("/news"))),
    "/guests": sized(KEPT_PAGE, include("/news")),
}


def page_of(target, cookie):
    """What the reader with this cookie gets there."""
    own = "(%s)" % cookie
    texts = {"/": "%s, news, %s" % (own, own), "/box/a": own, "/cart/": "%s: %s, news" % (cookie, own)}
    return texts.get(target, "news").encode()


def reads_on(edge, reader, count):
    """Asks for the pages in turn over one connection, each time with another cookie, and now and then with none that is told;
    what came that wasn't this reader's."""
    wrong = []
    with client(edge) as connection:
        for at in range(count):
            target, cookie = TARGETS[(at + reader // 2) % len(TARGETS)], "SHOPSESS=%d-%d" % (reader, at) if at % 3 else ""
            fields = "cookie: theme=%d|%s" % (reader, "cookie: %s|" % cookie if cookie else "")
            connection.sendall(wire("GET %s HTTP/1.1|host: shop.test|%s|" % (target, fields)))
            got = of_one(connection)
            if (got.status, got.body) != (200, page_of(target, cookie)):
                wrong.append((target, cookie, got.status, got.body))
    return wrong


def boxes_of_readers_never_cross():
    """Sixteen readers ask ten thousand times for the pages of a shop, always some for the same one at once: each gets the boxes of
    the cookie of that very request. Each shared URL is asked for once, and each private one for each page that has it."""
    readers, requests = 16, 10000
    for kind, words in ((Echo, ()), (LastingEcho, ("--fetches", "8", "--origin-keep-alive", "16"))):
        each = requests // 2 // readers // len(TARGETS) * len(TARGETS)
        with kind(TEXTS) as origin, before(origin, *OPTIONS, "--keep-alive", "20", *words) as edge:
            came = all_at_once([lambda reader=reader: reads_on(edge, reader, each) for reader in range(readers)])
            same("pages of others with %s" % (words,), [[]] * readers, came)
            pages = readers * each // len(TARGETS)
            wanted = {"/": 1, "/news": 1, "/guests": 1, "/cart/": pages, "/box/b?c=1": pages, "/box/a": 3 * pages}
            same("times that each was asked for with %s" % (words,), wanted, dict(times_asked(origin)))


def equal_private_urls_are_fetched_for_each_reader():
    """Eight readers at once: no box is sent before all are asked for, and each reader gets his own, also where two threads serve all
    these pages. What they share is asked for once."""
    names = ["SHOPSESS=%d" % at for at in range(8)]
    for words in ((), ("--fetches", "8", "--threads", "2")):
        for target, wanted, shared in (("/box/a", "(%s)", {}), ("/p", "news(%s)", {"/p": 1, "/news": 1})):
            meeting = Meeting(len(names))
            texts = {"/p": sized(KEPT_PAGE, include("/news", "/box/a")), "/news": TEXTS["/news"], "/box/a": lambda head: meeting.of(box(head))}
            with Echo(texts) as origin, before(origin, *OPTIONS, *words) as edge:
                came = all_at_once([lambda name=name: read(edge, target, name) for name in names])
                same("boxes at %s with %s" % (target, words), [(200, (wanted % name).encode()) for name in names], sorted(came))
                same("boxes that were sent before all were asked for", 0, meeting.gave_up)
                same("times asked for %s with %s" % (target, words), {**shared, "/box/a": len(names)}, times_asked(origin))


def requests_sent_at_once_have_their_own_cookies():
    """Sixty over one connection, by a client that doesn't wait for responses: each is made with the cookies of its own lines."""
    rows = [(TARGETS[at % len(TARGETS)], "SHOPSESS=%d" % at if at % 3 else "") for at in range(60)]
    sent = "".join("GET %s HTTP/1.1|host: shop.test|%s|" % (target, "cookie: %s|" % cookie if cookie else "") for target, cookie in rows)
    for words in ONE_BY_ONE_AND_AT_ONCE:
        with Echo(TEXTS) as origin, before(origin, *OPTIONS, "--keep-alive", "20", *words) as edge:
            with client(edge, wire(sent), ends=True) as connection:
                came = [(it.status, it.body) for it in responses_of(rest(connection))]
            same("pages with %s" % (words,), [(200, page_of(target, cookie)) for target, cookie in rows], came)


def a_page_asks_for_a_private_url_once():
    """However often it has the box, also in a fragment."""
    texts = {"/": sized(KEPT_PAGE, include("/box/a", "/frame", "/box/a")), "/frame": sized(KEPT_PAGE, include("/box/a")), "/box/a": box}
    for words in ONE_BY_ONE_AND_AT_ONCE:
        with Echo(texts) as origin, before(origin, *OPTIONS, *words) as edge:
            for name in ("SHOPSESS=1", "SHOPSESS=2"):
                same("a page with %s" % (words,), (200, ("(%s)" % name).encode() * 3), read(edge, "/", name))
            same("times asked", {"/": 1, "/frame": 1, "/box/a": 2}, times_asked(origin))


def a_late_answer_reaches_nobody_else():
    """Over connections to the origin that are kept, boxes that come after the time for their fetch: their readers have none, and
    those who ask meanwhile and afterwards get their own."""
    late = {"/box/a": lambda head: (1.2, box(head)) if b"late" in head else box(head)}
    names = ["SHOPSESS=%d" % at for at in range(4)]
    for words in ONE_BY_ONE_AND_AT_ONCE:
        with LastingEcho(late) as origin, before(origin, *OPTIONS, "--origin-keep-alive", "4", "--timeout", "800", *words) as edge:
            own = lambda: same("with %s" % (words,), [(200, b"(%s)" % it.encode()) for it in names], [read(edge, "/box/a", it) for it in names])
            own()
            same("too late", [UNASSEMBLED] * 4, all_at_once([lambda: read(edge, "/box/a", "SHOPSESS=late")] * 4))
            own()
            time.sleep(0.6)
            own()


ASKED = 'GET %s HTTP/1.1|host: shop.test|surrogate-capability: edge1="Surrogate/1.0 ESI/1.0"|connection: close|accept-encoding: identity|'
OF_THE_READER = "user-agent: x|authorization: Basic YTpi|referer: http://a.test/|accept-language: de|x-forwarded-for: 192.0.2.1|if-none-match: \"1\"|"


def origins_are_told_named_cookies_alone():
    """What a reader sends, and what the origin of a private URL is told: the cookies that are named, each time that they come and
    as they came, and nothing else of him."""
    rows = (
        ("", ""),
        ("cookie: theme=dark|", ""),
        ("cookie: SHOPSESS=1|", "SHOPSESS=1"),
        ("cookie: a=1; SHOPSESS=x=y|cookie: shopsess=2; Other=3; SHOPSESSION=4|Cookie: other=5;SHOPSESS=6|", "SHOPSESS=x=y; other=5; SHOPSESS=6"),
        ("cookie: SHOPSESS; other; =SHOPSESS; x=SHOPSESS=1|", ""),
        ('cookie: SHOPSESS=; other="a, b"|', 'SHOPSESS=; other="a, b"'),
        ("cookie: __Host-SHOPSESS=1; SHOPSESS2=1|", ""),
    )
    for words in ONE_BY_ONE_AND_AT_ONCE:
        with Echo(TEXTS) as origin, before(origin, *OPTIONS, *words) as edge:
            for fields, told in rows:
                same("what %s gets" % fields, (200, b"(%s)" % told.encode()), body_for(edge, "/box/a", fields + OF_THE_READER))
                cookie = "cookie: %s|" % told if told else ""
                same("what is told of %s" % fields, [wire(ASKED % "/box/a" + cookie + "|")], origin.heads)
                origin.heads.clear()
    with Echo(TEXTS) as origin, before(origin, *PRIVATE) as edge:
        same("without names", (200, b"()"), read(edge, "/box/a", "SHOPSESS=1"))
        same("what is told", [wire(ASKED % "/box/a" + "|")], origin.heads)


# What a page of shop.test includes, and the host and the target that are asked for: private ones, and those that only look so.
OWN = (
    ("/box/", SHOP, "/box/"),
    ("/box/a?http://other.test/", SHOP, "/box/a?http://other.test/"),
    ("/x/../box/b", SHOP, "/box/b"),
    ("/./box/%2e/c", SHOP, "/box/c"),
    ("http://SHOP.test/box/d", SHOP, "/box/d"),
    ("//shop.test:80/box/e", SHOP, "/box/e"),
    ("\\box\\f", SHOP, "/box/f"),
    ("/cart//g", SHOP, "/cart//g"),
    ("/box/h#x", SHOP, "/box/h"),
)
OTHERS = (
    ("/boxed", SHOP, "/boxed"),
    ("/box", SHOP, "/box"),
    ("/Box/a", SHOP, "/Box/a"),
    ("/b%6fx/a", SHOP, "/b%6fx/a"),
    ("/x/box/a", SHOP, "/x/box/a"),
    ("/?/box/a", SHOP, "/?/box/a"),
    ("/box/../1", SHOP, "/1"),
    ("/box/%2E%2e/2", SHOP, "/2"),
    ("//other.test/box/a", "other.test", "/box/a"),
    ("//shop.test.other.test/box/a", "shop.test.other.test", "/box/a"),
    ("//www.shop.test/box/a", "www.shop.test", "/box/a"),
    ("//shop.test:8080/box/a", "shop.test:8080", "/box/a"),
    ("//shop.test./box/a", "shop.test.", "/box/a"),
    ("http://other.test/?http://shop.test/box/", "other.test", "/?http://shop.test/box/"),
)


def cookies_reach_private_urls_alone():
    """However a URL is written, and whichever host its page has, the one that is asked for counts: its host with its port, and its
    path from the first byte."""
    texts = {target: box for _, _, target in OWN + OTHERS}
    texts["/p"] = sized(KEPT_PAGE, include(*(source for source, _, _ in OWN + OTHERS)))
    texts["/q"] = sized(KEPT_PAGE, include("http://shop.test/box/d", "/box/d"))
    wanted = sorted([*((host, target, "SHOPSESS=1") for _, host, target in OWN), *((host, target, "") for _, host, target in OTHERS), (SHOP, "/p", "")])
    for words in ONE_BY_ONE_AND_AT_ONCE:
        with Echo(texts) as origin, before(origin, *OPTIONS, *words) as edge:
            same("the page", (200, b"(SHOPSESS=1)" * len(OWN) + b"()" * len(OTHERS)), read(edge, "/p", "SHOPSESS=1"))
            same("what was asked for", wanted, sorted(asked_with(head) for head in origin.heads))
            same("a page of another host", (200, b"(SHOPSESS=1)()"), read(edge, "/q", "SHOPSESS=1", "other.test"))
            for host, told in (("SHOP.test", "SHOPSESS=1"), ("shop.test:80", "SHOPSESS=1"), ("www.shop.test", ""), ("shop.test:8080", "")):
                same("a page of " + host, (200, ("(%s)" % told).encode()), read(edge, "/box/a", "SHOPSESS=1", host))


def edges_in_a_row_tell_the_way_and_the_cookies():
    """An edge with a name tells the origin of a private URL both, and that of another its way alone."""
    for words in ONE_BY_ONE_AND_AT_ONCE:
        with Echo(TEXTS) as origin, before(origin, *OPTIONS, "--name", "inner", *words) as edge:
            for passed, way in (("", "inner"), ("cdn-loop: outer|", "outer, inner")):
                for target, cookie in (("/box/a", "SHOPSESS=1"), ("/none", "")):
                    body_for(edge, target, ONE_LINE + passed)
                    same("the ways of %s" % target, [way], ways_of(origin))
                    same("the cookies of %s" % target, [cookie], [cookie_in(head) for head in origin.heads])
                    origin.heads.clear()


def private_answers_are_kept_nowhere():
    """Whatever they say of that: each request has them asked for, the cache is not looked at, and there is nothing to purge."""
    texts = {
        "/x": sized(OK + "|surrogate-control: max-age=60+60", "1"),
        "/box/a": sized(OK + "|surrogate-control: max-age=60+60", "2"),
        "/box/b": sized(OK + "|cache-control: public, s-maxage=60, stale-if-error=60", "3"),
        "/cart/": sized(KEPT_PAGE, include("/box/a", "/x", "/box/b")),
    }
    for words in ONE_BY_ONE_AND_AT_ONCE:
        with Wires(texts) as origin, before(origin, *OPTIONS, *ADMIN, "--cache-control", *words) as edge:
            desk = Desk(edge)
            for at in range(3):
                same("round %d" % at, [(200, b"1"), (200, b"2"), (200, b"3"), (200, b"213")], [read(edge, target, "SHOPSESS=1") for target in texts])
            same("times asked", {"/x": 1, "/box/a": 6, "/box/b": 6, "/cart/": 3}, times_asked(origin))
            samples = metrics(desk)
            same("answers that are kept", 1, samples["esi_edge_cache_answers"])
            same("look-ups, of the shared one alone", 6, sum(of(samples, "esi_edge_cache_lookups_total").values()))
            same("a purge of the private ones", b"purged 0\n", desk.ask("/purge?prefix=http://shop.test/box/", "POST").body)
            same("a purge of all", b"purged 1\n", desk.ask("/purge?prefix=http://", "POST").body)


def private_urls_are_neither_bridged_nor_rest():
    """Once it fails, a private URL fails, though an older answer could stand in; it is asked for each time, also with --url-rest, and
    is there again at once. A shared one beside it is bridged, and rests."""
    bridged, well = OK + "|surrogate-control: max-age=1+600", {"/x": (200, b"1"), "/box/a": (200, b"2"), "/box/b": (200, b"3")}
    failed = {"/x": (200, b"1"), "/box/a": (500, b"5"), "/box/b": UNASSEMBLED}
    for words in ONE_BY_ONE_AND_AT_ONCE:
        for resting, asked in ((("--url-rest", "600"), 2), ((), 4)):
            with Wires({target: sized(bridged, body.decode()) for target, (_, body) in well.items()}) as origin, before(origin, *OPTIONS, *words, *resting) as edge:
                again = dict(origin.texts)
                same("at first", well, {target: read(edge, target) for target in well})
                time.sleep(1.1)
                origin.texts.update({"/x": FAILING, "/box/a": FAILING, "/box/b": b""})
                for _ in range(3):
                    same("once the origin fails, with %s" % (resting,), failed, {target: read(edge, target) for target in well})
                same("times asked with %s" % (resting,), {"/x": asked, "/box/a": 4, "/box/b": 4}, times_asked(origin))
                origin.texts.update(again)
                same("and well again", well, {target: read(edge, target) for target in well})


CHOSEN = "<esi:choose><esi:when test='$(HTTP_COOKIE{SHOPSESS})'>%s</esi:when><esi:otherwise>guest</esi:otherwise></esi:choose>" % include("/box/a")
SPARE = "<esi:try><esi:attempt>1</esi:attempt><esi:except>%s</esi:except></esi:try>" % include("/box/a")
# Pages that rest on a private answer, each with its status: also where that is the page itself, isn't there, or can't be had.
FOR_ONE = {
    "/": (200, include("/box/a")),
    "/deep": (200, include("/frame")),
    "/frame": (200, include("/news", "/box/a")),
    "/excused": (200, "<esi:include src='/box/none' onerror='continue'/>"),
    "/refused": (502, include("/box/none")),
    "/cut": (502, include("/box/cut")),
    "/chosen": (200, CHOSEN),
    "/cart/": (200, include("/news")),
}
# And those that rest on none, though one is named or would be taken for another reader.
FOR_ALL = {
    "/guests": (200, include("/news")),
    "/spare": (200, SPARE),
    "/inline": (200, "<esi:inline name='/box/a'>1</esi:inline>" + include("/box/a")),
    "/removed": (200, "<esi:remove>%s</esi:remove>" % include("/box/a")),
    "/gap": (502, include("/none")),
}


def responses_of_private_answers_say_so():
    """A response that rests on a private answer is private, whatever its page says of caches; no other is."""
    said = "cache-control: public, max-age=600|Cache-Control: s-maxage=600"
    texts = {target: sized("%s|%s" % (KEPT_PAGE, said), body) for target, (_, body) in {**FOR_ONE, **FOR_ALL}.items()}
    texts.update({"/news": sized(OK + "|" + said, "1"), "/box/a": sized(OK + "|" + said, "2"), "/box/none": sized("HTTP/1.1 404 Not Found|" + said, "4")})
    public = [("cache-control", "public, max-age=600"), ("cache-control", "s-maxage=600")]
    rows = [(target, ONE_LINE, (status, FOR_ITS_READER)) for target, (status, _) in FOR_ONE.items()]
    rows += [("/box/a", "", (200, FOR_ITS_READER)), ("/box/none", "", (404, FOR_ITS_READER)), ("/box/cut", "", (502, FOR_ITS_READER))]
    rows += [(target, ONE_LINE, (status, public if status == 200 else [])) for target, (status, _) in FOR_ALL.items()]
    rows += [("/chosen", "", (200, public)), ("/news", ONE_LINE, (200, public)), ("/none", ONE_LINE, (502, []))]
    for words in ONE_BY_ONE_AND_AT_ONCE:
        for passed in (("--pass-fields", "cache-control"), ()):
            with Echo(texts) as origin, before(origin, *OPTIONS, "--ahead", "0", "--head", *passed, *words) as edge:
                for target, cookie, wanted in rows:
                    wanted = wanted if passed or wanted[1] == FOR_ITS_READER else (wanted[0], [])
                    for method in ("GET", "HEAD"):
                        same("%s %s of %r with %s" % (method, target, cookie, passed), wanted, lines_of(edge, target, method, SHOP, cookie))


def no_other_field_lets_private_answers_be_kept():
    """What some caches heed before `cache-control` is left out of a response that rests on a private answer, and of no other."""
    others = [("expires", "Wed, 30 Dec 2026 00:00:00 GMT"), ("cdn-cache-control", "max-age=600"), ("x-accel-expires", "600")]
    lines = "|".join("%s: %s" % line for line in (*others, ("x-other", "it")))
    texts = {"/page": wire("%s%s||%s" % (TEMPLATE_HEAD, lines, include("/box/a"))), "/box/a": sized("%s|%s" % (OK, lines), "1"), "/x": sized("%s|%s" % (OK, lines), "2")}
    with Wires(texts) as origin, before(origin, *OPTIONS, "--pass-fields", "x-other,expires,cdn-cache-control,x-accel-expires") as edge:
        for target in ("/page", "/box/a"):
            same(target, (200, sorted([*FOR_ITS_READER, ("x-other", "it")])), told_sorted(edge, target))
        same("/x", (200, sorted([*others, ("x-other", "it")])), told_sorted(edge, "/x"))


def told_sorted(edge, target):
    status, lines = lines_of(edge, target, "GET", SHOP)
    return status, sorted(lines)


def private_pages_alone_set_cookies():
    """With `set-cookie` passed each line of a private page's own answer comes, and none of a page for all, kept or not, nor of a
    fragment, private or not."""
    lines = ("SHOPSESS=1; Path=/; HttpOnly", "other=2; Expires=Wed, 30 Dec 2026 00:00:00 GMT", "SHOPSESS=3")
    own = "Set-Cookie: %s|location: /cart/|set-cookie: %s|x-other: it|SET-COOKIE: %s" % lines
    texts = {
        "/box/a": sized("%s|%s" % (OK, own), "1"),
        "/box/moved": sized("HTTP/1.1 303 See Other|" + own, ""),
        "/box/page": wire("%s%s||%s" % (TEMPLATE_HEAD, own, include("/box/a", "/x"))),
        "/box/plain": wire(PAGE + include("/box/a", "/x")),
        "/x": sized("%s|%s" % (OK, own), "2"),
        "/kept": sized("%s|%s" % (KEPT, own), "3"),
        "/page": wire("%s%s||%s" % (TEMPLATE_HEAD, own, include("/box/a"))),
    }
    location, cookies = [("location", "/cart/")], [("set-cookie", it) for it in lines]
    rows = (
        ("/box/a", 200, [*cookies, *location, *FOR_ITS_READER]),
        ("/box/moved", 303, [*cookies, *location, *FOR_ITS_READER]),
        ("/box/page", 200, [*cookies, *location, *FOR_ITS_READER]),
        ("/box/plain", 200, FOR_ITS_READER),
        ("/x", 200, location),
        ("/kept", 200, location),
        ("/kept", 200, location),
        ("/page", 200, [*location, *FOR_ITS_READER]),
    )
    for words in ONE_BY_ONE_AND_AT_ONCE:
        with Wires(texts) as origin, before(origin, *OPTIONS, "--pass-fields", "location, Set-Cookie", *words) as edge:
            for target, status, fields in rows:
                came = lines_of(edge, target, host=SHOP, fields=ONE_LINE)
                same("lines of %s with %s" % (target, words), (status, sorted(fields)), (came[0], sorted(came[1])))
                same("cookies in their order", [it for it in fields if it[0] == "set-cookie"], [it for it in came[1] if it[0] == "set-cookie"])


def without_the_options_no_url_is_private():
    """Nor is one that begins otherwise: to the byte each page, and each request to an origin, is what it was."""
    head = "HTTP/1.1 200 OK|date: now|connection: close|content-length: %d||"
    for words in ((), ("--private", "http://other.test/box/", "--private-cookies", "SHOPSESS")):
        with Echo(TEXTS) as origin, before(origin, *words) as edge:
            for _ in range(2):
                for target, body in (("/", b"(), news, ()"), ("/box/a", b"()"), ("/cart/", b": (), news"), ("/news", b"news")):
                    came = exchange(edge, wire("GET %s HTTP/1.1|host: shop.test|cookie: SHOPSESS=1; other=2||" % target))
                    same("%s with %s" % (target, words), wire(head % len(body)) + body, re.sub(rb"\r\ndate: [^\r]*", b"\r\ndate: now", came))
            same("what was asked for", sorted(wire(ASKED % target + "|") for target in ("/", "/box/a", "/news", "/box/b?c=1", "/cart/")), sorted(origin.heads))


TESTS = (
    boxes_of_readers_never_cross,
    equal_private_urls_are_fetched_for_each_reader,
    requests_sent_at_once_have_their_own_cookies,
    a_page_asks_for_a_private_url_once,
    a_late_answer_reaches_nobody_else,
    origins_are_told_named_cookies_alone,
    cookies_reach_private_urls_alone,
    edges_in_a_row_tell_the_way_and_the_cookies,
    private_answers_are_kept_nowhere,
    private_urls_are_neither_bridged_nor_rest,
    responses_of_private_answers_say_so,
    no_other_field_lets_private_answers_be_kept,
    private_pages_alone_set_cookies,
    without_the_options_no_url_is_private,
)
