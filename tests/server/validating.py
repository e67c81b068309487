"""Entity tags of pages, and pages that a client has already."""
import collections
import hashlib

from harness import PAGE, UNASSEMBLED, Wires, before, exchange, same, sized, told, wire
from logs import of_json
from passing import ONE_BY_ONE_AND_AT_ONCE, TEMPLATE_HEAD, lines_of

TYPED = "content-type: text/plain"
TEXTS = {
    "/p": wire("%s%s||[<esi:include src='/x'/>]" % (TEMPLATE_HEAD, TYPED)),
    "/x": sized("HTTP/1.1 200 OK|" + TYPED, "1"),
    "/plain": sized("HTTP/1.1 200 OK|etag: \"own\"|" + TYPED, "plain"),
    "/missing": sized("HTTP/1.1 404 Not Found|" + TYPED, "none"),
    "/moved": sized("HTTP/1.1 302 Found|location: /p", "moved"),
    "/fails": wire(PAGE + "<esi:include src='/none'/>"),
}


def tag_of(body):
    """The tag of a page with this body."""
    return '"%s"' % hashlib.sha256(body).hexdigest()


def has(*tags):
    """The lines of a request of a client that has what these tags are of."""
    return "".join("if-none-match: %s|" % tag for tag in tags)


def asked(edge, target, fields="", method="GET"):
    """The status of a response, its tags, whether it has a type, and its body."""
    head, _, body = exchange(edge, wire("%s %s HTTP/1.1|host: a.test|%s|" % (method, target, fields))).partition(b"\r\n\r\n")
    lines = [line.partition(b": ") for line in head.split(b"\r\n")[1:]]
    tags = [value.decode() for name, _, value in lines if name.lower() == b"etag"]
    return int(head.split(b" ")[1]), tags, b"content-type" in [name.lower() for name, _, _ in lines], body


def pages_have_tags_of_their_bytes():
    """A page that is as it should be has the tag of its bytes, to HEAD too; one that failed, or has another status, has none. Without
    the option none has."""
    tag = tag_of(b"[1]")
    for words in ONE_BY_ONE_AND_AT_ONCE:
        with Wires(TEXTS) as origin, before(origin, "--etag", "--head", *words) as edge:
            same("a page with %s" % (words,), (200, [tag], True, b"[1]"), asked(edge, "/p"))
            same("to HEAD", (200, [tag], True, b""), asked(edge, "/p", method="HEAD"))
            same("what isn't processed", (200, [tag_of(b"plain")], True, b"plain"), asked(edge, "/plain"))
            same("a page that isn't there", (404, [], True, b"none"), asked(edge, "/missing"))
            same("one that has moved", (302, [], False, b"moved"), asked(edge, "/moved"))
            same("one that fails", [], asked(edge, "/fails")[1])
            same("one that can't be assembled", UNASSEMBLED, told(edge, "/fails"))
        with Wires(TEXTS) as origin, before(origin, *words) as edge:
            same("without the option", (200, [], True, b"[1]"), asked(edge, "/p", has(tag)))


def what_a_client_has_is_not_sent():
    """304 with the tag, and neither type nor body, to whoever names the tag, weak or strong, among others, on one of several lines, or
    any; the page to everybody else. The log says what was sent."""
    tag = tag_of(b"[1]")
    known = (has(tag), has("W/" + tag), has('"a", %s ,"b"' % tag), has('"a"', tag), has("*"), has('"a"', "*"))
    others = (has('"a"'), has(tag.strip('"')), has(tag.upper()), has("w/" + tag), has(""), has(tag[:-1]), "if-match: %s|" % tag)
    with Wires(TEXTS) as origin, before(origin, "--etag", "--head", "--log-format", "json") as edge:
        for fields in known:
            same(fields, (304, [tag], False, b""), asked(edge, "/p", fields))
            same("%s to HEAD" % fields, (304, [tag], False, b""), asked(edge, "/p", fields, "HEAD"))
        for fields in others:
            same(fields, (200, [tag], True, b"[1]"), asked(edge, "/p", fields))
        same("another page", (200, [tag_of(b"plain")], True, b"plain"), asked(edge, "/plain", has(tag)))
        same("no page", (404, [], True, b"none"), asked(edge, "/missing", has("*")))
        lines = [of_json(line) for line in edge.end().decode("ascii").splitlines()]
        wanted = {(304, 0): 2 * len(known), (200, 3): len(others), (200, 5): 1, (404, 4): 1}
        same("what the log says", wanted, dict(collections.Counter((line["status"], line["bytes"]) for line in lines)))


def tags_of_origins_stay():
    """What isn't processed keeps the tag of its origin where that is passed, and is sent whole."""
    with Wires(TEXTS) as origin, before(origin, "--etag", "--pass-fields", "etag,location") as edge:
        for fields in ("", has('"own"')):
            same("with %r" % fields, (200, ['"own"'], True, b"plain"), asked(edge, "/plain", fields))
        same("one that has moved", (302, [("location", "/p")]), lines_of(edge, "/moved"))
        same("a template", (304, [tag_of(b"[1]")], False, b""), asked(edge, "/p", has(tag_of(b"[1]"))))


TESTS = (pages_have_tags_of_their_bytes, what_a_client_has_is_not_sent, tags_of_origins_stay)
