"""Fields of origins' answers that reach readers, and answers that are kept as `Cache-Control` asks."""
import time

from harness import PAGE, UNASSEMBLED, Edge, Wires, before, exchange, same, sized, told, wire
from logs import of_json
from operating import ADMIN, Desk, fetches, metrics

# The fields of a response that the edge itself writes.
OWN = ("content-type", "content-length", "date", "connection")
# The head of a template up to its last line, behind which more lines may follow.
TEMPLATE_HEAD = PAGE.removesuffix("|")
INCLUDE = "[<esi:include src='/x'/>]"
FRAGMENT = sized("HTTP/1.1 200 OK|content-type: text/plain|x-a: of the fragment|location: /fragment", "1")
ONE_BY_ONE_AND_AT_ONCE = ((), ("--fetches", "8"))


def lines_of(edge, target, method="GET", host="a.test", fields=""):
    """The status of a response, and the lines of its head that the edge doesn't write itself, in order."""
    head = exchange(edge, wire("%s %s HTTP/1.1|host: %s|%s|" % (method, target, host, fields))).partition(b"\r\n\r\n")[0]
    first, *lines = head.decode("latin-1").split("\r\n")
    pairs = [line.partition(": ")[::2] for line in lines]
    return int(first.split(" ")[1]), [(name.lower(), value) for name, value in pairs if name.lower() not in OWN]


def named_fields_reach_the_reader():
    """A redirect's location and each line of a policy, as they came, those of one name together, whatever the case of names; also to
    HEAD, and from the cache. Nothing else does, and without the option nothing."""
    policies = ("default-src 'self'", "script-src 'none'; report-uri /r", "default-src 'self'")
    fields = "Content-Security-Policy: %s|Location: /a?b=%%41|content-security-policy: %s|CONTENT-SECURITY-POLICY: %s|x-other: it|set-cookie: c=1" % policies
    texts = {"/p": sized("HTTP/1.1 302 Found|" + fields, "moved"), "/kept": sized("HTTP/1.1 200 OK|surrogate-control: max-age=600|" + fields, "here")}
    wanted = [*(("content-security-policy", it) for it in policies), ("location", "/a?b=%41")]
    for names in ("location,content-security-policy", "LOCATION ,\tContent-Security-Policy ,x-none"):
        with Wires(texts) as origin, before(origin, "--pass-fields", names, "--head") as edge:
            for method in ("GET", "HEAD"):
                same("%s of a redirect with %s" % (method, names), (302, wanted), lines_of(edge, "/p", method))
            for _ in range(2):
                same("a page that is kept, with %s" % names, (200, wanted), lines_of(edge, "/kept"))
            same("times that it was asked for", 1, origin.asked().count("/kept"))
    with Wires(texts) as origin, before(origin) as edge:
        same("without the option", [(302, []), (200, [])], [lines_of(edge, "/p"), lines_of(edge, "/kept")])


def fields_of_fragments_do_not():
    """A page has its own fields, whatever those of its fragments are, templates or not."""
    texts = {
        "/p": wire(TEMPLATE_HEAD + "x-a: of the page||" + INCLUDE), "/none": wire(PAGE + INCLUDE), "/outer": wire(PAGE + "<esi:include src='/p'/>"), "/x": FRAGMENT,
    }
    for words in ONE_BY_ONE_AND_AT_ONCE:
        with Wires(texts) as origin, before(origin, "--pass-fields", "x-a,location", *words) as edge:
            for target, fields in (("/p", [("x-a", "of the page")]), ("/none", []), ("/outer", [])):
                same("fields of %s with %s" % (target, words), (200, fields), lines_of(edge, target))
                same("body of %s" % target, (200, b"[1]"), told(edge, target))


def what_describes_a_template_is_not_passed():
    """Of a page that isn't processed each field is passed; of one that is, none that tells of the template's bytes."""
    names = ("etag", "last-modified", "accept-ranges", "content-md5", "digest", "content-digest", "repr-digest")
    fields = [*((name, '"%s"' % name) for name in names), ("cache-control", "max-age=5")]
    lines = "|".join("%s: %s" % field for field in fields)
    texts = {"/plain": sized("HTTP/1.1 200 OK|" + lines, INCLUDE), "/p": wire(TEMPLATE_HEAD + lines + "||" + INCLUDE), "/x": FRAGMENT}
    with Wires(texts) as origin, before(origin, "--pass-fields", ",".join(name for name, _ in fields)) as edge:
        same("not processed", (200, fields), lines_of(edge, "/plain"))
        same("processed", (200, fields[-1:]), lines_of(edge, "/p"))


# How many bytes the fields that are passed may have, names and values together.
MOST = 8192


def more_fields_than_may_be_are_none():
    """Names and values of 8,192 bytes are passed, and others don't count. With a byte more the answer can't be fetched, which the log
    and the metrics say."""
    values = ["a" * 4000, "b" * 2000, "a" * (MOST - 4000 - 2000 - 3 * len("x-a"))]
    texts = {
        target: sized("HTTP/1.1 200 OK|x-c: %s|x-a: %s|x-b: %s|x-a: %s%s" % ("c" * MOST, *values, more), "1") for target, more in (("/most", ""), ("/more", "a"))
    }
    for words in ONE_BY_ONE_AND_AT_ONCE:
        options = ("--pass-fields", "x-b,x-a", "--log-format", "json", *ADMIN, *words)
        with Wires(texts) as origin, Edge("--origin", "a.test=" + origin.at, *options) as edge:
            desk = Desk(edge)
            same("8,192 bytes", (200, [("x-a", values[0]), ("x-a", values[2]), ("x-b", values[1])]), lines_of(edge, "/most"))
            same("a byte more", UNASSEMBLED, told(edge, "/more"))
            wanted = {'{origin="a.test",outcome="%s"}' % end: 1 for end in ("answered", "fields")}
            same("fetches with %s" % (words,), wanted, fetches(metrics(desk)))
            lines = [of_json(line) for line in edge.end().decode("ascii").splitlines()]
            same("faults with %s" % (words,), ["PageFetch http://a.test/more: fields"], [it["fault"] for it in lines if "fault" in it])


def answers_are_kept_by_cache_control():
    """With --cache-control `s-maxage` says how long an answer is kept, in any case of letters, where `Surrogate-Control` says nothing of
    time; not beside what keeps an answer for one reader. Without the option it says nothing."""
    kept = (
        "cache-control: s-maxage=60",
        "cache-control: public, max-age=0, S-MaxAge=60",
        'surrogate-control: content="ESI/1.0"|cache-control: s-maxage=60',
    )
    others = (
        "cache-control: max-age=60",
        "cache-control: private, s-maxage=60",
        "cache-control: s-maxage=60|cache-control: no-cache",
        "cache-control: s-maxage=60, no-store",
        "cache-control: s-maxage=60|set-cookie: a=1",
        "surrogate-control: no-store|cache-control: s-maxage=60",
    )
    by_surrogate_control = "surrogate-control: max-age=60|cache-control: private|set-cookie: a=1"
    texts = {"/%d" % at: sized("HTTP/1.1 200 OK|" + fields, "1") for at, fields in enumerate((*kept, *others, by_surrogate_control))}
    for words, times in ((("--cache-control",), 1), ((), 2)):
        with Wires(texts) as origin, before(origin, *words) as edge:
            for target in (*texts, *texts):
                same("%s with %s" % (texts[target], words), (200, b"1"), told(edge, target))
            wanted = [times] * len(kept) + [2] * len(others) + [1]
            same("times that each was asked for with %s" % (words,), dict(zip(texts, wanted)), {target: origin.asked().count(target) for target in texts})


def answers_stand_in_by_cache_control():
    """With `stale-if-error` an answer stands in once its time is over and its origin fails, as with `+` in `Surrogate-Control`, whose
    time counts where it says one."""
    rows = (
        ("cache-control: s-maxage=1, stale-if-error=600", (200, b"1")),
        ("cache-control: s-maxage=1", UNASSEMBLED),
        ("surrogate-control: max-age=1|cache-control: s-maxage=600, stale-if-error=600", UNASSEMBLED),
        ("surrogate-control: max-age=1+600|cache-control: s-maxage=1", (200, b"1")),
    )
    targets = ["/%d" % at for at in range(len(rows))]
    texts = {target: sized("HTTP/1.1 200 OK|" + fields, "1") for target, (fields, _) in zip(targets, rows)}
    with Wires(texts) as origin, before(origin, "--cache-control") as edge:
        same("at first", [(200, b"1")] * len(rows), [told(edge, target) for target in targets])
        time.sleep(1.1)
        origin.texts.clear()
        same("once the origin fails", [wanted for _, wanted in rows], [told(edge, target) for target in targets])
        same("each is asked for again", sorted(targets * 2), sorted(origin.asked()))


TESTS = (
    named_fields_reach_the_reader,
    fields_of_fragments_do_not,
    what_describes_a_template_is_not_passed,
    more_fields_than_may_be_are_none,
    answers_are_kept_by_cache_control,
    answers_stand_in_by_cache_control,
)
