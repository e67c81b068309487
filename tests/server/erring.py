"""Pages that are made of errors, with --process-errors: their own answer is a template under a status of 400 to 599."""
import time

from harness import UNASSEMBLED, Wires, all_at_once, before, get, same, sized, told
from logs import of_json
from operating import ADMIN, Desk, metrics
from passing import ONE_BY_ONE_AND_AT_ONCE, lines_of
from private import FOR_ITS_READER, KEPT, OK, PRIVATE, SHOP, Echo, box, include, read, times_asked
from validating import asked

OPTION = "--process-errors"
MENU = sized(KEPT, "menu")
BODY = "%s: gone" % include("/menu")
MADE = b"menu: gone"


def error(status, body=BODY, fields="", control='max-age=600, content="ESI/1.0"'):
    """An answer under this status that asks to be processed, and to be kept."""
    return sized("HTTP/1.1 %d Error|content-type: text/x-error%s|surrogate-control: %s" % (status, fields, control), body)


def pages_are_made_of_errors():
    """Under each status from 400 to 599 the page is assembled, with its own status and type, to HEAD too; under 300 to 399 the body is
    sent as it came, and so is each error without the option. Successes are processed in both cases."""
    errors, others, successes = (400, 404, 410, 418, 499, 500, 503, 508, 599), (300, 302, 399), (200, 299)
    texts = {"/%d" % status: error(status) for status in (*errors, *others, *successes)}
    for words in ONE_BY_ONE_AND_AT_ONCE:
        for option in ((), (OPTION,)):
            with Wires({**texts, "/menu": MENU}) as origin, before(origin, "--head", *option, *words) as edge:
                for status in (*errors, *others, *successes):
                    wanted = MADE if status in successes or option and status in errors else BODY.encode()
                    for method, body in (("GET", wanted), ("HEAD", b"")):
                        got = get(edge, "/%d" % status, method=method)
                        came = (got.status, got.fields["content-type"], got.fields["content-length"], got.body)
                        same("%s of %d with %s" % (method, status, (*option, *words)), (status, "text/x-error", str(len(wanted)), body), came)


def errors_that_ask_for_nothing_are_as_they_came():
    """So is one whose control isn't there, names another version, or is for another device; one that is for this device is processed."""
    rows = (
        ("", False), ("max-age=600", False), ('content="ESI/1.1"', False), ('content="ESI/1.0";other', False), ('content="ESI/1.0", content="x";edge-1', False),
        ('content="ESI/1.0";edge-1', True), ('content="x ESI/1.0"', True), ('no-store, content="ESI/1.0"', True),
    )
    texts = {"/%d" % at: error(404, control=control) for at, (control, _) in enumerate(rows)}
    with Wires({**texts, "/menu": MENU}) as origin, before(origin, OPTION, "--name", "edge-1") as edge:
        for at, (control, is_processed) in enumerate(rows):
            same(control, (404, MADE if is_processed else BODY.encode()), told(edge, "/%d" % at))


def errors_are_made_as_other_pages_are():
    """Their fragments may be templates, and fail under an `alt`, an `onerror` or an `attempt`; variables are those of the request."""
    body = include("/frame", "//b.test/x")
    body += "<esi:vars>$(QUERY_STRING{q})</esi:vars><esi:include src='/none' alt='/menu'/><esi:include src='/none' onerror='continue'/>"
    body += "<esi:try><esi:attempt>%s</esi:attempt><esi:except>excused</esi:except></esi:try>" % include("/none")
    frame = sized(OK + '|surrogate-control: content="ESI/1.0"', "[%s]" % include("/menu"))
    texts = {"/p?q=sought": error(404, body), "/frame": frame, "/menu": MENU, "/x": sized(OK, "1")}
    for words in ONE_BY_ONE_AND_AT_ONCE:
        with Wires(texts) as origin, before(origin, OPTION, *words) as edge:
            same("the page with %s" % (words,), (404, b"[menu]1soughtmenuexcused"), told(edge, "/p?q=sought"))


# What a page may do about a fragment, with what it gives if that is none.
EXCUSED = (
    ("<esi:include src='%s' alt='/menu'/>", b"menu"),
    ("<esi:include src='%s' onerror='continue'/>", b""),
    ("<esi:include src='%s' alt='%s' onerror='continue'/>", b""),
    ("<esi:try><esi:attempt><esi:include src='%s'/></esi:attempt><esi:except>excused</esi:except></esi:try>", b"excused"),
)


def fragments_under_errors_are_none():
    """Whatever their bodies are, in pages and in error pages: the `alt`, the `onerror` or the `except` counts, and what such a body
    includes isn't asked for unless ahead. Without any of them the page is 502."""
    for status in (400, 404, 500, 599):
        gone = {"/template": error(status, "<%s>" % include("/inner")), "/broken": error(status, "<esi:include"), "/plain": sized("HTTP/1.1 %d Error" % status, "plain")}
        pages = {}
        for fragment in gone:
            for at, (text, gives) in enumerate(EXCUSED):
                pages["/excused%d%s" % (at, fragment)] = text.replace("%s", fragment), gives
            pages["/in%s" % fragment] = include(fragment), None
        texts = {**gone, "/menu": MENU, "/inner": sized(OK, "inner")}
        texts.update(("/%d%s" % (of, target), error(of, body)) for of in (200, 404) for target, (body, _) in pages.items())
        for words in ONE_BY_ONE_AND_AT_ONCE:
            for option in ((OPTION,), ()):
                with Wires(texts) as origin, before(origin, "--ahead", "0", *option, *words) as edge:
                    for of in (200, 404) if option else (200,):
                        for target, (_, gives) in pages.items():
                            wanted = UNASSEMBLED if gives is None else (of, gives)
                            same("%s in %d under %d with %s" % (target, of, status, (*option, *words)), wanted, told(edge, "/%d%s" % (of, target)))
                    same("times that what is in it was asked for", 0, times_asked(origin)["/inner"])


def an_error_page_is_no_fragment_of_itself():
    """Its own URL is, as a fragment, an error: that counts as failed, without another fetch."""
    with Wires({"/p": error(404, "[<esi:include src='/p' onerror='continue'/>]")}) as origin, before(origin, OPTION) as edge:
        same("the page", (404, b"[]"), told(edge))
        same("times that it was asked for", 1, len(origin.heads))


def one_answer_may_be_a_page_and_a_fragment():
    """Of readers who ask at once for a page under an error, and for one that includes it, each gets his own."""
    texts = {"/gone": error(404), "/p": error(200, "<esi:include src='/gone' onerror='continue'/>."), "/menu": MENU}
    for words in ONE_BY_ONE_AND_AT_ONCE:
        with Wires(texts) as origin, before(origin, OPTION, *words) as edge:
            came = all_at_once([lambda target=target: (target, told(edge, target)) for target in ("/gone", "/p") * 20])
            same("pages with %s" % (words,), [("/gone", (404, MADE))] * 20 + [("/p", (200, b"."))] * 20, sorted(came))


def errors_are_not_kept():
    """Whatever their `max-age` is: each page asks again. Their fragments are kept, and a kept page that has become an error is gone."""
    for words in ONE_BY_ONE_AND_AT_ONCE:
        with Wires({"/404": error(404), "/500": error(500), "/menu": MENU, "/p": error(200, "was", control='max-age=1, content="ESI/1.0"')}) as origin:
            with before(origin, OPTION, *ADMIN, *words) as edge:
                desk = Desk(edge)
                for _ in range(5):
                    same("errors with %s" % (words,), [(404, MADE), (500, MADE)], [told(edge, "/404"), told(edge, "/500")])
                same("times asked", {"/404": 5, "/500": 5, "/menu": 1}, times_asked(origin))
                same("a page", (200, b"was"), told(edge))
                same("answers that are kept", 2, metrics(desk)["esi_edge_cache_answers"])
                time.sleep(1.1)
                origin.texts["/p"] = error(404)
                same("once it is an error", [(404, MADE)] * 2, [told(edge), told(edge)])
                same("answers that are kept then", 1, metrics(desk)["esi_edge_cache_answers"])


def older_answers_are_preferred():
    """A page that may stand in does so for an answer of 500 to 599, though a page could be made of that; not for one of 404."""
    for words in ONE_BY_ONE_AND_AT_ONCE:
        with Wires({"/p": error(200, include("/menu"), control='max-age=1+600, content="ESI/1.0"'), "/menu": MENU}) as origin, before(origin, OPTION, *words) as edge:
            same("at first", (200, b"menu"), told(edge))
            time.sleep(1.1)
            for status in (500, 503, 599):
                origin.texts["/p"] = error(status)
                same("under %d with %s" % (status, words), (200, b"menu"), told(edge))
            origin.texts["/p"] = error(404)
            same("under 404", (404, MADE), told(edge))
            origin.texts["/p"] = error(500)
            same("when none is left", (500, MADE), told(edge))


def an_error_that_rests_is_made_again():
    """With --url-rest an error of 500 is given again without a fetch, and a page is made of it each time; one of 404 doesn't rest."""
    for words in ONE_BY_ONE_AND_AT_ONCE:
        texts = {"/500": error(500, "<esi:include src='/x'/>"), "/404": error(404, "<esi:include src='/x'/>"), "/x": sized(OK, "1")}
        with Wires(texts) as origin, before(origin, OPTION, "--url-rest", "600", *words) as edge:
            for at in range(3):
                origin.texts["/x"] = sized(OK, str(at))
                same("pages with %s" % (words,), [(500, b"%d" % at), (404, b"%d" % at)], [told(edge, "/500"), told(edge, "/404")])
            same("times asked", {"/500": 1, "/404": 3, "/x": 6}, times_asked(origin))


def error_pages_that_fail_are_faults():
    """One that includes what can't be had, and one that is no template: 502, which the log says as of other pages, of a fragment under an
    error by its status, be it a template or not. Of one that is as it should be it says that its origin has the status."""
    texts = {
        "/fails": error(404, include("/none")), "/fails-too": error(404, include("/broken")), "/broken": error(410, "x\n<esi:include"),
        "/none": error(410), "/gone": error(404), "/plain": error(404, control=""), "/menu": MENU,
    }
    rows = (
        ("/fails", UNASSEMBLED, 2, "IncludeFailed http://a.test/none status 410"),
        ("/fails-too", UNASSEMBLED, 2, "IncludeFailed http://a.test/broken status 410"),
        ("/broken", UNASSEMBLED, 1, "BadTemplate http://a.test/broken 2:1: error: "),
        ("/gone", (404, MADE), 2, "OriginStatus http://a.test/gone"),
        ("/plain", (404, BODY.encode()), 1, "OriginStatus http://a.test/plain"),
    )
    for words in ONE_BY_ONE_AND_AT_ONCE:
        with Wires(texts) as origin, before(origin, OPTION, "--ahead", "0", "--log-format", "json", *words) as edge:
            for target, wanted, _, _ in rows:
                same("%s with %s" % (target, words), wanted, told(edge, target))
            lines = {line["url"].removeprefix("http://a.test"): line for line in map(of_json, edge.end().decode("ascii").splitlines())}
            for target, (status, _), answers, fault in rows:
                line = lines[target]
                same("the line of %s" % target, (status, answers, fault), (line["status"], line["answers"], line["fault"][:len(fault)]))
                same("the end of %s" % fault, fault.endswith(": "), line["fault"] != fault)


def an_error_page_says_what_it_rests_on():
    """With a reader's own box in it the page is his own, and asked for with his cookies; an error of a private URL is a page too."""
    texts = {"/gone": error(404, include("/box/a"), "|cache-control: public"), "/box/a": box, "/box/gone": error(404, include("/box/a"))}
    options = (*PRIVATE, "--private-cookies", "SHOPSESS", "--pass-fields", "cache-control")
    for words in ONE_BY_ONE_AND_AT_ONCE:
        with Echo(texts) as origin, before(origin, OPTION, *options, *words) as edge:
            for target in ("/gone", "/box/gone"):
                for cookie in ("SHOPSESS=1", "SHOPSESS=2"):
                    same("%s with %s" % (target, cookie), (404, b"(%s)" % cookie.encode()), read(edge, target, cookie))
                same("lines of %s" % target, (404, FOR_ITS_READER), lines_of(edge, target, host=SHOP))


def fields_of_its_bytes_are_left_out():
    """Of an error that is processed no field is passed that tells of its template's bytes; of one that isn't, each."""
    fields = [("etag", '"own"'), ("last-modified", "now"), ("accept-ranges", "bytes"), ("retry-after", "5"), ("cache-control", "max-age=5")]
    lines = "".join("|%s: %s" % field for field in fields)
    texts = {"/template": error(503, fields=lines), "/plain": error(503, fields=lines, control=""), "/menu": MENU}
    for option, passed in (((OPTION,), fields[3:]), ((), fields)):
        with Wires(texts) as origin, before(origin, "--pass-fields", ",".join(name for name, _ in fields), *option) as edge:
            same("a template with %s" % (option,), (503, passed), lines_of(edge, "/template"))
            same("a plain error with %s" % (option,), (503, fields), lines_of(edge, "/plain"))


def error_pages_have_no_tags():
    """With --etag such a page has none, and is sent whole to whoever has any."""
    with Wires({"/p": error(404, fields='|etag: "own"'), "/menu": MENU}) as origin, before(origin, OPTION, "--etag", "--pass-fields", "etag") as edge:
        for fields in ("", "if-none-match: *|", 'if-none-match: "own"|'):
            same("with %r" % fields, (404, [], True, MADE), asked(edge, "/p", fields))


def their_bodies_have_the_limit_of_templates():
    """An error of as many bytes as --template-bytes says is a page, and one of a byte more can't be fetched, whatever --body-bytes is;
    without the option its limit is that of other bodies."""
    rows = (
        ((OPTION, "--template-bytes", "300000"), 300000), ((OPTION, "--body-bytes", "300000"), 262144),
        (("--template-bytes", "300000"), 262144), (("--body-bytes", "300000"), 300000),
    )
    for words, most in rows:
        for length in (most, most + 1):
            rest = "x" * (length - len(BODY))
            with Wires({"/p": error(404, BODY + rest), "/menu": MENU}) as origin, before(origin, *words) as edge:
                wanted = (404, (MADE if OPTION in words else BODY.encode()) + rest.encode()) if length == most else UNASSEMBLED
                # Compared first: what is so long isn't to be printed.
                same("whether %d bytes come with %s" % (length, words), True, told(edge) == wanted)


TESTS = (
    pages_are_made_of_errors,
    errors_that_ask_for_nothing_are_as_they_came,
    errors_are_made_as_other_pages_are,
    fragments_under_errors_are_none,
    an_error_page_is_no_fragment_of_itself,
    one_answer_may_be_a_page_and_a_fragment,
    errors_are_not_kept,
    older_answers_are_preferred,
    an_error_that_rests_is_made_again,
    error_pages_that_fail_are_faults,
    an_error_page_says_what_it_rests_on,
    fields_of_its_bytes_are_left_out,
    error_pages_have_no_tags,
    their_bodies_have_the_limit_of_templates,
)
