"""Pages whose own thread has several fetches in flight."""
import random
import threading
import time

from harness import PAGE, PATIENCE, UNASSEMBLED, Edge, Origin, Wires, all_at_once, before, get, same, sized, told, wire
from bounding import soon
from pages import row_is_right, tables_of, wires_of
from sharing import Meeting

# One thread for each page, and up to so many fetches in flight.
FLYING = ("--workers", "1", "--fetches", "64")
ONE = wire("HTTP/1.1 200 OK|content-length: 1||1")


def page_of(count):
    """A page of so many fragments."""
    return wire(PAGE + "".join("<esi:include src='/%d'/>" % i for i in range(count)))


def joined(count):
    return b"".join(b"%d" % i for i in range(count))


def fragment(i, seconds=0.0):
    """What an origin sends for a fragment, after some time."""
    text = sized("HTTP/1.1 200 OK", "%d" % i)
    return lambda _: time.sleep(seconds) or text


def fastest(call, enough, tries=5):
    """What a call gives, and the fewest seconds that it took in some tries, until one is fast enough: a busy machine may hold
    one up."""
    taken = []
    for _ in range(tries):
        begun = time.monotonic()
        came = call()
        taken.append(time.monotonic() - begun)
        if taken[-1] < enough:
            break
    return came, min(taken)


def one_thread_waits_for_many_fetches():
    """Twenty fragments, each after 200 ms, and 200, of which 64 are fetched at a time: in about the time of one round,
    and of four. One that asks for one after another takes twenty rounds."""
    # On a busy machine it takes some times as long, the origin's own work among it; four threads that fetch one after
    # another take at least five and twelve times as long.
    for count, rounds, most in ((20, 1, 4), (200, 4, 8)):
        texts = {"/%d" % i: fragment(i, 0.2) for i in range(count)}
        with Wires({**texts, "/p": page_of(count)}) as origin, before(origin, *FLYING) as edge:
            came, taken = fastest(lambda: told(edge), 0.2 * rounds * most)
            same("%d fragments" % count, (200, joined(count)), came)
            same("%d fragments took %.4f s" % (count, taken), True, taken < 0.2 * rounds * most)


def as_many_are_in_flight_as_may_be():
    """Of twenty fragments each is answered once so many are asked for; no more are in flight at any time."""
    for fetches in (2, 7, 20, 64):
        meeting = Meeting(min(fetches, 20))
        texts = {"/%d" % i: meeting.of(sized("HTTP/1.1 200 OK", "%d" % i)) for i in range(20)}
        with Wires({**texts, "/p": page_of(20)}) as origin, before(origin, "--workers", "1", "--fetches", str(fetches)) as edge:
            same("%d in flight" % fetches, (200, joined(20)), told(edge))
            same("the most at a time, and how many gave up", (min(fetches, 20), 0), (meeting.most, meeting.gave_up))


def one_at_a_time_is_what_is_done_unasked():
    """Without the option one worker fetches one fragment after another, in the order of the page."""
    texts = {"/%d" % i: sized("HTTP/1.1 200 OK", "%d" % i) for i in range(6)}
    for options in ((), ("--fetches", "1")):
        with Wires({**texts, "/p": page_of(6)}) as origin, before(origin, "--workers", "1", *options) as edge:
            same("the page", (200, joined(6)), told(edge))
            same("what was asked for, in order", ["/p"] + ["/%d" % i for i in range(6)], origin.asked())


def equal_requests_cost_one_fetch_with_many_in_flight():
    """64 pages of the same twenty fragments at one time, which may be kept: the origin is asked once for each URL. Each
    thread leads some of the fetches, and waits for others."""
    kept = "HTTP/1.1 200 OK|surrogate-control: max-age=600"
    texts = {"/%d" % i: (lambda text: lambda _: time.sleep(0.05) or text)(sized(kept, "%d" % i)) for i in range(20)}
    # Each asks for them in an order of its own.
    for i in range(64):
        order = sorted(range(20), key=lambda k: (k * 7 + i * 13) % 20)
        texts["/p%d" % i] = wire(PAGE + "".join("<esi:include src='/%d'/>" % k for k in order))
    with Wires(texts) as origin, before(origin, *FLYING, "--threads", "64") as edge:
        came = all_at_once([lambda i=i: get(edge, "/p%d" % i).body for i in range(64)])
        same("pages, of so many bytes", [30] * 64, [len(body) for body in came])
        asked = [target for target in origin.asked() if not target.startswith("/p")]
        same("each fragment is asked for once", sorted("/%d" % i for i in range(20)), sorted(asked))


def pages_are_the_same_with_several_fetches_in_flight():
    """Each page of the tables, with two fetches in flight and with as many as there may be: what its row says."""
    module, rows = tables_of("pages")
    for levels in sorted({head.get("levels", "4") for _, head, _, _, _ in rows}):
        for fetches, ahead in (("2", "0"), ("2", "1"), ("256", "16"), ("256", "256")):
            words = ["--levels", levels, "--workers", "1", "--fetches", fetches, "--ahead", ahead]
            with Wires({}) as origin, before(origin, *words) as edge:
                for file, head, name, given, wanted in rows:
                    if head.get("levels", "4") == levels:
                        told_of = "%s of %s, by %s" % (name, file, " ".join(words))
                        row_is_right(edge, origin, head, told_of, wires_of(module.answers_of(given)), wanted)


def an_answer_that_is_not_needed_holds_nothing_back():
    """An `alt`, and an `except`, that hang are fetched ahead, and aren't needed: the page is sent at once. A later page
    asks for them again."""
    released = threading.Event()
    hangs = lambda _: released.wait(PATIENCE) and ONE
    page = PAGE + (
        "<esi:include src='/x' alt='/a'/><esi:try><esi:attempt><esi:include src='/x'/></esi:attempt>"
        "<esi:except><esi:include src='/e'/></esi:except></esi:try>"
    )
    with Wires({"/p": wire(page), "/x": ONE, "/a": hangs, "/e": hangs, "/q": wire(PAGE + "<esi:include src='/a'/>")}) as origin:
        with before(origin, *FLYING) as edge:
            begun = time.monotonic()
            same("the page", (200, b"11"), told(edge))
            taken = time.monotonic() - begun
            same("it took %.3f s" % taken, True, taken < 2)
            # The origin may read what was asked after the page is there.
            soon("they were fetched ahead", lambda: {"/a", "/e"} <= set(origin.asked()))
            released.set()
            same("asked for once more", (200, b"1"), told(edge, "/q"))


def what_somebody_else_waits_for_is_fetched_to_its_end():
    """A page that is done gives up its fetches, but not one that another page waits for: that gets its answer, of the
    one fetch."""
    released, asked = threading.Event(), threading.Event()
    kept = sized("HTTP/1.1 200 OK|surrogate-control: max-age=600", "A")

    def hangs(_):
        asked.set()
        released.wait(PATIENCE)
        return kept

    texts = {"/p": wire(PAGE + "<esi:include src='/x' alt='/a'/>"), "/q": wire(PAGE + "<esi:include src='/a'/>"), "/a": hangs}

    def slow(_):
        # The other page joins meanwhile.
        asked.wait(PATIENCE)
        time.sleep(0.3)
        return ONE

    with Wires({**texts, "/x": slow}) as origin, before(origin, *FLYING) as edge:
        came = {}
        first = threading.Thread(target=lambda: came.update(first=told(edge)))
        first.start()
        asked.wait(PATIENCE)
        second = threading.Thread(target=lambda: came.update(second=told(edge, "/q")))
        second.start()
        time.sleep(0.6)
        released.set()
        first.join()
        second.join()
        same("both pages", {"first": (200, b"1"), "second": (200, b"A")}, came)
        same("times that it was asked for", 1, origin.asked().count("/a"))


def one_origin_that_hangs_leaves_the_others():
    """Of a page's fragments half are at an origin that hangs: the others come, and what hangs fails at the limit of a
    fetch, all of it in one round."""
    released = threading.Event()
    texts = {"/%d" % i: (lambda _: released.wait(PATIENCE) and b"") for i in range(10)}
    page = PAGE + "".join("<esi:include src='http://b.test/%d' onerror='continue'/><esi:include src='/%d'/>" % (i, i) for i in range(10))
    answers = {"/%d" % i: sized("HTTP/1.1 200 OK", "%d" % i) for i in range(10)}
    with Wires(texts) as hanging, Wires({**answers, "/p": wire(page)}) as well:
        with Edge("--origin", "*=" + well.at, "--origin", "b.test=" + hanging.at, "--timeout", "500", *FLYING) as edge:
            begun = time.monotonic()
            same("the page", (200, joined(10)), told(edge))
            taken = time.monotonic() - begun
            same("it took %.3f s" % taken, True, 0.4 < taken < 3)
            same("all were asked for", 10, len(hanging.heads))
        released.set()


def origins_that_cut_their_answers_fail_alone():
    """Fifty fragments, each from an origin that hangs up at some byte of it: each is whole, or not there."""
    place = random.Random(50)
    texts, wanted = {}, b""
    for i in range(50):
        text = sized("HTTP/1.1 200 OK", "<%02d>" % i)
        cut = place.randrange(len(text) + 1)
        texts["/%d" % i] = text[:cut]
        wanted += b"<%02d>" % i if cut == len(text) else b"-"
    page = "".join("<esi:try><esi:attempt><esi:include src='/%d'/></esi:attempt><esi:except>-</esi:except></esi:try>" % i for i in range(50))
    with Wires({**texts, "/p": wire(PAGE + page)}) as origin, before(origin, *FLYING) as edge:
        same("the page", (200, wanted), told(edge))


def the_fetches_of_a_page_wait_for_the_bound_of_an_origin():
    """Four fetches may be in flight to an origin: a page of twenty fragments has four at a time, and none fails for the
    page's own. Beside it another page's first fetch is one too many, and waits behind the page's last."""
    meeting = Meeting(4)
    texts = {"/%d" % i: meeting.of(sized("HTTP/1.1 200 OK", "%d" % i)) for i in range(20)}
    with Wires({**texts, "/p": page_of(20)}) as origin, before(origin, *FLYING, "--origin-fetches", "4") as edge:
        same("the page", (200, joined(20)), told(edge))
        same("the most at a time, and how many gave up", (4, 0), (meeting.most, meeting.gave_up))
    released, asked = threading.Event(), threading.Event()
    texts = {"/%d" % i: (lambda _: asked.set() or released.wait(PATIENCE) and ONE) for i in range(4)}
    with Wires({**texts, "/p": page_of(4), "/q": ONE}) as origin, before(origin, *FLYING, "--origin-fetches", "3") as edge:
        came = []
        first = threading.Thread(target=lambda: came.append(told(edge)))
        first.start()
        soon("three are in flight", lambda: len(origin.heads) == 4)
        second = threading.Thread(target=lambda: came.append(told(edge, "/q")))
        second.start()
        time.sleep(0.2)
        same("one too many", 4, len(origin.heads))
        released.set()
        first.join()
        second.join()
        same("both pages", [(200, b"1"), (200, b"1111")], sorted(came))


def nested_fragments_begin_as_they_become_known():
    """Fragments in fragments: what each needs is asked for as soon as it has come, beside those that are still to come."""
    processed = "HTTP/1.1 200 OK|surrogate-control: content=\"ESI/1.0\""
    texts = {"/p": wire(PAGE + "".join("<esi:include src='/%d'/>" % i for i in range(8)))}
    for i in range(8):
        inner = sized(processed, "(<esi:include src='/%d/x'/>)" % i)
        texts["/%d" % i] = (lambda text, i: lambda _: time.sleep(0.03 * i) or text)(inner, i)
        texts["/%d/x" % i] = fragment(i, 0.06)
    with Wires(texts) as origin, before(origin, *FLYING) as edge:
        came, taken = fastest(lambda: told(edge), 0.6)
        same("the page", (200, b"".join(b"(%d)" % i for i in range(8))), came)
        # The last fragment comes after 210 ms, and what it needs 60 ms later; one after another they take 1320.
        same("it took %.4f s" % taken, True, taken < 0.6)


def many_flights_over_kept_connections():
    """Pages whose fetches are in flight over connections that are kept: each answer is its own, and later pages need no
    further connection."""
    texts = {"/%d" % i: (b"%d" % i, "text/plain", "") for i in range(20)}
    page = b"".join(b'<esi:include src="/%d"/>' % i for i in range(20))
    with Origin({**texts, "/p": (page, "text/html", 'content="ESI/1.0"')}) as origin:
        with before(origin, *FLYING, "--origin-keep-alive", "64") as edge:
            for turn in range(50):
                same("turn %d" % turn, (200, joined(20)), told(edge))


TESTS = (
    one_thread_waits_for_many_fetches,
    as_many_are_in_flight_as_may_be,
    one_at_a_time_is_what_is_done_unasked,
    pages_are_the_same_with_several_fetches_in_flight,
    equal_requests_cost_one_fetch_with_many_in_flight,
    an_answer_that_is_not_needed_holds_nothing_back,
    what_somebody_else_waits_for_is_fetched_to_its_end,
    one_origin_that_hangs_leaves_the_others,
    origins_that_cut_their_answers_fail_alone,
    the_fetches_of_a_page_wait_for_the_bound_of_an_origin,
    nested_fragments_begin_as_they_become_known,
    many_flights_over_kept_connections,
)
