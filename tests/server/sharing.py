"""Fetches at one time, and answers that are kept."""
import os
import subprocess
import tempfile
import threading
import time

from harness import HERE, PAGE, PATIENCE, Origin, Wires, all_at_once, before, get, same, sized, told, wire


class Meeting:
    """Where fetches meet: each waits until this many are there at once, or too long. It counts the most that
    were, and how many gave up."""

    def __init__(self, needed, seconds=PATIENCE):
        self.needed, self.seconds = needed, seconds
        self.inside = self.most = self.gave_up = 0
        self.moved = threading.Condition()

    def of(self, text):
        """What an origin sends once the fetches have met."""

        def send(_):
            with self.moved:
                self.inside += 1
                self.most = max(self.most, self.inside)
                self.moved.notify_all()
                self.gave_up += not self.moved.wait_for(lambda: self.most >= self.needed, self.seconds)
                self.inside -= 1
            return text

        return send


def equal_requests_cost_one_fetch():
    """Two, eight and 101 clients that ask for one fragment at one time: the origin is asked once."""
    paths = {"/x": (b"12345678", "text/plain", "max-age=60")}
    for count in (2, 8, 101):
        with Origin(paths) as origin, before(origin, "--threads", "64") as edge:
            origin.site.tell("/x", "slow:500")
            came = all_at_once([lambda: get(edge, "/x").body] * count)
            same("what they got", [b"12345678"] * count, came)
            same("times that the origin was asked", 1, origin.site.count("/x"))


def told_in_time(edge, target):
    """What a reader gets, if it comes."""
    try:
        return told(edge, target)
    except OSError:
        return None


def who_joins_a_fetch_is_told_of_its_end():
    """Forty readers at once, again and again, ask for a URL that isn't kept and for a page of it, some as the fetch ends that they join:
    each gets it, though no thread waits with him."""
    texts = {"/x": sized("HTTP/1.1 200 OK", "1"), "/p": sized('HTTP/1.1 200 OK|surrogate-control: max-age=600, content="ESI/1.0"', "[<esi:include src='/x'/>]")}
    with Wires(texts) as origin, before(origin, "--fetches", "8") as edge:
        for _ in range(100):
            came = all_at_once([lambda target=target: told_in_time(edge, target) for target in ("/x", "/p") * 20])
            same("what they get, and who gets nothing", (20, 20, 0), (came.count((200, b"1")), came.count((200, b"[1]")), came.count(None)))


def a_cache_is_free_while_it_is_fetched_for():
    """Nine URLs, at least two of which one lock keeps. Each is answered once all are asked for."""
    meeting = Meeting(9)
    texts = {"/%d" % i: meeting.of(wire("HTTP/1.1 200 OK|surrogate-control: max-age=60||%d" % i)) for i in range(9)}
    with Wires(texts) as origin, before(origin, "--threads", "16") as edge:
        came = all_at_once([lambda path=path: told(edge, path) for path in texts])
        same("what they got", [(200, b"%d" % i) for i in range(9)], sorted(came))
        same("fetches that gave up", 0, meeting.gave_up)


def urls_of_one_sum_leave_each_other_kept():
    """216 URLs whose bytes have one sum: that would put them all into one part of the cache, which keeps 128."""
    letters = range(15)
    paths = ["/%c%c%c%c" % (97 + one, 122 - one, 97 + other, 122 - other) for one in letters for other in letters][:216]
    same("their sums", 1, len({sum(it.encode()) for it in paths}))
    texts = {it: sized("HTTP/1.1 200 OK|surrogate-control: max-age=600", it) for it in paths}
    with Wires(texts) as origin, before(origin) as edge:
        for _ in range(2):
            same("what comes", [(200, it.encode()) for it in paths], [told(edge, it) for it in paths])
        same("times that the origin was asked", len(paths), len(origin.heads))


def two_workers_fetch_at_one_time():
    """Of a page's two fragments each is answered once both are asked for: two workers do so, and one gives up."""
    for workers, seconds, gave_up in ((1, 0.05, 1), (2, PATIENCE, 0)):
        meeting = Meeting(2, seconds)
        texts = {"/x": meeting.of(wire("HTTP/1.1 200 OK||1")), "/y": meeting.of(wire("HTTP/1.1 200 OK||2"))}
        texts["/p"] = wire(PAGE + "<esi:include src='/x'/><esi:include src='/y'/>")
        with Wires(texts) as origin, before(origin, "--workers", str(workers), "--ahead", "2") as edge:
            same("by %d workers" % workers, (200, b"12"), told(edge))
            same("%d workers: is given up" % workers, gave_up > 0, meeting.gave_up > 0)


def as_many_fetch_at_once_as_are_missing():
    """A page of 20 fragments, of which some are kept: how many are missing, the workers, and the most that are
    fetched at once."""
    kept = "HTTP/1.1 200 OK|surrogate-control: max-age=600"
    page = sized(kept + ', content="ESI/1.0"', "P" + "".join("<esi:include src='/%d'/>" % i for i in range(20)))
    for missing, workers, most in ((0, 4, 0), (1, 4, 1), (2, 4, 2), (20, 1, 1), (20, 4, 4), (20, 16, 16)):
        meeting = Meeting(min(missing, workers))
        texts = {"/%d" % i: sized("HTTP/1.1 200 OK" if i < missing else kept, "%d" % i) for i in range(20)}
        texts["/p"] = page
        wanted = (200, b"P" + b"".join(b"%d" % i for i in range(20)))
        with Wires(texts) as origin, before(origin, "--workers", str(workers), "--ahead", "256") as edge:
            same("first", wanted, told(edge))
            origin.heads.clear()
            origin.texts.update(("/%d" % i, meeting.of(texts["/%d" % i])) for i in range(missing))
            same("second", wanted, told(edge))
            same("%d missing, %d workers" % (missing, workers), (missing, most), (len(origin.heads), meeting.most))


def pages_share_what_is_kept():
    """A page that is asked for twice, all of whose answers are kept, costs its fetches once."""
    plain = "HTTP/1.1 200 OK|surrogate-control: max-age=60"
    esi = plain + ', content="ESI/1.0"'
    include = "<esi:include src='%s'/>"
    page, part = "P" + include % "/x" + include % "/y" + include % "/z", "2" + include % "/x"
    stored = {"/p": sized(esi, page), "/x": sized(plain, "1"), "/y": sized(esi, part), "/z": sized(plain, "3")}
    tried = "<esi:try><esi:attempt>%s</esi:attempt><esi:except>%s</esi:except></esi:try>" % (include % "/x", include % "/z")
    # Whether an except that isn't needed is fetched is left to the workers.
    rows = ((stored, b"P1213", 4), ({"/p": sized(esi, tried), "/x": sized(plain, "1"), "/z": sized(plain, "9")}, b"1", None))
    for workers in (1, 2, 16):
        for texts, wanted, fetches in rows:
            with Wires(texts) as origin, before(origin, "--workers", str(workers)) as edge:
                same("first", (200, wanted), told(edge))
                first = len(origin.heads)
                same("second", (200, wanted), told(edge))
                if fetches:
                    same("fetches by %d workers" % workers, (fetches, fetches), (first, len(origin.heads)))


def answers_are_kept_and_bridged():
    """Within max-age nobody asks the origin; past it a failing origin is bridged within the extension,
    and is passed on where there isn't one."""
    paths = {"/x": (b"x", "text/plain", "max-age=2+60"), "/y": (b"y", "text/plain", "max-age=2")}
    with Origin(paths) as origin, before(origin) as edge:
        for _ in range(2):
            same("/x and /y", (b"x", b"y"), (get(edge, "/x").body, get(edge, "/y").body))
        same("times asked at first", True, origin.site.count("/x") <= 2 and origin.site.count("/y") <= 2)
        origin.site.tell("/x", "failing")
        origin.site.tell("/y", "failing")
        asked = origin.site.count("/x")
        time.sleep(3.1)
        same("/x is bridged", (200, b"x"), (get(edge, "/x").status, get(edge, "/x").body))
        same("/y isn't", (500, b"The origin fails.\n"), (get(edge, "/y").status, get(edge, "/y").body))
        same("the origin was asked again", True, origin.site.count("/x") > asked)
        origin.site.tell("/x", "usual")
        asked = origin.site.count("/x")
        same("/x is there again", b"x", get(edge, "/x").body)
        same("and was asked for", asked + 1, origin.site.count("/x"))


def second_logged(line):
    """The second of the clock of the day in a line of the edge's log."""
    return int(line.split()[0])


def answers_are_kept_no_longer_where_the_clock_is_set_back():
    """The clock of the day is set back by an hour, as the log shows: an answer is kept for its seconds all the same."""
    with tempfile.TemporaryDirectory() as room:
        library, sign = os.path.join(room, "set_back.so"), os.path.join(room, "sign")
        subprocess.run(["cc", "-O2", "-shared", "-fPIC", "-o", library, os.path.join(HERE, "set_back.c")], check=True)
        added = {"LD_PRELOAD": library, "SET_BACK": sign}
        with Origin({"/x": (b"x", "text/plain", "max-age=1")}) as origin, before(origin, "--log", "--accept", "2", added=added) as edge:
            same("at first", b"x", get(edge, "/x").body)
            # A request may be logged after its client has the response.
            first = second_logged(edge.process.stderr.readline())
            with open(sign, "w"):
                time.sleep(2.1)
            same("later", b"x", get(edge, "/x").body)
            same("exit status", 0, edge.ends())
            second = second_logged(edge.end())
            same("the clock was set back (%d, %d)" % (first, second), True, second < first - 3000)
            same("times that the origin was asked", 2, origin.site.count("/x"))


TESTS = (
    equal_requests_cost_one_fetch,
    who_joins_a_fetch_is_told_of_its_end,
    a_cache_is_free_while_it_is_fetched_for,
    urls_of_one_sum_leave_each_other_kept,
    two_workers_fetch_at_one_time,
    as_many_fetch_at_once_as_are_missing,
    pages_share_what_is_kept,
    answers_are_kept_and_bridged,
    answers_are_kept_no_longer_where_the_clock_is_set_back,
)
