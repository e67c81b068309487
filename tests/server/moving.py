"""Origins by names whose addresses change, with --origin-lookup. Each edge has a file of hosts of its own."""
import contextlib
import os
import socket
import subprocess
import tempfile
import threading
import time

from bounding import begun, ended, soon
from harness import PATIENCE, UNASSEMBLED, Edge, Skipped, Wires, before, same, sized, told, wire
from operating import ADMIN, Desk
from passing import ONE_BY_ONE_AND_AT_ONCE
from reusing import Lasting
from waiting import threads_of

# Two addresses of one length: a name goes from one to the other by one write.
FIRST, SECOND = "127.0.0.2", "127.0.0.3"
LOOKUP = ("--origin-lookup", "1")
# Gives what it runs another /etc/hosts.
BINDS = ("--mount", "sh", "-c", 'mount --bind "$0" /etc/hosts && exec "$@"')
OK = "HTTP/1.1 200 OK"


class Hosts:
    """A file of hosts in which each of these names has the same address, and `by` which words a program has it as its /etc/hosts."""

    def __init__(self, *names):
        self.names = names
        self.file = tempfile.NamedTemporaryFile()
        self.say(FIRST)
        self.by = self.found()

    def __enter__(self):
        return self

    def __exit__(self, *_):
        self.file.close()

    def say(self, address, names=None):
        """In place, and by one write: whoever reads the file has the lines of before, or these."""
        os.pwrite(self.file.fileno(), "".join("%s %s\n" % (address, name) for name in names or self.names).encode(), 0)

    def found(self):
        for words in (("unshare", *BINDS, self.file.name), ("unshare", "--map-root-user", *BINDS, self.file.name)):
            with contextlib.suppress(FileNotFoundError):
                ran = subprocess.run([*words, "getent", "hosts", self.names[0]], stdin=subprocess.DEVNULL, capture_output=True, text=True)
                if ran.stdout.split() == [FIRST, self.names[0]]:
                    return words
        self.file.close()
        raise Skipped("no program can be given an /etc/hosts of its own here (unshare --mount)")


def of(text, head=OK):
    """What an origin has."""
    return {target: sized(head, text) for target in ("/p", "/x")}


def edge_of(hosts, origin, *options):
    """An edge whose origin is at the first name."""
    return Edge("--origin", "*=%s:%d" % (hosts.names[0], origin.port), *options, by=hosts.by)


def for_a_while(what, wanted, came, seconds=3):
    """That this comes for so long, however often it is asked for."""
    until = time.monotonic() + seconds
    while time.monotonic() < until:
        same(what, wanted, came())
        time.sleep(0.05)


def found(what, edge, text):
    """Waits until pages come with this text, and looks whether each does from then on."""
    soon(what, lambda: told(edge) == (200, text))
    same("%s, and from then on" % what, [(200, text)] * 20, [told(edge) for _ in range(20)])


def a_name_is_looked_up_once_its_origin_is_gone():
    """Pages fail while nobody is at the new address, and come once the origin is there: each, fragments too. It may go back."""
    for words in ONE_BY_ONE_AND_AT_ONCE:
        with Hosts("shop.internal") as hosts, Wires(of("first"), FIRST) as first, edge_of(hosts, first, *LOOKUP, *words) as edge:
            same("at first", (200, b"first"), told(edge))
            first.__exit__()
            same("once it is gone", [UNASSEMBLED] * 3, [told(edge) for _ in range(3)])
            hosts.say(SECOND)
            for_a_while("while nobody is there", UNASSEMBLED, lambda: told(edge))
            page = {"/in": sized(OK + '|surrogate-control: content="ESI/1.0"', "[<esi:include src='/x'/>]")}
            with Wires({**of("second"), **page}, SECOND, first.port):
                found("another address with %s" % (words,), edge, b"second")
                same("in a page", (200, b"[second]"), told(edge, "/in"))
            hosts.say(FIRST)
            with Wires(of("again"), FIRST, first.port):
                found("the first address with %s" % (words,), edge, b"again")


def without_the_option_a_name_keeps_its_address():
    """So it does with 0. Its origin is asked again where it was, once it is there."""
    for words in ((), ("--origin-lookup", "0")):
        with Hosts("shop.internal") as hosts, Wires(of("first"), FIRST) as first, Wires(of("second"), SECOND, first.port) as second:
            with edge_of(hosts, first, *words) as edge:
                same("at first", (200, b"first"), told(edge))
                first.__exit__()
                hosts.say(SECOND)
                for_a_while("once it is gone, with %s" % (words,), UNASSEMBLED, lambda: told(edge))
                with Wires(of("again"), FIRST, first.port):
                    same("once it is there again", (200, b"again"), told(edge))
                same("what was asked for elsewhere", [], second.heads)


def an_address_is_not_looked_up():
    """An origin by its address is asked there and nowhere else, though another one listens."""
    with Wires(of("first"), FIRST) as first, Wires(of("second"), SECOND, first.port) as second, before(first, *LOOKUP) as edge:
        same("at first", (200, b"first"), told(edge))
        first.__exit__()
        for_a_while("once it is gone", UNASSEMBLED, lambda: told(edge))
        with Wires(of("again"), FIRST, first.port):
            same("once it is there again", (200, b"again"), told(edge))
        same("what was asked for elsewhere", [], second.heads)


def a_name_is_not_looked_up_while_connections_are_made():
    """Whatever comes over them: errors, half of an answer, or nothing within the limit of time."""
    texts = {**of("first"), "/500": sized("HTTP/1.1 500 Failing", "5"), "/cut": wire(OK + "|content-length: 9||1"), "/none": b"", "/hangs": lambda _: time.sleep(PATIENCE)}
    rows = (("/p", (200, b"first")), ("/500", (500, b"5")), ("/cut", UNASSEMBLED), ("/none", UNASSEMBLED), ("/hangs", UNASSEMBLED))
    for words in ONE_BY_ONE_AND_AT_ONCE:
        with Hosts("shop.internal") as hosts, Wires(texts, FIRST) as first, Wires(of("second"), SECOND, first.port) as second:
            # Where the machine is busy, the limit of time is long enough for all that don't hang.
            with edge_of(hosts, first, *LOOKUP, "--timeout", "1500", *words) as edge:
                hosts.say(SECOND)
                for at in range(2):
                    same("round %d with %s" % (at, words), rows, tuple((target, told(edge, target)) for target, _ in rows))
                for_a_while("and on", (200, b"first"), lambda: told(edge), 1.5)
                same("what was asked for elsewhere", [], second.heads)


def a_connection_that_is_not_made_in_time_has_its_name_looked_up():
    """An origin that neither takes connections nor refuses them is left as well."""
    for words in ONE_BY_ONE_AND_AT_ONCE:
        with Hosts("shop.internal") as hosts, socket.create_server((FIRST, 0), backlog=0) as full:
            port = full.getsockname()[1]
            # Whom nobody accepts: there is no room for another one.
            with socket.create_connection((FIRST, port), PATIENCE), Wires(of("second"), SECOND, port) as second:
                with edge_of(hosts, second, *LOOKUP, "--timeout", "500", *words) as edge:
                    hosts.say(SECOND)
                    same("at first", UNASSEMBLED, told(edge))
                    found("another address with %s" % (words,), edge, b"second")


def each_origin_is_looked_up_by_itself():
    """Of two whose names have another address, the one that is gone is found there, and the other one is asked where it is. An
    origin of two authorities is found for both."""
    with Hosts("shop.internal", "news.internal") as hosts, Wires(of("shop"), FIRST) as shop, Wires(of("news"), FIRST) as news:
        origins = ("a.test=shop.internal:%d" % shop.port, "b.test=news.internal:%d" % news.port, "c.test=shop.internal:%d" % shop.port)
        options = [word for it in origins for word in ("--origin", it)]
        with Edge(*options, *LOOKUP, by=hosts.by) as edge, Wires(of("moved"), SECOND, shop.port), Wires(of("other"), SECOND, news.port) as other:
            hosts.say(SECOND)
            shop.__exit__()
            soon("the one that is gone", lambda: told(edge) == (200, b"moved"))
            soon("for its other authority", lambda: told(edge, host="c.test") == (200, b"moved"))
            for_a_while("the one that is there", (200, b"news"), lambda: told(edge, host="b.test"))
            same("what was asked for elsewhere", [], other.heads)


def names_are_not_looked_up_more_often_than_that():
    """The first look-up comes at once, however many seconds there are between two; the next one only behind these."""
    for moves in ("before", "behind"):
        with Hosts("shop.internal") as hosts, Wires(of("first"), FIRST) as first, Wires(of("second"), SECOND, first.port) as second:
            with edge_of(hosts, first, "--origin-lookup", "86400") as edge:
                same("at first", (200, b"first"), told(edge))
                if moves == "before":
                    hosts.say(SECOND)
                first.__exit__()
                same("once it is gone", UNASSEMBLED, told(edge))
                if moves == "before":
                    found("by the first look-up", edge, b"second")
                    continue
                # For the look-up, which changes nothing.
                time.sleep(2)
                hosts.say(SECOND)
                for_a_while("behind it", UNASSEMBLED, lambda: told(edge))
                same("what was asked for elsewhere", [], second.heads)


def a_name_without_an_address_keeps_its_last():
    """Once the system knows none, the origin is asked where it was; and its thread has others to look up still."""
    with Hosts("shop.internal") as hosts, Wires(of("first"), FIRST) as first, edge_of(hosts, first, *LOOKUP) as edge:
        same("at first", (200, b"first"), told(edge))
        hosts.say(FIRST, ["none.internal"])
        first.__exit__()
        for_a_while("once it is gone", UNASSEMBLED, lambda: told(edge))
        with Wires(of("again"), FIRST, first.port):
            same("once it is there again", (200, b"again"), told(edge))
        hosts.say(SECOND)
        with Wires(of("second"), SECOND, first.port):
            found("another address", edge, b"second")


def older_answers_stand_in_until_it_is_found():
    """What may stand in does so while the origin is gone, and what the new one has comes then."""
    for words in ONE_BY_ONE_AND_AT_ONCE:
        kept = OK + "|surrogate-control: max-age=1+600"
        with Hosts("shop.internal") as hosts, Wires(of("first", kept), FIRST) as first, edge_of(hosts, first, *LOOKUP, *words) as edge:
            same("at first", (200, b"first"), told(edge))
            first.__exit__()
            hosts.say(SECOND)
            for_a_while("while nobody is there", (200, b"first"), lambda: told(edge))
            with Wires(of("second", kept), SECOND, first.port):
                found("another address with %s" % (words,), edge, b"second")


def an_origin_that_rests_is_found_behind_its_rest():
    """Five failures have it rest, wherever it is by then; the fetch behind the rest reaches it where it is."""
    for words in ONE_BY_ONE_AND_AT_ONCE:
        with Hosts("shop.internal") as hosts, Wires(of("first"), FIRST) as first, edge_of(hosts, first, *LOOKUP, "--origin-rest", "2", *words) as edge:
            first.__exit__()
            same("once it is gone", [UNASSEMBLED] * 8, [told(edge) for _ in range(8)])
            hosts.say(SECOND)
            with Wires(of("second"), SECOND, first.port):
                found("another address with %s" % (words,), edge, b"second")


def kept_connections_stay_in_use():
    """One to an origin that takes no further ones is used as long as it lives, though others are made to another address by then."""
    released = threading.Event()

    def first_has(target, _):
        return sized(OK, "first") if target != "/hold" or released.wait(PATIENCE) else b"", False

    with Hosts("shop.internal") as hosts, Lasting(first_has, FIRST) as first, Wires(of("second"), SECOND, first.port) as second:
        with edge_of(hosts, first, *LOOKUP, "--origin-keep-alive", "4") as edge:
            same("at first", (200, b"first"), told(edge))
            first.__exit__()
            hosts.say(SECOND)
            same("over the connection", [(200, b"first")] * 5, [told(edge) for _ in range(5)])
            same("what was asked for elsewhere", [], second.heads)
            held = begun(lambda: told(edge, "/hold"))
            soon("it is in use", lambda: first.heads[-1].startswith(b"GET /hold "))
            same("a further one", UNASSEMBLED, told(edge))
            found("a further one, elsewhere", edge, b"second")
            released.set()
            same("what it was in use for", [(200, b"first")], ended([held]))
            same("over the connection again", [(200, b"first")] * 5, [told(edge) for _ in range(5)])
            same("connections to the first address", 1, first.connections)


def one_thread_looks_names_up():
    """With the option there is one more, and without it, or with 0, none."""
    counts = {}
    with Wires(of("first"), FIRST) as first:
        for words in ((), ("--origin-lookup", "0"), LOOKUP):
            with before(first, *words) as edge:
                same("a page", (200, b"first"), told(edge))
                # Those that serve are started one after another.
                time.sleep(1)
                counts[words] = threads_of(edge)
    same("threads", {(): counts[()], ("--origin-lookup", "0"): counts[()], LOOKUP: counts[()] + 1}, counts)


def a_stop_does_not_wait_for_the_next_look_up():
    """Neither while an origin is gone whose name was looked up, nor while all is well."""
    for is_gone in (False, True):
        with Wires(of("first"), FIRST) as first, before(first, *ADMIN, "--origin-lookup", "86400") as edge:
            desk = Desk(edge)
            same("at first", (200, b"first"), told(edge))
            if is_gone:
                first.__exit__()
                same("once it is gone", UNASSEMBLED, told(edge))
            same("a stop", b"stopping\n", desk.ask("/stop", "POST").body)
            same("exit status", 0, edge.ends())


TESTS = (
    a_name_is_looked_up_once_its_origin_is_gone,
    without_the_option_a_name_keeps_its_address,
    an_address_is_not_looked_up,
    a_name_is_not_looked_up_while_connections_are_made,
    a_connection_that_is_not_made_in_time_has_its_name_looked_up,
    each_origin_is_looked_up_by_itself,
    names_are_not_looked_up_more_often_than_that,
    a_name_without_an_address_keeps_its_last,
    older_answers_stand_in_until_it_is_found,
    an_origin_that_rests_is_found_behind_its_rest,
    kept_connections_stay_in_use,
    one_thread_looks_names_up,
    a_stop_does_not_wait_for_the_next_look_up,
)
