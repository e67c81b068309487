"""Threads that can't be started, once, for a while and for good: a preloaded library refuses them."""
import contextlib
import os
import subprocess
import tempfile
import threading
import time

from harness import HERE, PATIENCE, PLAIN, Origin, Wires, Wrong, all_at_once, before, client, get, rest, same, sized, wire

STOPS = ("--stop-with-input", "--client-timeout", "30000", "--workers", "1")
# How many pages have to be made at one time, each by a thread of its own.
AT_ONCE = 4


@contextlib.contextmanager
def refused(**numbers):
    """What is added to a program's environment so that it is refused threads, and a file for as long as which exists."""
    with tempfile.TemporaryDirectory() as room:
        library, sign = os.path.join(room, "refuse_threads.so"), os.path.join(room, "sign")
        source = os.path.join(HERE, "..", "..", "tools", "refuse_threads.c")
        subprocess.run(["cc", "-O2", "-shared", "-fPIC", "-o", library, source, "-ldl"], check=True)
        with open(sign, "w"):
            yield {"LD_PRELOAD": library, "REFUSED_WHILE": sign, **{name: str(number) for name, number in numbers.items()}}, sign


def pages_made_at_once():
    """An origin whose answers come only once as many are asked for at one time."""
    meeting = threading.Barrier(AT_ONCE, timeout=PATIENCE)

    def answer(_):
        meeting.wait()
        return sized("HTTP/1.1 200 OK", "made")

    return Wires({"/%d" % page: answer for page in range(AT_ONCE)})


def at_full_speed(what, edge):
    """Pages that are made only if as many threads make them at one time."""
    came = all_at_once([lambda page=page: get(edge, "/%d" % page).body for page in range(AT_ONCE)])
    same(what, [b"made"] * AT_ONCE, came)


def has_threads(what, edge, count):
    """Waits until it has so many threads, the one that starts the others included."""
    end = time.monotonic() + PATIENCE
    while len(os.listdir("/proc/%d/task" % edge.process.pid)) < count:
        if end < time.monotonic():
            raise Wrong("%s\n  wanted %d threads" % (what, count))
        time.sleep(0.02)


def stopped(what, edge):
    """The end of a server whose input ends."""
    began = time.monotonic()
    edge.process.stdin.close()
    same(what + ": exit status", 0, edge.ends())
    same(what + ": it ends within two seconds", True, time.monotonic() - began < 2)
    same(what + ": standard error", b"", edge.end())


def a_thread_that_fails_once_is_started_later():
    """The first thread, the second or the third can't be started, one time: a second later there are as many as are
    needed, also for a client who was waited for."""
    for started in range(3):
        what = "after %d" % started
        with refused(STARTED=started, REFUSED=1) as (added, _), pages_made_at_once() as origin:
            with before(origin, *STOPS, added=added, piped=True) as edge:
                with client(edge, b"GET /none HTTP/1.1\r\n") as slow:
                    # One that accepts, and one that goes on with the client who was waited for.
                    has_threads(what, edge, 3)
                    at_full_speed(what, edge)
                    slow.sendall(wire("host: a.test||"))
                    same(what + ": a client who was waited for", True, rest(slow).startswith(b"HTTP/1.1 502 "))
                stopped(what, edge)


def while_no_thread_starts_pages_are_made():
    """While no thread can be started, or none but the first or the first two, everybody is served, whoever else is waited
    for, and a stop ends the server."""
    for started in range(3):
        what = "with %d" % started
        with refused(STARTED=started) as (added, _), Origin(PLAIN) as origin:
            with before(origin, *STOPS, "--keep-alive", "30", added=added, piped=True) as edge:
                with client(edge, b"GET /p HTTP/1.1\r\n") as slow:
                    for nth in range(3):
                        same("%s: page %d" % (what, nth), b"[12345678]", get(edge, "/p", fields="Connection: close\r\n").body)
                    slow.sendall(wire("host: a.test|connection: close||"))
                    same(what + ": a client who was waited for", True, rest(slow).endswith(b"[12345678]"))
                stopped(what, edge)


def threads_are_started_once_they_can_be():
    """For a second no thread can be started: from then on the server runs at full speed."""
    with refused() as (added, sign), pages_made_at_once() as origin:
        with before(origin, *STOPS, added=added, piped=True) as edge:
            same("before", 502, get(edge, "/none").status)
            time.sleep(1)
            os.remove(sign)
            has_threads("afterwards", edge, 2)
            at_full_speed("afterwards", edge)
            stopped("afterwards", edge)


TESTS = (
    a_thread_that_fails_once_is_started_later,
    while_no_thread_starts_pages_are_made,
    threads_are_started_once_they_can_be,
)
