"""What the tests of the server are made of: origins, an edge, and clients, all on free ports of 127.0.0.1.
Each process is ended by its own id."""
import os
import re
import resource
import socket
import subprocess
import sys
import threading
import time

HERE = os.path.dirname(os.path.realpath(__file__))
sys.path.insert(0, os.path.join(HERE, "..", "..", "examples", "site"))
import origin as site_origin  # noqa: E402

BUILDS = os.path.join(HERE, "..", "..", "esi_edge")
# What that builds. The script looks for newer sources at each start, which takes longer than the start itself.
PROGRAM = os.path.join(HERE, "..", "..", "crates", "edge_main", "out", "edge_main")
# How long a client of these tests waits for anything: it only bounds a run that has failed.
PATIENCE = 20
# After how many seconds at most a server has written the lines of its log.
TICK = 0.3
TEMPLATE = 'content="ESI/1.0"'


class Wrong(Exception):
    """What was wanted, and what came."""


class Skipped(Exception):
    """What a test needs that isn't there."""


def same(what, wanted, came):
    if wanted != came:
        raise Wrong("%s\n  wanted %r\n  came   %r" % (what, wanted, came))


class Origin:
    """An origin in a thread of its own; `paths` are those of the example site where none are given."""

    def __init__(self, paths=None, port=0, site=None):
        self.server = site_origin.Origin(port, site or site_origin.Site(paths))
        self.site = self.server.site
        self.port = self.server.server_address[1]
        self.at = "127.0.0.1:%d" % self.port
        self.thread = threading.Thread(target=self.server.serve_forever, args=(0.02,), daemon=True)
        self.thread.start()

    def __enter__(self):
        return self

    def __exit__(self, *_):
        self.server.closing.set()
        self.server.shutdown()
        self.server.server_close()
        self.thread.join()


class Listening:
    """A port, a free one of 127.0.0.1 if no other is named, at which a thread accepts connections until this ends. It keeps the heads that
    came."""

    def __init__(self, host="127.0.0.1", port=0):
        self.heads = []
        self.listener = socket.create_server((host, port), backlog=128)
        self.port = self.listener.getsockname()[1]
        self.at = "%s:%d" % (host, self.port)
        self.thread = threading.Thread(target=self.accept, daemon=True)
        self.thread.start()

    def __enter__(self):
        return self

    def __exit__(self, *_):
        # A test may have ended it before.
        if self.listener.fileno() < 0:
            return
        self.listener.shutdown(socket.SHUT_RDWR)
        self.thread.join()
        self.listener.close()

    def accept(self):
        while True:
            try:
                connection, _ = self.listener.accept()
            except OSError:
                return
            self.accepted(connection)


class Wires(Listening):
    """An origin in a thread of its own that sends for each target these very bytes, and hangs up; for
    another none. Bytes that are to go on without end are one piece of them, in a list; a function
    says what to send when it is asked for, or sends it itself. It keeps what it was asked."""

    def __init__(self, texts, *place):
        self.texts = dict(texts)
        self.sent = 0
        super().__init__(*place)

    def asked(self):
        """The targets that were asked for, in order."""
        return [head.split(b" ")[1].decode() for head in self.heads]

    def accepted(self, connection):
        try:
            text = self.asked_of(connection)
        except OSError:
            return connection.close()
        # What takes no time is sent at once: a thread for each connection takes longer.
        if isinstance(text, bytes) and len(text) < 65536:
            self.send(connection, text)
        else:
            threading.Thread(target=self.send, args=(connection, text), daemon=True).start()

    def asked_of(self, connection):
        """What is to be sent for what comes."""
        connection.settimeout(PATIENCE)
        head = b""
        while b"\r\n\r\n" not in head:
            more = connection.recv(4096)
            if not more:
                return b""
            head += more
        self.heads.append(head)
        return self.texts.get(head.split(b" ")[1].decode(), b"")

    def send(self, connection, text):
        with connection:
            try:
                if callable(text):
                    text = text(connection) or b""
                if isinstance(text, bytes):
                    return connection.sendall(text)
                connection.sendall(text[0])
                while True:
                    self.sent += connection.send(text[1])
            except OSError:
                # An edge that has read enough hangs up.
                pass


def threads_of_this_user():
    count = 0
    for pid in filter(str.isdigit, os.listdir("/proc")):
        try:
            if os.stat("/proc/" + pid).st_uid == os.getuid():
                count += len(os.listdir("/proc/%s/task" % pid))
        except OSError:
            pass
    return count


def limit_threads(count):
    """Lets this process have so many threads. Root has no such limit, and becomes somebody who runs nothing else."""
    if os.getuid() == 0:
        resource.setrlimit(resource.RLIMIT_NPROC, (count, count))
        os.setgroups([])
        os.setgid(65533)
        os.setuid(65533)
    else:
        most = threads_of_this_user() - 1 + count
        resource.setrlimit(resource.RLIMIT_NPROC, (most, most))


def all_at_once(calls):
    """What these calls give, each by a thread of its own."""
    came = []
    threads = [threading.Thread(target=lambda call=call: came.append(call())) for call in calls]
    for thread in threads:
        thread.start()
    for thread in threads:
        thread.join()
    return came


class Edge:
    """An edge, with the options of `serve` after `--listen`, at this port or a free one, which may have so many files
    open, and threads; in this process's environment with what is added to it. Its standard input is empty, or a pipe.
    By words before it another program starts it."""

    def __init__(self, *options, port=0, files=None, threads=None, added=None, piped=False, by=()):
        words = ["serve", "--listen", "127.0.0.1:%d" % port, *options]

        def limited():
            if files:
                resource.setrlimit(resource.RLIMIT_NOFILE, (files, files))
            if threads:
                limit_threads(threads)

        # By its descriptor, since whom the process becomes may not reach the program by its path.
        with open(PROGRAM, "rb") as program:
            path = "/proc/self/fd/%d" % program.fileno()
            self.process = subprocess.Popen(
                [*by, path, *words] if by else ["esi_edge", *words], executable=None if by else path, pass_fds=[program.fileno()], preexec_fn=limited,
                env={**os.environ, **(added or {})}, stdin=subprocess.PIPE if piped else subprocess.DEVNULL, stdout=subprocess.PIPE, stderr=subprocess.PIPE
            )
        self.is_logged = any(word.startswith("--log") for word in options)
        line = self.process.stdout.readline()
        found = re.fullmatch(rb"listening on 127\.0\.0\.1:([1-9][0-9]*)\n", line)
        if not found:
            self.process.kill()
            raise Wrong("the edge's first line\n  wanted 'listening on 127.0.0.1:PORT'\n  came   %r" % line)
        self.port = int(found.group(1))

    def __enter__(self):
        return self

    def __exit__(self, *_):
        self.end()

    def end(self):
        if self.process.stdout.closed:
            return self.said
        if self.process.poll() is None:
            if self.is_logged:
                # Lines may wait for the server's next tick.
                time.sleep(TICK)
            self.process.kill()
        self.process.wait()
        if self.process.stdin:
            self.process.stdin.close()
        self.process.stdout.close()
        self.said = self.process.stderr.read()
        self.process.stderr.close()
        return self.said

    def ends(self):
        """Waits until it ends, and gives its exit status."""
        return self.process.wait(PATIENCE)


def ended(*words, preexec_fn=None):
    """How `serve` ended with these words: its status, and what it said on standard output and standard error."""
    run = subprocess.run(
        ["esi_edge", "serve", *words], executable=PROGRAM, stdin=subprocess.DEVNULL, capture_output=True, timeout=PATIENCE, preexec_fn=preexec_fn
    )
    return run.returncode, run.stdout, run.stderr


def before(origin, *options, **limits):
    """An edge that asks this origin for everything."""
    return Edge("--origin", "*=" + origin.at, *options, **limits)


def client(edge, sent=b"", ends=False):
    """A connection that has sent these bytes, and perhaps has ended its input."""
    connection = socket.create_connection(("127.0.0.1", edge.port), PATIENCE)
    connection.sendall(sent)
    if ends:
        connection.shutdown(socket.SHUT_WR)
    return connection


def exchange(edge, sent):
    """Sends bytes over one connection, and gives all that comes back."""
    with client(edge, sent) as connection:
        return rest(connection)


def asks_until_the_end(edge, sent, came):
    """Sends bytes over one connection after another, until nobody accepts any longer, and adds to a list what comes back of each."""
    try:
        while True:
            came.append(exchange(edge, sent))
    except OSError:
        pass


def rest(connection):
    came = []
    while True:
        more = connection.recv(65536)
        if not more:
            return b"".join(came)
        came.append(more)


class Response:
    def __init__(self, came):
        head, _, self.body = came.partition(b"\r\n\r\n")
        lines = head.decode("latin-1").split("\r\n")
        self.status = int(lines[0].split(" ")[1]) if lines[0].startswith("HTTP/1.") else None
        self.fields = dict((name.lower(), value) for name, _, value in (line.partition(": ") for line in lines[1:]))


def get(edge, target, host="a.test", fields="", method="GET"):
    head = "%s %s HTTP/1.1\r\nHost: %s\r\n%s\r\n" % (method, target, host, fields)
    return Response(exchange(edge, head.encode()))


def wire(text):
    """A text with `|` for the end of a line."""
    return text.replace("|", "\r\n").encode()


def sized(head, body):
    """What an origin sends with the length of its body, without which an answer isn't kept: the lines of the head,
    with `|` between them, and the body."""
    return wire("%s|content-length: %d||" % (head, len(body))) + body.encode()


# A template, of a text on one line, as its origin sends it, to the end of the connection.
PAGE = 'HTTP/1.1 200 OK|surrogate-control: content="ESI/1.0"||'
UNASSEMBLED = (502, b"The page could not be assembled.\n")
# What asks for a page.
ASKED = wire("GET /p HTTP/1.1|host: a.test||")


def told(edge, target="/p", host="a.test"):
    got = get(edge, target, host)
    return got.status, got.body


TRY = (b'<esi:try><esi:attempt>[<esi:include src="/x"/>]</esi:attempt><esi:except>none</esi:except></esi:try>', "text/html", TEMPLATE)
PLAIN = {"/p": TRY, "/x": (b"12345678", "text/plain", "")}
