"""The options of `serve`, its end and its log."""
import ctypes
import re
import tempfile

from documented import numbers, options
from harness import PLAIN, TEMPLATE, Edge, Origin, before, ended, exchange, get, same


def the_edge_ends_after_its_connections():
    """With --accept it ends with status 0 once this many connections have ended, whatever they got."""
    with Origin(PLAIN) as origin, before(origin, "--accept", "3") as edge:
        same("first", 200, get(edge, "/p").status)
        exchange(edge, b"nothing of HTTP\r\n\r\n")
        same("still there", None, edge.process.poll())
        get(edge, "/p")
        same("exit status", 0, edge.ends())
        same("standard error", b"", edge.end())
    with Edge("--accept", "0") as edge:
        same("exit status of none", 0, edge.ends())


def requests_are_told():
    """With --log a line for each request: seconds, method, URL, status, bytes, answers, microseconds. A
    fragment that is asked for often is one answer, and what is no request has nothing that was asked."""
    paths = dict(PLAIN, **{"/often": (b"A" + b"<esi:include src='/x'/>" * 20 + b"B", "text/html", TEMPLATE)})
    with Origin(paths) as origin, before(origin, "--log", "--accept", "6") as edge:
        get(edge, "/p?a=1")
        get(edge, "/none")
        get(edge, "/often")
        get(edge, "/p", method="PUT")
        exchange(edge, b"no head\r\n\r\n")
        exchange(edge, b"GET / HTTP/1.0\r\n\r\n")
        same("exit status", 0, edge.ends())
        lines = sorted(edge.end().decode().splitlines())
        wanted = (
            r"\d{10,} GET http://a\.test/p\?a=1 200 10 2 \d+",
            r"\d{10,} GET http://a\.test/none 404 23 1 \d+",
            r"\d{10,} GET http://a\.test/often 200 162 2 \d+",
            r"\d{10,} PUT \S+ 405 20 0 \d+",
            r"\d{10,} - - 400 0 0 \d+",
            r"\d{10,} GET / 400 27 0 \d+",
        )
        same("lines", len(wanted), len(lines))
        for pattern in wanted:
            same("%s in %r" % (pattern, lines), 1, sum(1 for line in lines if re.fullmatch(pattern, line)))


def usage_is_told():
    """Words that ask for nothing: status 2, nothing on standard output, a text on standard error."""
    here = ["--listen", "127.0.0.1:0"]
    rows = [[], ["--listen"], ["--listen", "127.0.0.1"], ["--listen", "localhost:80"], ["--listen", "127.0.0.1:65536"]]
    rows += [here + words for words in (
        here, ["more"], ["--origin"], ["--origin", "a.test"], ["--origin", "a.test=b.test"], ["--origin", "a.test="],
        ["--origin", "a.test=127.0.0.1:80", "--origin", "a.test=127.0.0.1:81"], ["--origin", "*=127.0.0.1:80", "--origin", "*=127.0.0.1:80"],
        ["--workers", "2", "--workers", "2"], ["--accept", "+1"], ["--accept", ""], ["--timeout", "1s"], ["--client-timeout", "-"],
        ["--name", ""], ["--name", "a b"], ["--name", "a/b"], ["--name", "n" * 65], ["--name", "a", "--name", "b"],
        ["--head", "x"], ["--head=yes"], ["--abort-on-close", "x"], ["--abort-on-close", "--abort-on-close"], ["--stop-with-input", "x"], ["--log", "x"], ["--log=yes"], ["--log", "--log"], ["--log-format"], ["--log-format", "JSON"], ["--log-format="],
        ["--admin", "127.0.0.1"], ["--admin", "localhost:1"], ["--admin="],
        ["--admin-host", "edge.internal"], ["--admin", "127.0.0.1:0", "--admin-host="], ["--admin", "127.0.0.1:0", "--admin-host", "a,"],
        ["--admin", "127.0.0.1:0", "--admin-host", "a b"], ["--admin", "127.0.0.1:0", "--admin-host", "edge.internal:9081"],
        ["--admin", "127.0.0.1:0", "--admin-host", "*"], ["--admin", "127.0.0.1:0", "--admin-host", "a", "--admin-host", "b"],
        ["--forwarded", ""], ["--forwarded", "a b"], ["--forwarded", "f" * 65],
        ["--pass-fields"], ["--pass-fields", "a", "--pass-fields", "b"], ["--private"], ["--private", "http://a.test/", "--private", "http://b.test/"],
        ["--private-cookies"], ["--private", "http://a.test/", "--private-cookies", "a", "--private-cookies", "b"], ["--send-fields"], ["--forward-fields"],
        ["--private", "http://a.test/", "--forward-fields", "a", "--forward-fields", "b"], ["--body-bytes", "300000", "--body-bytes", "300000"], ["--cache-control", "x"], ["--cache-control=yes"], ["--cache-control", "--cache-control"],
        ["--process-errors", "x"], ["--process-errors=yes"], ["--process-errors", "--process-errors"],
        ["--origin-lookup"], ["--origin-lookup="], ["--origin-lookup", "5s"], ["--origin-lookup", "5", "--origin-lookup", "5"],
    )]
    for words in rows:
        status, printed, said = ended(*words)
        same(" ".join(words), (2, b"", True), (status, printed, said != b""))


def numbers_beyond_their_limits_are_told():
    """A word that is no number, one below the smallest number and one above the largest: status 2, and both limits."""
    for option in numbers():
        for word in ("four", str(int(option.least) - 1), str(int(option.most) + 1)):
            status, printed, said = ended("--listen", "127.0.0.1:0", "--%s=%s" % (option.name, word))
            wanted = "error: --%s takes (a number|milliseconds,|seconds,) from %s to %s\n" % (option.name, option.least, option.most)
            same("--%s %s" % (option.name, word), (2, b"", True), (status, printed, re.fullmatch(wanted, said.decode()) is not None))


def help_says_what_the_document_says():
    """The options of docs/OPTIONS.md in their order, each with a value if it takes one, its limits and its default."""
    status, printed, said = ended("--help")
    same("exit status", (0, b""), (status, said))
    lines = re.findall(r"^ +--([\w-]+)( <\S+>)? {2,}(\S.*)$", printed.decode(), re.M)
    told = [(name, bool(value), *limits_in(text), *re.findall(r"\[default: (\d+)\]$", text)) for name, value, text in lines if name != "help"]
    same("options", [(it.name, it.has_value, *it.limits(), *it.defaults()) for it in options()], told)


def limits_in(text):
    """The smallest and the largest number, where a text of help has them."""
    return next(iter(re.findall(r"from (\d+) to (\d+)", text)), ())


def what_an_origin_is_instead_is_told():
    """A word of --origin whose authority no URL has, or that has no address: status 2, and what to write."""
    rows = (
        ("a.test", b"takes AUTHORITY=ADDR"), ("News.Example=127.0.0.1:80", b"in lower case"), ("a.test:80=127.0.0.1:80", b"without `:80`"),
        ("http://a.test=127.0.0.1:80", b"only the host"), ("a.test/=127.0.0.1:80", b"only the host"), ("a test=127.0.0.1:80", b"only the host"),
        ("a.test =127.0.0.1:80", b"only the host"), ("=127.0.0.1:80", b"only the host"), ("me@a.test=127.0.0.1:80", b"only the host"),
        ("*.example=127.0.0.1:80", b"`*` alone"), ("a.test=127.0.0.1", b"takes an address with a port"), ("a.test=127.0.0.1:65536", b"takes an address with a port"),
        ("a.test=:80", b"takes an address with a port"), ("a.test=b test:80", b"takes an address with a port"), ("a.test=http://b.test:80", b"takes an address with a port"),
    )
    for word, wanted in rows:
        status, printed, said = ended("--listen", "127.0.0.1:0", "--origin", word)
        same(word, (2, b"", True), (status, printed, said.startswith(b"error: --origin ") and wanted in said and said.count(b"\n") == 1))
    twice = ["--origin", "a.test=127.0.0.1:80", "--origin", "a.test=127.0.0.1:81"]
    same("twice", (2, b"", b"error: --origin takes each authority once\n"), ended("--listen", "127.0.0.1:0", *twice))


# Which fields can't be passed: those of a connection, and those that the edge writes or reads itself.
NOT_PASSED = (
    "connection", "keep-alive", "proxy-authenticate", "proxy-authorization", "proxy-connection", "te", "trailer", "transfer-encoding", "upgrade",
    "content-encoding", "content-length", "content-type", "date", "set-cookie", "surrogate-capability", "surrogate-control",
)


def names_of_fields_that_are_not_passed_are_told():
    """No names, an empty one, one that is no token or too long, and those of fields that can't be passed, whatever the case of their
    letters and wherever they stand: status 2, and a line. Other names are taken, with blanks around them."""
    said = b"error: --pass-fields takes field names with commas between, as location,cache-control, none of a connection, of a body's length, type or coding, nor set-cookie without --private\n"
    words = ["", " ", "\t", ",", "a,", ",a", "a,,b", "a, ,b", "a b", "a\n", "a:", "a\u00e9", "n" * 65, "a," + "n" * 65]
    for name in NOT_PASSED:
        words += [name, name.title(), name.upper() + ",location", "location ,\t%s " % name]
    for word in words:
        same(repr(word), (2, b"", said), ended("--listen", "127.0.0.1:0", "--pass-fields=" + word))
    for name in NOT_PASSED:
        if name != "set-cookie":
            same(name + " beside private URLs", (2, b"", said), ended("--listen", "127.0.0.1:0", "--private", "http://a.test/", "--pass-fields", name))
    for word in ("location", " location ,\tX-A\t", "n" * 64, "!#$%&'*+-.^_`|~", *("x" + name for name in NOT_PASSED)):
        status, printed, _ = ended("--listen", "127.0.0.1:0", "--pass-fields=" + word, "--accept", "0")
        same(repr(word), (0, True), (status, printed.startswith(b"listening on ")))


def prefixes_that_are_none_are_told():
    """No prefix, an empty one, one that is no URL as the edge writes it, and one with no `/` at its end or with a query: status 2, and a
    line. Other prefixes are taken, with blanks around them."""
    said = b"error: --private takes URL prefixes with commas between, as http://shop.test/box/, each with its host and a / at its end\n"
    one = "http://a.test/"
    words = [
        "", " ", ",", one + ",", "," + one, one + ",," + one, "/", "/box/", "a.test/", "http://", "http:///", "http://a.test", "http://a.test/box", "http://A.test/", "HTTP://a.test/",
        "http://a.test:80/", "https://a.test/", "http://me@a.test/", "http://a.test/x/../box/", "http://a.test/./", "http://a.test/a b/", "http://a.test/#/", "http://a.test/?/", "http://a.test/box/?a=1",
        "http://a.test\\box/", "http://*/box/", "http://*.a.test/", "http://a.test/*/", "http://a.test/" + "b" * 2048 + "/", one + " " + one, one + ", http://a.test/box",
    ]
    for word in words:
        same(repr(word), (2, b"", said), ended("--listen", "127.0.0.1:0", "--private=" + word))
    for word in (one, " http://a.test/ ,\thttp://a.test:8080/a/b%20c/\t", "http://[::1]:8080/", one + "," + one):
        status, printed, _ = ended("--listen", "127.0.0.1:0", "--private=" + word, "--accept", "0")
        same(repr(word), (0, True), (status, printed.startswith(b"listening on ")))


def names_of_cookies_that_are_none_are_told():
    """No names, an empty one, one that is no token or too long, and any where no URL is private: status 2, and a line. Other names are
    taken, with blanks around them; and then `set-cookie` may be passed."""
    said = b"error: --private-cookies takes names of cookies with commas between, as SHOPSESS, beside --private\n"
    here, private = ("--listen", "127.0.0.1:0"), "--private=http://a.test/"
    for word in ("", " ", ",", "a,", ",a", "a,,b", "a b", "a=b", "a;b", "a\"", "a\u00e9", "n" * 65):
        same(repr(word), (2, b"", said), ended(*here, private, "--private-cookies=" + word))
    same("no private URL", (2, b"", said), ended(*here, "--private-cookies", "SHOPSESS"))
    for words in (["SHOPSESS"], [" SHOPSESS ,\tother\t"], ["n" * 64], ["a,a"], ["a", "--pass-fields", "Set-Cookie, location"]):
        status, printed, _ = ended(*here, private, "--private-cookies", *words, "--accept", "0")
        same(repr(words), (0, True), (status, printed.startswith(b"listening on ")))


def the_name_of_a_host_is_looked_up():
    """An origin by the name of its host: `127.1` is no address by std's grammar, and any system knows it. One that
    the system doesn't know: status 5, and its name."""
    with Origin(PLAIN) as origin, Edge("--origin", "a.test=127.1:%d" % origin.port) as edge:
        same("a page", (200, b"[12345678]"), (get(edge, "/p").status, get(edge, "/p").body))
    long = "x" * 64 + ".test"
    said = b"error: --origin: the system knows no address of %s\n" % long.encode()
    same("an unknown host", (5, b"", said), ended("--listen", "127.0.0.1:0", "--origin", "a.test=%s:80" % long))


def connections_that_no_files_are_left_for_are_told():
    """With a limit of open files below what may be needed: a line that says for how many connections there is room, and which
    limit would do; and the edge serves."""
    rows = (
        (["--connections", "2000"], 1024, b"warning: --connections 2000 is taken as 76: 1024 files may be open, and 3568 would do (ulimit -n)\n"),
        ([], 100, b"warning: --connections 64 is taken as 5: 100 files may be open, and 864 would do (ulimit -n)\n"),
        ([], 863, b"warning: --connections 64 is taken as 63: 863 files may be open, and 864 would do (ulimit -n)\n"),
        ([], 864, b""),
        (["--threads", "1"], 36, b"warning: --connections 64 is taken as 1: 36 files may be open, and 120 would do (ulimit -n)\n"),
        (["--fetches", "64"], 200, b"warning: --connections 64 is taken as 42: 200 files may be open, and 288 would do (ulimit -n)\n"),
        (["--fetches", "64"], 288, b""),
    )
    for words, files, said in rows:
        with Origin(PLAIN) as origin, Edge("--origin", "a.test=" + origin.at, *words, files=files) as edge:
            same("a page with %d" % files, b"[12345678]", get(edge, "/p").body)
            same("standard error with %d" % files, said, edge.end())


def limits_are_taken():
    """The largest and the smallest of each number, an address of IPv6, and a thousand origins."""
    most = [word for it in numbers() for word in ("--" + it.name, it.most)] + ["--name", "n" * 64, "--pass-fields", "n" * 64, "--private", "http://" + "n" * 63 + ".test/" + "n" * 1900 + "/", "--private-cookies", "n" * 64, "--send-fields", "n" * 8191 + ":1", "--forward-fields", "n" * 64, "--head", "--abort-on-close", "--cache-control", "--process-errors", "--etag"]
    # A server that accepts nobody answers nobody.
    least = [word for it in numbers() if it.name != "accept" for word in ("--" + it.name, it.least)] + ["--name", "~"]
    many = [word for at in range(1000) for word in ("--origin", "%d.test=127.0.0.1:80" % at)]
    for words in (most, least, many, ["--origin", "a.test=[::1]:80", "--origin", "b.test=127.0.0.1:80"]):
        with Origin(PLAIN) as origin, before(origin, *words) as edge:
            same(" ".join(words), b"[12345678]", get(edge, "/p", host="c.test", fields="Connection: close\r\n").body)


def options_are_read_from_a_file():
    """With --config: the options and origins of the file hold, beside those of the line; the log is that of the line."""
    with Origin(PLAIN) as origin, tempfile.NamedTemporaryFile("w", suffix=".toml") as file:
        file.write('accept = 2\nhead = true\nlog-format = "json"\n[origins]\n"a.test" = "%s"\n' % origin.at)
        file.flush()
        with Edge("--config", file.name, "--log-format", "combined") as edge:
            same("a page", b"[12345678]", get(edge, "/p").body)
            same("its head", 200, get(edge, "/p", method="HEAD").status)
            same("exit status", 0, edge.ends())
            lines = edge.end().decode().splitlines()
            same("lines of the log", [True, True], [line.startswith("127.0.0.1 - - [") for line in lines])


def a_used_port_is_told():
    """A port that somebody listens on: status 5, and a line that says so."""
    with Origin() as origin:
        said = b"error: the address of --listen or --admin is in use: another process listens there\n"
        same("a used port", (5, b"", said), ended("--listen", origin.at))


def without_low_ports():
    """Takes CAP_NET_BIND_SERVICE from what this process will run, where it has it (PR_CAPBSET_DROP)."""
    ctypes.CDLL(None).prctl(24, 10, 0, 0, 0)


def a_port_that_is_not_permitted_is_told():
    """A port below 1024 without the right to it: status 5, and a line that says so. Where the system gives such
    ports to everybody, none is refused."""
    with open("/proc/sys/net/ipv4/ip_unprivileged_port_start") as file:
        if int(file.read()) < 2:
            return
    status, printed, said = ended("--listen", "127.0.0.1:1", preexec_fn=without_low_ports)
    same("port 1", (5, b"", True), (status, printed, said.startswith(b"error: permission for the address of --listen or --admin is denied: ")))


TESTS = (
    the_edge_ends_after_its_connections,
    requests_are_told,
    usage_is_told,
    numbers_beyond_their_limits_are_told,
    help_says_what_the_document_says,
    what_an_origin_is_instead_is_told,
    names_of_fields_that_are_not_passed_are_told,
    prefixes_that_are_none_are_told,
    names_of_cookies_that_are_none_are_told,
    the_name_of_a_host_is_looked_up,
    connections_that_no_files_are_left_for_are_told,
    limits_are_taken,
    options_are_read_from_a_file,
    a_used_port_is_told,
    a_port_that_is_not_permitted_is_told,
)
