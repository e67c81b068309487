"""What the tables of a document name: rows `Promise | Function | Clause` and rows `Body | Test`, and whether each name is there.

A function, type or trait is named with its crate, as `plan_runner::Page::advance`. Clause has names of its clauses, or
texts in them (`..` is whatever is left out); in parentheses stand definitions that these texts name. Test has functions
of tests, or files and folders of them.
"""
import functools
import os
import re

from contracts import CRATES, TOP, plain, promises_of
from wrong_checks import sources_of
from wrong_edits import text_of

QUOTED = re.compile(r"`([^`]+)`")


def cells(line):
    return [it.strip().replace("\\|", "|") for it in re.split(r"(?<!\\)\|", line)[1:-1]]


def tables(text):
    """The rows of each table in a text, with those of its head."""
    head = None
    for line in text.split("\n"):
        if head and line.startswith("| "):
            yield head, cells(line)
        head = (head or cells(line)) if line.startswith("|") else None


@functools.lru_cache(None)
def promises_by_path(crate):
    """The clauses of each function, trait and type of a crate, with its path."""
    found = [it for file, source in sources_of(CRATES[crate]).items() for it in promises_of(file, source)] if crate in CRATES else []
    return [(it.path.partition(" as ")[0], it.clauses) for it in found]


def clauses_of(name):
    """The clauses of the functions and types of a name, by function. An `impl` whose head takes several lines gives its functions no owner."""
    crate, _, path = name.partition("::")
    own, every = path.rpartition("::")[2], promises_by_path(crate)
    found = [clauses for it, clauses in every if f"::{it}".endswith(f"::{path}")]
    return found or [clauses for it, clauses in every if it.rpartition("::")[2] == own and not re.search(r"::[A-Z]\w*::", f"::{it}")]


@functools.lru_cache(None)
def tests():
    """The names of all tests: functions of scripts and of crates, and files and folders of cases."""
    found = set()
    for top in ("tests", "examples"):
        for at, folders, files in os.walk(f"{TOP}/{top}"):
            found |= {os.path.relpath(f"{at}/{it}", TOP) for it in (*folders, *files)} | set(folders)
            for it in files:
                if it == "run" or it.endswith(".py"):
                    found |= set(re.findall(r"^(?:def )?(\w+)\(.*\)(?: \{.*|:)$", text_of(f"{at}/{it}"), re.M))
    for name, crate in CRATES.items():
        found.add(name)
        for source in sources_of(crate).values():
            found |= set(re.findall(r"^ *#\[test\]\n *(?:pub )?fn (\w+)", source, re.M))
    return found


def has_words(text, told):
    """Whether a text has another one, or each piece of one that leaves something out by `..`, as whole words."""
    pieces = [plain(it) for it in told.split("..") if it.strip()]
    return all(re.search(rf"(?<!\w){re.escape(it)}(?!\w)", text) for it in pieces)


def is_in(clause, told, is_definition):
    """Whether a name is that of a clause, or a text or a definition is in it."""
    is_name = not is_definition and re.fullmatch(r"[a-z]\w*", told)
    return clause.name == told if is_name else has_words(clause.text, told)


def names_in(cell):
    """Each name or text in a cell of clauses, and whether it is a definition."""
    depth = 0
    for before, name in re.findall(r"([^`]*)`([^`]+)`", cell):
        depth += before.count("(") - before.count(")")
        yield name, depth > 0


def named_by(functions, clauses):
    """What a row of promises names, and whether it is there."""
    promised = []
    for name in QUOTED.findall(functions):
        found = clauses_of(name)
        promised += [clause for it in found for clause in it]
        yield f"function `{name}`", bool(found)
    for told, is_definition in names_in(clauses):
        what = "definition" if is_definition else "clause"
        yield f"{what} `{told}`", any(is_in(it, told, is_definition) for it in promised)


def wrong_names(text):
    """What the tables of a document name that isn't there, and how many names there are."""
    found, count = [], 0
    for head, row in tables(text):
        if head[1:3] == ["Function", "Clause"]:
            named = list(named_by(row[1], row[2]))
        elif head == ["Body", "Test"]:
            named = [(f"test `{it}`", it in tests()) for it in QUOTED.findall(row[1])]
        else:
            continue
        count += len(named)
        found += [f"no {what}: {row[0][:60]}" for what, is_there in named if not is_there]
    return found, count
