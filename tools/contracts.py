"""What the sources of a crate promise: the clauses of each function, and ghost members of traits and types, each with the claim that a comment makes of it."""
import os
import re
from dataclasses import dataclass

from what_proofs_see import is_hidden
from wrong_checks import Repository
from wrong_edits import functions_of

TOP = os.path.dirname(os.path.dirname(os.path.realpath(__file__)))
CRATES = Repository(TOP).crates
# What has ghost members: the trait of an `impl`, if it is of one, and the name of the type or trait.
OWNER = re.compile(r" *(?:pub(?:\(\w+\))? )?(?:impl\b(?:<.*?>)? (?:&?(?:\w+::)*(\w+)(?:<.*>)? for )?|(?:trait|struct|enum) )(?:&(?:'\w+ )?(?:mut )?)?(?:\w+::)*(\w+)")
GHOST = re.compile(r" *(?:pub )?ghost (?!use\b)(\w+)(?: = |: )\{")
# A clause, as a line of a contract: its name, if it has one.
CLAUSE = re.compile(r" {4}ensures (?:(\w+) )?\{")
# How a clause names what a reference refers to, and the short name of a module of definitions.
UNTOLD = re.compile(r"\.now\b|\bspec\.")
# What a type is seen as is no promise of it, and what proves one isn't either.
NO_PROMISE = ("Value", "view", "laws")


@dataclass(frozen=True)
class Clause:
    """A clause: its name, or none, its text without layout, and what the comment right above it says."""

    name: str
    text: str
    claim: str


@dataclass(frozen=True)
class Promise:
    """A function, or a type or trait with ghost members: its path in the crate, whether it is not public, the clauses, and the first sentence of what is said above it."""

    path: str
    is_private: bool
    clauses: tuple
    said: str


def plain(text):
    """A text on one line, without what a clause doesn't tell a reader."""
    return UNTOLD.sub("", " ".join(text.split()))


def first_sentence(text):
    return re.split(r"(?<=[.!?])\s", text, maxsplit=1)[0]


def said_above(lines, at):
    """The first paragraph of the comment right above a line, from 0, with what attributes stand between."""
    found = []
    while at and lines[at - 1].strip().startswith(("//", "#[")):
        at -= 1
        if not lines[at].strip().startswith("#["):
            found.append(re.sub(r"^ *///? ?", "", lines[at]))
    return " ".join("\n".join(reversed(found)).split("\n\n")[0].split())


def contract_lines(source, function):
    """The lines of a function's head and clauses, with the comments in them, as if the function stood at the left."""
    lines = source.split("\n")[function.head - 1 : function.last]
    indent, taken = re.match(" *", lines[0])[0], []
    for line in lines:
        own = line.removeprefix(indent)
        if taken and own and not own.startswith((" ", ")", "where")):
            break
        taken.append(own)
        if own.endswith((" {", "}", ";")) and (len(taken) == 1 or own.startswith(")")):
            break
    # In a trait, what follows a function without a body: the comment of the next one.
    while taken and re.fullmatch(r" *(?://.*)?", taken[-1]):
        taken.pop()
    return taken


def clause_from(name, lines, claim):
    """The clause that begins with the brace in the first of these lines, and ends with the brace that closes it."""
    text, depth = "\n".join(it for it in lines if not it.lstrip().startswith("//")), 0
    begin = text.index("{")
    for at in range(begin, len(text)):
        depth += {"{": 1, "}": -1}.get(text[at], 0)
        if not depth:
            break
    return Clause(name or "", plain(text[begin + 1 : at]), claim)


def clauses_of(source, function):
    """The clauses of a function: what it ensures."""
    lines = contract_lines(source, function)
    for at, line in enumerate(lines):
        if it := CLAUSE.match(line):
            yield clause_from(it[1], lines[at:], said_above(lines, at))


def owner_above(lines, at):
    """The line, from 0, that begins the trait, `impl` or type in which a line stands."""
    indent = len(lines[at]) - len(lines[at].lstrip())
    while at and not (OWNER.match(lines[at]) and len(lines[at]) - len(lines[at].lstrip()) < indent):
        at -= 1
    return at


def module_of(file):
    return [it for it in file.removeprefix("src/").removesuffix(".rt").split("/") if it not in ("lib", "main")]


def ghosts_of(file, source):
    """The ghost members of traits and types in a source that promise something: each its owner's path, whether that is not public, the clause, and what is said of the owner."""
    lines = source.split("\n")
    for at, line in enumerate(lines):
        it = GHOST.match(line)
        if not it or it[1] in NO_PROMISE:
            continue
        clause = clause_from(it[1], lines[at:], said_above(lines, at))
        if re.match(r"(?:\w+ )?\(?Prim\.", clause.text):
            continue
        top = owner_above(lines, at)
        trait, name = OWNER.match(lines[top]).groups()
        kind = name if trait in (None, "Model") else f"{name} as {trait}"
        declared = re.search(rf"^(.*)\b(?:struct|enum|trait) {name}\b", source, re.M)
        is_private = bool(declared) and declared[1] != "pub "
        yield "::".join([*module_of(file), kind]), is_private, clause, said_above(lines, top)


def promises_of(file, source):
    """What a source promises, in its order: what its types and traits do, then its functions."""
    found = {}
    for path, is_private, clause, said in ghosts_of(file, source):
        found.setdefault(path, [is_private, [], said])[1].append(clause)
    lines = source.split("\n")
    for it in functions_of(file, source):
        clauses = list(clauses_of(source, it))
        found.setdefault(it.path, [is_hidden(lines, it), [], said_above(lines, it.head - 1)])[1].extend(clauses)
    return [Promise(path, is_private, tuple(clauses), first_sentence(said)) for path, (is_private, clauses, said) in found.items()]
