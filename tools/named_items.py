"""The items of sources, definitions and lemmas by their names, and those that a crate names, itself or through others.

- A definition or a lemma is named where a file imports it from its own, or where another item of its file names it.
- A function, a type, a constant, a macro, a re-export of a source: by its name, in any source, or where definitions import
  what the prover makes of it. A word names each item of that name, in whatever crate: so more is named than is meant, never less.
- A record's field, a variant or what stands in a block of definitions names the whole.
- An `impl` of a trait, whose functions run unnamed, as those of `?` and `==`, and the head of any other: with its type.
- A function or constant of an `impl`: by its name, where its type is named too.
- What has no name of its own, as an operator, counts as named.

What an item's file imports for it belongs to the item, so that another name for something still leads there.
"""
import re
import textwrap
from dataclasses import dataclass

WORD = re.compile(r"\w+")
# A name of a definition or a lemma.
NAME = re.compile(r"[^\s(){}\[\],;.]+")
IMPORT = re.compile(r"^(?:ghost )?use ([^;{\n]*)(?:\{([^{};]*)\})?;?\n", re.M)
# Where a definition or a lemma is imported from, or all of a file of them; and what the prover makes of sources.
CITED = re.compile(r"\bRattle\.(\w+)\.(specs|proofs)\.([A-Z]\w*)(?:\.([^\s,;]+))?")
MADE = re.compile(r"\bRattle\.\w+\.(?:specs|proofs)\.[a-z]\S*")
# What ends or goes on with the item above it, at the indent of items.
GOES_ON = re.compile(r"[})\]{\s]|where\b|$")
ATTRIBUTE = re.compile(r"#!?\[")
HEAD = re.compile(r"(?:pub(?:\(\w+\))? )?(?:(?:const|unsafe|final) )*(fn|struct|enum|union|trait|type|const|static|macro_rules!) (\w+)")
TYPES = ("struct", "enum", "union", "trait", "type")
MODULE = re.compile(r"(?:pub(?:\(\w+\))? )?mod \w+;?$")
REEXPORT = re.compile(r"(?:unfoldable )?pub(?:\(\w+\))? use (.*)", re.S)
# A definition's signature or head, and what a block of definitions, a record or a type has inside.
DEFINITION = re.compile(r"(?:(?:pub|abbrev|unfoldable|opaque) )*(?:(data|record|mutual|module|ruleset)\b ?)?([^\s(){}:]*)")
INSIDE = re.compile(r"^ +(?:(?:pub|abbrev|unfoldable|opaque|record|data) )*([^\s(){}:]+)(?: [({][^=\n]*)? :(?= |$)", re.M)
SIGNATURE = re.compile(r"[^=]*(?:^|\s):\s")


def words_of(text):
    return set(WORD.findall(text))


@dataclass(frozen=True)
class Item:
    """An item: its text with the imports that it takes, its names, any of which names it, of an `impl` the words among which its type is, what it names, and whether it is a type or a trait."""

    text: str
    names: frozenset
    owner: frozenset
    refers: frozenset
    is_type: bool = False

    def is_named(self, names, types):
        """Whether these names name it; `types` are all types and traits."""
        owners = self.owner & types
        return bool((not owners or owners & names) and (not self.names or self.names & names))


# Imports


def imports_of(text):
    """The imports of a file, each with its name, and the text without them."""
    found = []
    for it in IMPORT.finditer(text):
        paths = [it[1]] if it[2] is None else [f"{it[1]}{name.strip()}" for name in it[2].split(",") if name.strip()]
        found += [(re.split(r" as |::|\.", path)[-1].strip(), f"use {path.strip()}\n") for path in paths]
    return found, IMPORT.sub("", text)


def taken(imports, text):
    """The imports whose name a text has. An operator's name has a mark where each argument goes."""
    return "".join(line for name, line in imports if name == "self" or all(it in text for it in name.split("◌")))


def names_in(text):
    """What a text imports of definitions and lemmas, (crate, folder, file, name), where the name is * for all of a file; and the words of paths to what is made of sources."""
    imports, rest = imports_of(text)
    text = "".join([*(line for _, line in imports), rest])
    found = {word for path in MADE.findall(text) for word in WORD.findall(path)}
    for crate, folder, file, name in CITED.findall(text):
        found |= {(crate, folder, file, it) for it in (NAME.findall(name) or ["*"])}
    return found


# Sources


def chunks_of(text):
    """The items of a text in the layout of `rt fmt`, each with its attributes above it."""
    found, is_attribute = [], False
    for line in text.split("\n"):
        if found and (is_attribute or GOES_ON.match(line)):
            found[-1].append(line)
        else:
            found.append([line])
        is_attribute = all(ATTRIBUTE.match(it) or GOES_ON.match(it) for it in found[-1])
    return ["\n".join(it) for it in found if any(it)]


def head_of(chunk):
    """A chunk from behind its attributes on."""
    lines = chunk.split("\n")
    first = next((at for at, line in enumerate(lines) if not ATTRIBUTE.match(line) and not GOES_ON.match(line)), 0)
    return "\n".join(lines[first:])


def parts_of_impl(chunk):
    """The parts of an `impl`: its names, and the words among which its type is. All of it is one, if it is a trait's, and else its head with what has no name, and each function and constant."""
    opening = re.search(r"\{(?=\n|\}?$)", chunk)
    head, inner = (chunk[: opening.end()], chunk[opening.end() + 1 :].rpartition("}")[0]) if opening else (chunk, "")
    *traits, type = re.split(r"\bfor (?!<)", re.sub(r"(?s)\bwhere\b.*", "", head))
    owner = frozenset(WORD.findall(type))
    if traits:
        return [(chunk, frozenset(), owner)]
    members = [(it, HEAD.match(head_of(it))) for it in chunks_of(textwrap.dedent(inner))]
    nameless = "\n".join([head, *(it for it, named in members if not named)])
    return [(nameless, frozenset(), owner), *((it, frozenset([named[2]]), owner) for it, named in members if named)]


def items_of_source(text, cleaned):
    """The items of a source, from which comments and bodies are gone; `cleaned` takes the layout out of each."""
    imports, text = imports_of(text)
    found, nobody = [], frozenset()
    for chunk in chunks_of(text):
        head = head_of(chunk)
        named = HEAD.match(head)
        if MODULE.match(head):
            continue
        if exported := REEXPORT.match(head):
            found += [(f"pub {line}", frozenset([name]), nobody) for name, line in imports_of(f"use {exported[1]}\n")[0]]
        elif re.match(r"impl\b", head):
            found += parts_of_impl(chunk)
        else:
            found.append((chunk, frozenset([named[2]]) if named and named[2] != "_" else nobody, nobody, bool(named) and named[1] in TYPES))
    whole = [(taken(imports, text) + cleaned(text), *it) for text, *it in found]
    return [Item(text, names, owner, frozenset(words_of(text) | names_in(text)), *is_type) for text, names, owner, *is_type in whole]


# Definitions and lemmas


def definitions_of(text):
    """The definitions or lemmas of a text with their names: a signature with its equations, and a block or a record with all that is in it."""
    found = []
    for piece in re.split(r"^(?=[^\s})\]])", text, flags=re.M):
        kind, name = DEFINITION.match(piece).groups()
        if not piece.strip() or re.match(r"(?:pub )?mod ", piece):
            continue
        if exported := REEXPORT.match(piece):
            found += [(line, {name}) for name, line in imports_of(f"use {exported[1]}\n")[0]]
        elif kind or SIGNATURE.match(piece) and not piece.startswith("unfolding"):
            inside = INSIDE.findall(piece) if kind else []
            found.append((piece, {it for it in [name, *inside] if WORD.search(it) and it != "_"}))
        elif found and not piece.startswith("infix"):
            found[-1] = (found[-1][0] + piece, found[-1][1])
        else:
            found.append((piece, {"◌"}))
    return found


def items_of_definitions(text, *place):
    """The items of a file of definitions or lemmas without comments, at a place: its crate, folder and name."""
    imports, text = imports_of(text)
    found, pieces = [], definitions_of(text)
    for piece, own in pieces:
        whole = taken(imports, piece) + piece
        # What a module takes belongs to all of its file; an operator is named by its parts.
        own = own or {it for _, others in pieces for it in others}
        names = frozenset() if any("◌" in it for it in own) else frozenset((*place, it) for it in [*own, "*"])
        refers = {(*place, it) for it in NAME.findall(piece)} | names_in(whole)
        found.append(Item(whole, names, frozenset(), frozenset(refers)))
    return found


# What is named


def named_in(names, items):
    """The items that these name, themselves or through what they name."""
    types = {name for it in items if it.is_type for name in it.names}
    found, left, names = set(), set(items), set(names)
    while reached := {it for it in left if it.is_named(names, types)}:
        found |= reached
        left -= reached
        names = names.union(*(it.refers for it in reached))
    return found
