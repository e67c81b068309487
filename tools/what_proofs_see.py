"""What a crate's proofs see of a crate below it. A function is proved against contracts alone, so of a source that is
what other crates can name: types, constants, heads of `impl`s, ghost items, traits, and the signatures and clauses of
functions; bodies go, and with them what stands only in bodies: private functions, and imports that nothing else names.
A trait and a macro stay whole, since a body there may become one of another crate. Definitions (`specs/`) stay whole.
Of the lemmas right in `proofs/`, which a crate above can cite, the public statements stay, with what a proof can
unfold; what proves the crate's own functions goes. Comments, tests and hints to tactics go.

Of all this a proof sees what its crate names, and what that names in turn (named_items.py).
"""
import re
import textwrap

from named_items import items_of_definitions, items_of_source, named_in, names_in, words_of
from wrong_edits import functions_of, text_of

# What may hold bodies that are not the crate's own alone.
WHOLE = re.compile(r"( *)(?:pub(?:\(\w+\))? )?(?:trait|macro_rules!) ")
INHERENT_IMPL = re.compile(r" *impl\b(?!.* for ).*\{$")
HINT = re.compile(r"^ *#!?\[(?:tactic|inline|cold)\b.*\]$", re.M)
# A literal, which stays as it is, or white space with comments.
LITERAL_OR_SPACE = re.compile(
    r"""((?<!\w)b?r(#*)".*?"\2|"(?:\\.|[^"\\])*"|'(?:\\(?:u\{\w*\}|.)\w*|[^'\\])')|(?:\s|//[^\n]*|/\*.*?\*/)+""", re.S
)
# An item of a file of definitions or lemmas begins where its first line does.
ITEM = re.compile(r"^(?=[^\s})\]])", re.M)


def without_comments(source, has_layout=False):
    """A source without comments and empty lines, and without layout, if that isn't to stay: each line begins at its first letter."""

    def space(text):
        _, is_line, indent = text.rpartition("\n")
        return (f"\n{indent}" if has_layout else "\n") if is_line else " "

    return LITERAL_OR_SPACE.sub(lambda it: it[1] or space(it[0]), f"{source}\n").lstrip("\n" if has_layout else None)


def opening_of(lines, function):
    """The line, from 0, with the brace that opens a function's body, or none where it has no body of lines."""
    head = function.head - 1
    indent = re.match(" *", lines[head])[0]
    if lines[head].endswith((";", "}")):
        return None
    for at in range(head, function.last):
        line = lines[at].removeprefix(indent)
        if line == "{" or line.endswith(" {") and (at == head or line.startswith(")")):
            return at
        # The next item, where the function has no brace of its own: a law.
        if at > head and line and not line.startswith((" ", ")", "where")):
            return None
    return None


def is_hidden(lines, function):
    """Whether no other crate can call a function: it isn't public, and of no trait."""
    head = lines[function.head - 1]
    if head.lstrip().startswith("pub "):
        return False
    indent = len(head) - len(head.lstrip())
    owner = next((it for it in reversed(lines[: function.head - 1]) if it.strip() and len(it) - len(it.lstrip()) < indent), "")
    return not indent or bool(INHERENT_IMPL.match(owner))


def lines_kept_whole(lines):
    """The lines, from 0, of traits and macros."""
    found = set()
    for at, line in enumerate(lines):
        if it := WHOLE.match(line):
            last = at if line.endswith("}") else next((i for i in range(at, len(lines)) if lines[i] == it[1] + "}"), len(lines) - 1)
            found.update(range(at, last + 1))
    return found


def seen_of_source(file, source):
    """What a proof in another crate sees of a source, as items."""
    lines = source.split("\n")
    whole, gone = lines_kept_whole(lines), set()
    for it in functions_of(file, source):
        opening = None if it.head - 1 in whole else opening_of(lines, it)
        if opening is not None:
            gone.update(range(it.first - 1, it.last) if is_hidden(lines, it) else range(opening + 1, it.last - 1))
    kept = "\n".join(line for at, line in enumerate(lines) if at not in gone)
    return items_of_source(without_comments(HINT.sub("", kept), has_layout=True), without_comments)


def without_remarks(text):
    """A file of definitions or lemmas without the lines that are comments."""
    return re.sub(r"^ *--.*\n?", "", text, flags=re.M)


def statements(text):
    """The items of a file of lemmas that another file can cite, and whatever it can unfold or a set of rules gives it."""
    items = [it.rstrip() for it in ITEM.split(text) if it.strip()]
    ruled = {it for item in items if "ruleset" in item.split()[:2] for it in re.split(r"[\s(),]+", item)}
    found, is_unfolded = [], False
    for item in items:
        words = item.split()
        if within := re.match(r"(?s:mutual$|module .*? where$)", item, re.M):
            found += [within[0], *statements(textwrap.dedent(item[within.end() + 1 :]))]
            continue
        mark = next((it for it in words if it in (":", "=")), None)
        is_lemma = mark and not {"data", "record", "ruleset"} & set(words[:2])
        if is_lemma and mark == ":":
            is_unfolded = words[0] in ("abbrev", "unfoldable")
        is_stated = mark == ":" and ("pub" in words[:2] or words[0] in ruled)
        if words[0] != "unfolding" and (not is_lemma or is_stated or is_unfolded):
            found.append(item)
    return found


def seen_of(crate, path, text):
    """What a proof in another crate sees of a file of a crate, as items; nothing of what proves the crate's own functions."""
    folder, _, file = path.partition("/")
    if path.endswith(".rt"):
        return seen_of_source(path, text)
    if folder == "proofs" and "/" in file:
        return []
    bare = without_remarks(text)
    if folder == "proofs":
        bare = "".join(f"{it}\n" for it in statements(bare))
    return items_of_definitions(bare, crate.name, folder, file.removesuffix(".antt"))


class Sight:
    """What the proofs of crates see of the crates below them. Each file is read once."""

    def __init__(self):
        self.names, self.seen = {}, {}

    def read(self, crate):
        """Reads a crate: what it names, and what is seen of each of its files."""
        texts = {path: text_of(f"{crate.folder}/{path}") for path in crate.files()}
        sources = [without_comments(text) for path, text in texts.items() if path.endswith(".rt")]
        self.names[crate.name] = set().union(*map(words_of, sources), *map(names_in, texts.values()))
        self.seen[crate.name] = [(path, seen_of(crate, path, text)) for path, text in texts.items()]

    def of(self, crate, below):
        """What the proofs of a crate see of each of the crates below it: the crate, and its files with what is seen of them."""
        for it in (crate, *below):
            if it.name not in self.seen:
                self.read(it)
        named = named_in(self.names[crate.name], [item for it in below for _, items in self.seen[it.name] for item in items])
        return [(it, self.named_of(it, named)) for it in below]

    def named_of(self, crate, named):
        """The files of a crate with the texts of what is named there."""
        texts = [(path, "".join(f"{item.text}\n" for item in items if item in named)) for path, items in self.seen[crate.name]]
        return [(path, text) for path, text in texts if text]
