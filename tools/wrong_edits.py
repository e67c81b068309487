"""Wrong bodies as text: the functions of a source file, the edits that change them, in place or in a copy beside, and the goals that the prover names."""
import os
import re
from dataclasses import dataclass

# If a proof file names what an edit took away, that says something about the proof and not about the contract.
OF_NAMES = re.compile(r"has no field|is not in scope|has no `|was not admitted|is no name")


class BadEdit(Exception):
    """Why an edit can't be judged."""


def text_of(path):
    with open(path, encoding="utf-8") as it:
        return it.read()


# Functions of a source file


@dataclass(frozen=True)
class Function:
    """A function: its path in the crate, its file, whether it stands in the `impl` of a trait, and lines there, from 1: of what stands above it, of its head, its body's first and its last."""

    path: str
    file: str
    is_of_trait: bool
    first: int
    head: int
    body: int
    last: int

    def has_line(self, line):
        return self.first <= line <= self.last

    def text(self, source):
        """What stands of it in its file, with what stands above its head."""
        return "\n".join(source.split("\n")[self.first - 1 : self.last])

    def can_be_copied(self, source):
        """Whether a copy under another name is proved as it is: not what a trait wants, nor what calls itself, or another function that calls it."""
        name = self.path.rpartition("::")[2]
        calls_itself = re.search(rf"(?:(?<![.:\w])|\b[Ss]elf(?:\.|::)){name}(?:::<|\()", "\n".join(source.split("\n")[self.head : self.last]))
        return not self.is_of_trait and "#[cycle(" not in self.text(source) and not calls_itself

    def copied(self, name, source, text, pairs=()):
        """The file's text with a copy of the function of the source behind it, under this name and with these edits in it."""
        copy = self.text(source).split("\n")
        at = self.head - self.first
        copy[at] = re.sub(r"\bfn \w+", f"fn {name}", copy[at], count=1)
        copy = "\n".join(copy)
        for _, old, new in pairs:
            copy = copy.replace(old, new)
        lines = text.split("\n")
        behind = next(it for it in functions_of(self.file, text) if it.path == self.path).last
        return "\n".join([*lines[:behind], "", copy, *lines[behind:]])

    def asked(self):
        """How a check of single functions is asked for it: a method by the end of its path, since the prover begins that with the module of the type. The `impl` of a trait has a name made of both and of the trait's arguments, so its whole module is asked for."""
        *owners, name = self.path.split("::")
        if self.is_of_trait:
            return "::".join(owners[:-1])
        return f"{owners[-1]}::{name}" if owners and owners[-1][0].isupper() else self.path

    def is_named(self, path):
        """Whether the prover's path means this function, or a closure in it. It calls the owner of a method by the module of its type, and that of a trait's method by type and trait."""
        *owners, name = self.path.split("::")
        if owners and owners[-1][0].isupper():
            owned = rf"{owners[-1]}\w*::{name}"
            return bool(re.fullmatch(rf"(?:\w+::)*?(?:{owned}|fn::{owned}::.*)", path))
        module = "".join(f"{it}::" for it in owners)
        return bool(re.fullmatch(rf"{module}(?:{name}|fn::{name}::.*)", path))


FN = re.compile(r"( *)(?:pub(?:\(\w+\))? )?(?:(?:const|unsafe|final) )*fn (\w+)")
OWNER = re.compile(r"( *)(?:pub(?:\(\w+\))? )?(?:impl\b(?:<.*?>)? (.* for )?|trait )(\w+)")


def functions_of(file, text):
    """The functions of a file in the layout of `rt fmt`, by which an item ends at the next line that is its own indent and a brace."""

    def end_of(at, indent, brace):
        return next((i for i in range(at, len(lines)) if lines[i] == indent + brace), len(lines) - 1)

    lines, found, owner, is_of_trait, owner_ends = text.split("\n"), [], [], False, -1
    module = [it for it in file.removeprefix("src/").removesuffix(".rt").split("/") if it not in ("lib", "main")]
    for at, line in enumerate(lines):
        owns = OWNER.match(line)
        if owns and line.endswith("{"):
            owner, is_of_trait, owner_ends = [owns[3]], bool(owns[2]), end_of(at, owns[1], "}")
        name = FN.match(line)
        if name:
            first = at
            while lines[first - 1].strip().startswith(("#[", "///", "//")):
                first -= 1
            last = at if line.endswith(("}", ";")) else end_of(at, name[1], "}")
            opens = end_of(at, name[1], "{")
            is_owned = at < owner_ends
            path = "::".join([*module, *(owner if is_owned else []), name[2]])
            found.append(Function(path, file, is_owned and is_of_trait, first + 1, at + 1, (opens if opens < last else at) + 1, last + 1))
    return found


def function_at(functions, line):
    return next((it for it in reversed(functions) if it.has_line(line)), None)


# Edits


@dataclass(frozen=True)
class Edit:
    """A wrong body: what it replaces, as (file, old, new), the paths of the functions one of which must notice, how a check is asked for these and those that it changes, and the function, if it changes that alone and can stand in a copy of it."""

    name: str
    pairs: tuple
    notices: frozenset
    asked: frozenset
    is_alone: bool
    copied: Function | None

    def applied(self, texts):
        """The texts with this edit, or none where another edit took or doubled what it replaces."""
        texts = dict(texts)
        for file, old, new in self.pairs:
            if texts[file].count(old) != 1:
                return None
            texts[file] = texts[file].replace(old, new)
        return texts


def read_edit(path, sources):
    """Reads an edit of a crate with these sources, by their path in the crate."""
    named, pairs, file, old = [], [], "", ""
    for line in text_of(path).split("\n"):
        word, _, rest = line.partition(":")
        rest = rest.removeprefix(" ")
        if word == "function":
            named.append(rest.strip())
        elif word == "file":
            file = rest.strip()
            if file not in sources:
                raise BadEdit(f"there is no file {file} below src/")
        elif word == "old":
            old = rest
        elif word == "new":
            if not file or not old:
                raise BadEdit("a 'new:' line stands before any 'file:' or 'old:' line")
            pairs.append((file, old, rest))
    if not pairs:
        raise BadEdit("it has no 'old:' and 'new:' pair")
    return with_functions(os.path.basename(path).removesuffix(".edit"), pairs, named, sources)


def with_functions(name, pairs, named, sources):
    """Finds the functions whose bodies the pairs change."""
    texts, changed, is_alone = dict(sources), set(), False
    for file, old, new in pairs:
        if texts[file].count(old) != 1:
            raise BadEdit(f"an 'old:' text is in {file} {texts[file].count(old)} times, and not once")
        line = texts[file][: texts[file].index(old)].count("\n") + 1
        function = function_at(functions_of(file, texts[file]), line)
        if function and function.head <= line < function.body:
            raise BadEdit(f"it changes the head or the contract of {function.path}, and not its body")
        if function and function.body <= line:
            changed.add(function.path)
        elif old not in new:
            is_alone = True
        texts[file] = texts[file].replace(old, new)
    known = {it.path: it for file, text in sources.items() for it in functions_of(file, text)}
    for it in named:
        if it not in known:
            raise BadEdit(f"there is no function {it}")
    if not changed and not named:
        raise BadEdit("it changes no function's body: a line 'function:' has to name the function or law that must notice")
    asked = frozenset(known[it].asked() for it in {*named, *changed} if it in known)
    one = known.get(next(iter(changed))) if len(changed) == 1 and not named and not is_alone else None
    is_copied = one and one.can_be_copied(sources[one.file]) and all(old in one.text(sources[one.file]) for _, old, _ in pairs)
    return Edit(name, tuple(pairs), frozenset(named or changed), asked, is_alone, one if is_copied else None)


def packed(edits):
    """The edits in as few groups as their functions allow: in a group an edit of a function that another one changes can stand in a copy of it."""
    groups = []
    for edit in sorted(edits, key=lambda it: (it.is_alone, it.copied is not None)):
        for group in groups:
            if edit.is_alone or any(it.is_alone or not edit.copied and it.notices & edit.notices for it in group):
                continue
            group.append(edit)
            break
        else:
            groups.append([edit])
    return groups


# Copies of functions


@dataclass(frozen=True)
class Copy:
    """A wrong body in a copy of its function, and a copy of that function as it stands."""

    edit: Edit
    function: Function
    as_it_stands: Function

    @property
    def asked(self):
        return frozenset([self.function.asked(), self.as_it_stands.asked()])

    def notices(self, said, crate):
        """The function that must notice, by what the prover said: none where the copy as it stands is not proved for a reason of its own, which may be the wrong one's too."""
        told = re.findall(rf"^fn {crate}::(\S+): (?:proved$|no proof: it calls )", said, re.M)
        return {self.function.path} if any(self.as_it_stands.is_named(it) for it in told) else set()


def proofs_of(folder, function, name):
    """The files of a function's own proof, but for those of closures in it, by the path that they have for its copy of this name, in the copy's terms."""
    found = {}
    for at, _, files in os.walk(f"{folder}/proofs"):
        path = os.path.relpath(at, f"{folder}/proofs")
        if function.is_named(path.replace("/", "::")) and "/fn/" not in f"/{path}/":
            to = f"{os.path.dirname(path)}/{name}".removeprefix("/")
            own = re.escape(path.replace("/", "."))
            for file in files:
                found[f"proofs/{to}/{file}"] = re.sub(rf"\.{own}(?=\.)", "." + to.replace("/", "."), text_of(f"{at}/{file}"))
    return found


def with_copies(folder, sources, texts, edits):
    """These texts with a copy of its function for each edit, and one as it stands for each function, with what proves the function; and the copies."""
    texts, copies, as_they_stand = dict(texts), [], {}

    def put(function, ending, pairs=()):
        path = f"{function.path}_{ending}"
        name = path.rpartition("::")[2]
        texts[function.file] = function.copied(name, sources[function.file], texts[function.file], pairs)
        texts.update(proofs_of(folder, function, name))
        return next(it for it in functions_of(function.file, texts[function.file]) if it.path == path)

    for number, edit in enumerate(edits, 1):
        function = edit.copied
        if function not in as_they_stand:
            as_they_stand[function] = put(function, "as_it_stands")
        copies.append(Copy(edit, put(function, f"wrong_{number}", edit.pairs), as_they_stand[function]))
    return texts, copies


# What the prover said


def goals_told(said, edited, crate):
    """Each goal that the prover names, with the function that it belongs to: (function's path, goal)."""
    functions = [it for file, text in edited.items() for it in functions_of(file, text)]

    def named(path):
        found = [it.path for it in functions if it.is_named(path)]
        return path if path in found else next(iter(found), None)

    for line in said.split("\n"):
        note = re.match(r"note: (?:\./)?(src/\S+?):(\d+):\d+: .*\(`([^`]+)`\)", line)
        answer = re.match(r"(?:\./)?proofs/(\S+)/\w+\.antt:\d+:\d+: error: `([^`]+)`: (.*)", line)
        search = re.match(rf"fn {crate}::(\S+?)(?:\+\S+)?: no proof: .*did not prove `([^`]+)`", line)
        if note:
            function = function_at([it for it in functions if it.file == note[1]], int(note[2]))
            yield function and function.path, note[3]
        elif answer and not OF_NAMES.search(answer[3]):
            # Functions that call each other share a folder, and their goals begin with their names.
            module, is_shared, _ = answer[1].partition("+")
            path = module + answer[2].partition("-")[0] if is_shared else answer[1]
            yield named(path.replace("/", "::")), answer[2]
        elif search:
            yield named(search[1]), search[2]
