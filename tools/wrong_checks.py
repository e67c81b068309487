"""Checks of wrong bodies by the command `rt check`: the crates of a repository, a copy of one with edits in it, and what the prover says of each edit."""
import os
import re
import shutil
import subprocess
import threading
from dataclasses import dataclass

from wrong_edits import BadEdit, goals_told, packed, read_edit, text_of, with_copies

EDITS = "wrong-bodies"
# What a check of a crate reads of it.
PARTS = ("src", "specs", "proofs")
# What rt says if the kept work of a library is of another text.
STALE = re.compile(r"module .Rattle-(\w+)-.*Run the lower steps again")
# What the prover says about a name or a text that it can't read; an edit that only makes a statement false is read.
UNREADABLE = re.compile(r"is not in scope|has no field|is no name|operand is missing|expected the end|cannot continue")


@dataclass(frozen=True)
class Crate:
    """A crate that crates.txt lists: its folder, its name with what stands behind that, and the libraries of this repository and of the kit that it uses."""

    folder: str
    words: tuple
    uses: tuple
    of_kit: tuple

    @property
    def name(self):
        return self.words[0]

    @property
    def library(self):
        """Where its library stands once it is built."""
        return f"{self.folder}/out/rlib/{self.name}.rlib"

    def files(self, *endings, parts=PARTS):
        """The paths of its files below these folders, in the crate."""
        found = []
        for part in parts:
            for at, _, names in os.walk(f"{self.folder}/{part}"):
                found += [os.path.relpath(f"{at}/{name}", self.folder) for name in names if name.endswith(endings or ("",))]
        return sorted(found)


class Repository:
    """The crates of a repository, by name."""

    def __init__(self, top):
        lines = [line.partition("#")[0].partition(":") for line in text_of(f"{top}/crates.txt").split("\n")]
        listed = {tuple(head.split()): libraries.split() for head, colon, libraries in lines if colon}
        names = {words[0] for words in listed}
        self.top, self.crates = top, {}
        for words, libraries in listed.items():
            uses, of_kit = [it for it in libraries if it in names], [it for it in libraries if it not in names]
            self.crates[words[0]] = Crate(f"{top}/crates/{words[0]}", words, tuple(uses), tuple(of_kit))

    def below(self, crate):
        """The libraries of this repository below a crate, each after those that it uses."""
        found = []
        for it in (self.crates[name] for name in crate.uses):
            found += [lower for lower in [*self.below(it), it] if lower not in found]
        return found

    def with_edits(self):
        """The crates that have wrong bodies."""
        return [it for it in self.crates.values() if os.path.isdir(f"{it.folder}/{EDITS}")]


def sources_of(crate):
    """The texts of a crate's source files, by their path in the crate."""
    return {file: text_of(f"{crate.folder}/{file}") for file in crate.files(".rt", parts=["src"])}


def edits_of(crate):
    """The wrong bodies of a crate, and of those that can't be read (name, what is to be said)."""
    sources, edits, bad = sources_of(crate), [], []
    folder = f"{crate.folder}/{EDITS}"
    for name in sorted(it for it in os.listdir(folder) if it != "judged"):
        try:
            if not name.endswith(".edit"):
                raise BadEdit("its name doesn't end in .edit")
            edits.append(read_edit(f"{folder}/{name}", sources))
        except (BadEdit, OSError, UnicodeDecodeError) as why:
            bad.append((name.removesuffix(".edit"), f"BAD EDIT: {why}"))
    return edits, bad


class Running:
    """The commands that run, so that they end when the judge does."""

    def __init__(self):
        self.processes, self.lock, self.has_ended = set(), threading.Lock(), False

    def run(self, words, folder):
        """Runs a command: its exit status, what it printed, and the processor seconds that it took."""
        how = {"cwd": folder, "stdin": subprocess.DEVNULL, "stdout": subprocess.PIPE, "stderr": subprocess.STDOUT, "errors": "replace"}
        with self.lock:
            if self.has_ended:
                raise SystemExit(1)
            process = subprocess.Popen(words, **how)
            self.processes.add(process)
        try:
            said = process.stdout.read()
            _, status, usage = os.wait4(process.pid, 0)
            process.returncode = os.waitstatus_to_exitcode(status)
            return process.returncode, said, usage.ru_utime + usage.ru_stime
        finally:
            self.processes.discard(process)
            process.stdout.close()

    def end(self):
        with self.lock:
            self.has_ended = True
            for it in self.processes:
                it.kill()


def unread(line, changed):
    """Whether the prover couldn't read a text of src/, specs/ or a changed file."""
    at = re.match(r"(?:\./)?(\S+?):\d+:\d+: error: (?:(`[^`]*`): )?(.*)", line)
    if not at or at[1] not in changed and not at[1].startswith(("src/", "specs/")):
        return False
    return not at[2] or bool(UNREADABLE.search(re.sub(r"`[^`]*`", "", at[3])))


def verdict_line(said):
    """The prover's last line, behind which rt may have given advice."""
    lines = [it for it in said.split("\n") if it.startswith(("logic=", "only=", "holes=", "rattle: no verdict"))]
    return lines[-1] if lines else ""


class Bench:
    """A crate to be judged, copied into a room of its own, where the libraries below it are given as built."""

    def __init__(self, crate, libraries, room, running):
        self.crate, self.running, self.seconds = crate, running, 0.0
        self.sources, self.placed = sources_of(crate), set()
        self.folder = f"{room}/crates/{crate.name}"
        for part in PARTS:
            if os.path.isdir(f"{crate.folder}/{part}"):
                shutil.copytree(f"{crate.folder}/{part}", f"{self.folder}/{part}")
        # A library that this list doesn't name isn't one of the repository, so nothing is built.
        with open(f"{room}/crates.txt", "w", encoding="utf-8") as it:
            it.write(f"{' '.join(crate.words)}: {' '.join(crate.of_kit)}\n")
        given = [word for it in libraries if it.name in crate.uses for word in ("--extern", f"{it.name}={it.library}")]
        given += [word for it in libraries for word in ("-L", f"dependency={os.path.dirname(it.library)}")]
        self.words = ["rt", "check", "--jobs", "1", *given]

    def place(self, texts):
        """Has the room's files be these, where they are given, and the crate's own elsewhere."""
        for file in self.placed - set(texts):
            os.remove(f"{self.folder}/{file}")
            if os.path.isfile(f"{self.crate.folder}/{file}"):
                shutil.copy2(f"{self.crate.folder}/{file}", f"{self.folder}/{file}")
        for file, text in texts.items():
            os.makedirs(os.path.dirname(f"{self.folder}/{file}"), exist_ok=True)
            with open(f"{self.folder}/{file}", "w", encoding="utf-8") as it:
                it.write(text)
        self.placed = set(texts)

    def check(self, texts, asked=()):
        """Checks the crate with these texts, of files that it has and of proofs of copies, or what is asked of it: whether it is proved, whether the prover was reached, and what was said."""
        changed = {file: text for file, text in texts.items() if text != self.sources.get(file)}
        self.place(changed)
        only = [word for it in sorted(asked) for word in ("--only", it)]
        status, said, seconds = self.running.run([*self.words, *only], self.folder)
        self.seconds += seconds
        # The prover has another name for something that was asked for, or goes on past an error for which it refuses the whole crate.
        if only and (status == 2 or "error[" in said):
            return self.check(texts)
        is_read = not any(unread(line, self.sources) for line in said.split("\n")) and not STALE.search(said)
        is_judged = is_read and (status == 0 or status == 1 and verdict_line(said).startswith(("logic=not-proved", "only=")))
        return status == 0, is_judged, said

    def judge(self, edits, is_whole=False):
        """Judges edits in one check, of the whole crate or of their functions, or by halves where one of them doesn't reach the prover: a verdict for each."""
        texts, placed, beside, rest = self.sources, [], [], []
        for edit in edits:
            is_taken = any(edit.notices & it.notices for it in placed)
            more = None if is_taken else edit.applied(texts)
            (placed if more else beside if edit.copied else rest).append(edit)
            texts = more or texts
        texts, copies = with_copies(self.crate.folder, self.sources, texts, beside)
        asked = set() if is_whole else {name for it in [*placed, *copies] for name in it.asked}
        # The crate's root has no name to be asked for.
        _, is_judged, said = self.check(texts, () if "" in asked else asked)
        if not is_judged and len(placed) + len(copies) > 1:
            tried = [*placed, *beside]
            half = len(tried) // 2
            return [*self.judge(tried[:half]), *self.judge(tried[half:]), *(self.judge(rest) if rest else [])]
        told = list(goals_told(said, texts, self.crate.name))
        verdicts = [self.verdict(it, it.notices, is_judged, told, said) for it in placed]
        verdicts += [self.verdict(it.edit, it.notices(said, self.crate.name), is_judged, told, said) for it in copies]
        return verdicts + (self.judge(rest) if rest else [])

    def verdict(self, edit, notices, is_judged, told, said):
        """What is to be said of an edit that one of these functions has to notice, its own or a copy: where it was refused, or none and why not."""
        if not is_judged:
            first = next((it for it in said.split("\n") if "error" in it), said[:200])
            return edit, None, f"BAD EDIT: it doesn't reach the prover: {first[:200]}"
        at = next(((path, goal) for path, goal in told if path in notices), None)
        if at:
            # A copy of a function is reported under the function's own name, since what else is judged decides if there is one.
            path = at[0] if at[0] in edit.notices else edit.copied.path
            return edit, f"{path} ({at[1]})", None
        elsewhere = sorted({path for path, _ in told if path})
        more = f"; an error is told at {', '.join(elsewhere[:3])}" if elsewhere else ""
        return edit, None, f"NOT REFUSED at {' or '.join(sorted(edit.notices))}{more}"

    def judged(self, edits):
        """Judges edits of the crate: (edit, where it was refused or none, why not)."""
        verdicts = []
        for group in packed(edits):
            for edit, where, why in self.judge(group):
                if not where:
                    [(_, where, why)] = self.judge([edit], is_whole=True)
                verdicts.append((edit, where, why))
        return verdicts

    def is_proved(self):
        """Whether the crate without edits is proved."""
        return self.check(self.sources)[0]
