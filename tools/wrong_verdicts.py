"""Verdicts on wrong bodies that are kept in the repository: `crates/NAME/wrong-bodies/judged`.

    rests on CHECKSUM
    took SECONDS processor seconds
    EDIT CHECKSUM FUNCTION (GOAL)

with a line for each edit that was refused, by name. The first checksum is of all that a verdict rests on but
the edit itself, the second one of the edit's file. FUNCTION and GOAL are where the prover refused it; what has
another form than the prover's goals was written by no judge, and the file is refused.
"""
import hashlib
import os
import re
import subprocess
from dataclasses import dataclass, field

from what_proofs_see import Sight
from wrong_checks import EDITS, edits_of
from wrong_edits import text_of

# The files of the judge on which a verdict depends; the others choose what is judged, and when.
JUDGE = ("wrong_checks.py", "wrong_edits.py")
# In how many turns each crate is judged again, whatever is kept of its verdicts.
TURNS = 8
# How long an edit is likely to take if nobody has measured it.
SECONDS_OF_AN_EDIT = 15
# Where the prover refused an edit: a function, and a goal, which has one of these words for what is to be proved there.
GOALS = r"returns|requires|ensures|preserved|init|smaller|unreachable|bounds|char|size|(?:overflow|nonzero|slice|offset|invariant|fact|enum|float|int|way)_\w+"
WHERE = re.compile(rf"\w+(?:::\w+)* \((?:[\w'+:]+-)*(?:{GOALS})(?:-[\w'+]+)*\)")


class BadVerdicts(Exception):
    """Why a file of verdicts can't be used."""


@dataclass
class Verdicts:
    """What was judged of a crate: a checksum of what that rests on, the processor seconds that all of it took, and of each edit, by name, its checksum and where it was refused."""

    rests_on: str = ""
    seconds: int = 0
    of_edits: dict = field(default_factory=dict)

    @classmethod
    def read(cls, path):
        lines = text_of(path).split("\n")
        head = re.fullmatch(r"rests on ([0-9a-f]{64})", lines[0])
        took = re.fullmatch(r"took (\d{1,6}) processor seconds", lines[1]) if len(lines) > 2 else None
        found = [re.fullmatch(rf"(\w+) ([0-9a-f]{{16}}) ({WHERE.pattern})", it) for it in lines[2:-1]]
        names = [it and it[1] for it in found]
        if not head or not took or not all(found) or lines[-1] or names != sorted(set(names)):
            raise BadVerdicts("it isn't in the form of verdicts")
        return cls(head[1], int(took[1]), {it[1]: (it[2], it[3]) for it in found})

    def write(self, path):
        lines = [f"{name} {sum} {where}\n" for name, (sum, where) in sorted(self.of_edits.items())]
        with open(path, "w", encoding="utf-8") as it:
            it.write(f"rests on {self.rests_on}\ntook {self.seconds} processor seconds\n{''.join(lines)}")


def sum_of(*texts):
    """A checksum of these texts, each as bytes, with its length."""
    sum = hashlib.sha256()
    for it in texts:
        sum.update(b"%d:" % len(it) + it)
    return sum.hexdigest()


def bytes_of(path):
    with open(path, "rb") as it:
        return it.read()


def sum_of_edit(crate, name):
    return sum_of(bytes_of(f"{crate.folder}/{EDITS}/{name}.edit"))[:16]


def kit_line():
    """What `rt version` says."""
    return subprocess.run(["rt", "version"], stdout=subprocess.PIPE, check=True).stdout


def logic_of(line):
    """The kit's logic, by what `rt version` says: two kits of one logic are one prover. All that it says, where it names no logic."""
    found = re.search(rb" logic (\w+)", line)
    return found[1] if found else line


def listed(crate):
    """The crate's line of crates.txt, whatever the order of its libraries there."""
    return " ".join([*crate.words, ":", *sorted(crate.uses), *sorted(crate.of_kit)]).encode()


class Sums:
    """The checksums of what verdicts rest on: the logic, the judge, the sources, definitions and proofs of a crate, and what its proofs see of the crates below it, with the lines of crates.txt of all these."""

    def __init__(self, repository):
        tools = os.path.dirname(os.path.realpath(__file__))
        self.repository, self.sight = repository, Sight()
        self.judge = [logic_of(kit_line()), *[bytes_of(f"{tools}/{it}") for it in JUDGE]]

    def of(self, crate):
        own = [(it, bytes_of(f"{crate.folder}/{it}")) for it in crate.files()]
        below = sorted(self.repository.below(crate), key=lambda it: it.name)
        seen = [(it, [(file, text.encode()) for file, text in files]) for it, files in self.sight.of(crate, below)]
        sums = [sum_of(listed(it), *[part for file, text in files for part in (file.encode(), text)]) for it, files in [*seen, (crate, own)]]
        return sum_of(*self.judge, *[it.encode() for it in sums])


def commit_time(top):
    """The time of the commit that is checked out, in seconds, or none outside of a checkout."""
    ran = subprocess.run(["git", "-C", top, "log", "-1", "--format=%ct"], stdout=subprocess.PIPE, stderr=subprocess.DEVNULL, text=True)
    return int(ran.stdout) if ran.returncode == 0 and ran.stdout.strip().isdigit() else None


def in_turn(seconds, turn):
    """The crates that are judged in this turn, whatever is kept of them, of all by the seconds that each takes: the dearest first, each in the turn that is cheapest so far."""
    turns = [[0, []] for _ in range(TURNS)]
    for name in sorted(seconds, key=lambda it: (-seconds[it], it)):
        cheapest = min(turns, key=lambda it: it[0])
        cheapest[0] += seconds[name]
        cheapest[1].append(name)
    return set(turns[turn][1])


class Kept:
    """A crate with what is kept of its verdicts, whether that still stands, and what is wrong with its file."""

    def __init__(self, crate, rests_on):
        self.crate, self.rests_on = crate, rests_on
        self.edits, self.bad = edits_of(crate)
        self.sums = {it.name: sum_of_edit(crate, it.name) for it in self.edits}
        self.path, self.wrong = f"{crate.folder}/{EDITS}/judged", []
        try:
            self.verdicts = Verdicts.read(self.path)
        except FileNotFoundError:
            self.verdicts = Verdicts()
            self.wrong.append("there is no such file")
        except (OSError, UnicodeDecodeError, BadVerdicts) as why:
            self.verdicts = Verdicts()
            self.wrong.append(str(why))
        names = {it.name for it in self.edits} | {name for name, _ in self.bad}
        if not self.wrong:
            self.wrong += [f"{it} has a verdict, and is no edit" for it in sorted(set(self.verdicts.of_edits) - names)]
            self.wrong += [f"{it} has no verdict" for it in sorted(names - set(self.verdicts.of_edits))]
        self.stands = self.verdicts.rests_on == rests_on
        kept = {it: self.verdicts.of_edits[it.name][1].partition(" ")[0] for it in self.edits if self.is_kept(it)}
        self.wrong += [f"{edit.name} has a verdict at {path}, which need not notice" for edit, path in kept.items() if path not in edit.notices]

    @property
    def seconds(self):
        """How many processor seconds all edits of the crate are likely to take."""
        return self.verdicts.seconds or SECONDS_OF_AN_EDIT * len(self.edits)

    def is_kept(self, edit):
        """Whether the verdict on this edit still stands."""
        sum, _ = self.verdicts.of_edits.get(edit.name, (None, None))
        return self.stands and sum == self.sums[edit.name]

    def is_new(self, edit):
        """Whether no verdict on this edit, as it is, was ever kept."""
        return self.verdicts.of_edits.get(edit.name, (None, None))[0] != self.sums[edit.name]

    def to_judge(self, is_all):
        """The edits that are judged: all, or those whose verdict isn't kept."""
        return [it for it in self.edits if is_all or not self.is_kept(it)]

    def write(self, judged, seconds):
        """Writes what was judged, by edit and where it was refused, if that is new. Of the others what is kept stays."""
        kept = {it.name: self.verdicts.of_edits[it.name] for it in self.edits if self.is_kept(it)}
        found = {edit.name: (self.sums[edit.name], where) for edit, where in judged}
        now = {name: it for name, it in (kept | found).items() if it[1]}
        if self.stands and now == self.verdicts.of_edits and not self.wrong:
            return
        # If only some were judged, the others keep their seconds.
        before = self.verdicts.seconds if len(judged) < len(self.edits) else 0
        Verdicts(self.rests_on, round(before + seconds), now).write(self.path)


def parts(edits, count):
    """The edits in so many parts, or fewer, that are judged side by side: those of one function stay together."""
    sets = []
    for edit in edits:
        shared = [it for it in sets if any(edit.notices & other.notices for other in it)]
        sets = [it for it in sets if it not in shared] + [[edit, *[other for it in shared for other in it]]]
    found = [[] for _ in range(max(1, min(count, len(sets))))]
    for it in sorted(sets, key=lambda it: (-len(it), it[0].name)):
        min(found, key=len).extend(it)
    order = {edit.name: at for at, edit in enumerate(edits)}
    return [sorted(it, key=lambda edit: order[edit.name]) for it in found if it]
