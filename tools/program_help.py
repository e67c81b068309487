"""What the program's own `--help` says, for what is made from it: manual pages and the completion of a shell.

Each line of a help is read, or the reading stops with `Unread`: nothing of it is left out in silence.
"""
import re
import subprocess
from dataclasses import dataclass, field

SECTIONS = ("Commands", "Arguments", "Options")


class Unread(Exception):
    """A help, or a line of it, that isn't of the form that is known here."""


@dataclass
class Entry:
    """A line of a section: its words, as `-h, --help` or `--listen <ADDR>`, and what it says of them."""

    words: str
    text: str

    def names(self):
        """The names of an option, each without its value."""
        return [it.split()[0] for it in self.words.split(", ")]

    def value(self):
        """What an option's value is called, as `<ADDR>`; empty where it takes none."""
        return self.words.rpartition(" ")[2] if self.words.endswith(">") else ""


@dataclass
class Help:
    """The help of the program, or of one of its subcommands."""

    name: str
    about: str = ""
    usage: str = ""
    sections: dict = field(default_factory=lambda: {it: [] for it in SECTIONS})

    def commands(self):
        """The subcommands, without the one that prints the help of the others."""
        return [it.words for it in self.sections["Commands"] if it.words != "help"]


def read_help(name, text):
    """The help that a text is."""
    said, section = Help(name), None
    for line in text.splitlines():
        if not line:
            section = None
        elif line.startswith("Usage: ") and not said.usage:
            said.usage = line.removeprefix("Usage: ")
        elif line.removesuffix(":") in SECTIONS and line.endswith(":"):
            section = said.sections[line[:-1]]
        elif section is not None and (entry := re.fullmatch(r" {2,}(\S+(?: \S+)*) {2,}(\S.*)", line)):
            section.append(Entry(*entry.groups()))
        elif section is None and not said.about and not said.usage:
            said.about = line
        else:
            raise Unread(f"a line of `{name} --help` that can't be read: {line!r}")
    if not said.about or not said.usage:
        raise Unread(f"`{name} --help` has no line of its own about it, or no usage")
    return said


def printed_by(program, *words):
    """What the program prints on standard output by these words, which are asked for help or the version."""
    run = subprocess.run(["esi_edge", *words], executable=program, stdin=subprocess.DEVNULL, capture_output=True, text=True)
    if run.returncode:
        raise Unread(f"`esi_edge {' '.join(words)}` ended with status {run.returncode}: {run.stderr.strip()}")
    return run.stdout


def helps_of(program):
    """The help of the program, and after it that of each subcommand."""
    whole = read_help("esi_edge", printed_by(program, "--help"))
    return [whole] + [read_help(f"esi_edge {it}", printed_by(program, it, "--help")) for it in whole.commands()]


def version_of(program):
    """The version that the program prints, without its name."""
    found = re.fullmatch(r"esi_edge ([0-9][0-9A-Za-z.+~-]*)\n", printed_by(program, "--version"))
    if not found:
        raise Unread("`esi_edge --version` prints no version")
    return found[1]
