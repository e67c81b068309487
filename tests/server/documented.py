#!/usr/bin/env python3
"""The options of `serve` as docs/OPTIONS.md has them, which the program is compared with. Run by itself, it prints what
`serve --print-config` has to print where none but --listen is given."""
import os
import re
from dataclasses import dataclass

DOCUMENT = os.path.join(os.path.dirname(os.path.realpath(__file__)), "..", "..", "docs", "OPTIONS.md")


@dataclass
class Option:
    """A row of the table."""

    name: str
    # Whether it takes a value.
    has_value: bool
    # Of a number the smallest and the largest, as the program writes them.
    least: str
    most: str
    default: str

    def is_number(self):
        return bool(self.most)

    def limits(self):
        """The limits of a number."""
        return (self.least, self.most) if self.is_number() else ()

    def defaults(self):
        """The number that counts without the option, where the document has one alone."""
        return (self.default,) if self.is_number() and self.default.isdigit() else ()

    def lines(self):
        """Its line among the options that hold, where no value is given."""
        held = self.defaults() if self.has_value else ("false",)
        return [f"{self.name} = {it}" for it in held]


def option_of(row):
    first, _, default, *_ = [it.strip() for it in re.split(r" \|(?= |$)", row.removeprefix("|"))]
    name, value, least, most = re.fullmatch(r"`--([\w-]+)( \S+)?`(?:, ([\d,]+) to ([\d,]+))?", first).groups("")
    return Option(name, bool(value), least.replace(",", ""), most.replace(",", ""), default.replace(",", ""))


def options():
    """All of them, in the order of the document."""
    with open(DOCUMENT, encoding="utf-8") as file:
        return [option_of(it) for it in file.read().split("\n") if it.startswith("| `--")]


def numbers():
    """Those that take a number."""
    return [it for it in options() if it.is_number()]


def main():
    print('listen = "127.0.0.1:8080"')
    for option in options():
        # No file may ask to be printed.
        for line in option.lines() if option.name != "print-config" else []:
            print(line)


if __name__ == "__main__":
    main()
