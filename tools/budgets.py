"""Words that documents may have, as docs/budget says: a line for each, WORDS PATH. A path with `*` gives the words that all its documents have together, or with `each` each of them. `all` gives those of all documents but the printed ones."""
import fnmatch
import os
import subprocess

from contracts import TOP
from wrong_edits import text_of

FILE = "docs/budget"
# What builds leave, and what isn't of the repository.
ASIDE = ("out", "target", "node_modules")


def documents():
    """The paths of all documents of the repository: those that git knows, or all that are there outside of a checkout."""
    ran = subprocess.run(["git", "-C", TOP, "ls-files", "*.md"], stdout=subprocess.PIPE, stderr=subprocess.DEVNULL, text=True)
    if ran.returncode == 0 and ran.stdout:
        return ran.stdout.splitlines()
    found = []
    for at, folders, names in os.walk(TOP):
        folders[:] = [it for it in folders if it not in ASIDE and not it.startswith(".")]
        found += [os.path.relpath(f"{at}/{it}", TOP) for it in names if it.endswith(".md")]
    return sorted(found)


def lines_of(text):
    """Each line of a file of budgets: the words, whether each document has them, and the path."""
    for line in text.split("\n"):
        words = line.partition("#")[0].split()
        if words:
            yield words[0], "each" in words[1:-1], words[-1]


def wrong_budgets():
    """Which documents have more words than they may have, or no budget, and how many budgets there are."""
    words = {it: len(text_of(f"{TOP}/{it}").split()) for it in documents()}
    lines, found, known = list(lines_of(text_of(f"{TOP}/{FILE}"))), [], set()
    printed = {path for most, _, path in lines if most == "printed"}
    for most, is_each, path in lines:
        named = [it for it in words if fnmatch.fnmatchcase(it, path) and it.count("/") == path.count("/")]
        if path == "all":
            named = [it for it in words if it not in printed]
        elif not named and "*" not in path:
            found.append(f"there is no document {path}")
        known |= set(named) if path != "all" else set()
        for group in [[it] for it in named] if is_each else [named]:
            sum_of = sum(words[it] for it in group)
            if most != "printed" and sum_of > int(most):
                found.append(f"{group[0] if is_each else path} has {sum_of} words, and may have {most}")
    found += [f"{it} has no line" for it in words if it not in known]
    return found, len(lines) + len(words)
