"""Wrong bodies that a test has to notice, as text: where they are kept, and the test that each names."""
import re

from wrong_edits import BadEdit

# The folder of a crate that has them.
BY_TEST = "wrong-by-test"


def test_named(text):
    """The kind and the name of the test that an edit names: `server` for one of tests/server, else the crate that has it."""
    found = re.findall(r"^test: (\w+) (\w+)$", text, re.M)
    if len(found) != 1:
        raise BadEdit("it has no line 'test: KIND NAME', or several")
    return found[0]
