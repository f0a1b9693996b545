"""The text cases of a style: as marks in affixes, which `csl_finish` takes, or left out."""
from typing import Any

from sulleqti.document import RESERVED

# The mark before a text of each case. The next character is the one after it.
MARKS = {"lowercase": "\ufdd0", "uppercase": "\ufdd2", "capitalize-first": "\ufdd4",
         "capitalize-all": "\ufdd6", "title": "\ufdd8", "sentence": "\ufdda"}
# What is a mark of any case, and is never printed.
MARK = RESERVED


def marked(value: Any) -> Any:
    """A value of JSON with the marks of its cases: the prefix of a node ends with one, and the
    suffix begins with the other."""
    if isinstance(value, list):
        return [marked(part) for part in value]
    if not isinstance(value, dict):
        return value
    found = {name: marked(part) for name, part in value.items() if name != "text-case"}
    if "text-case" in value:
        start = MARKS[value["text-case"]]
        found["prefix"] = found.get("prefix", "") + start
        found["suffix"] = chr(ord(start) + 1) + found.get("suffix", "")
    return found
