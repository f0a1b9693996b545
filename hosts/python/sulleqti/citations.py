"""The citations of a document as citeproc-js has them."""
from __future__ import annotations

import dataclasses
import json
from typing import Any, Container, List, Sequence, Tuple, Union

from sulleqti.attributes import Tree
from sulleqti.document import Refused, content_of
from sulleqti.names import NAMES, OTHER_SPELLINGS
from sulleqti.works import MARKUP, MOST_BYTES, Wrong, cleaned, named, on_one_line

# What a cite may have, and what says which part of it is printed.
PURPOSES = {"suppress-author": "suppress-author", "author-only": "author"}
MODES = {**PURPOSES, "composite": "prose"}
MEMBERS = {"id", "locator", "label", "prefix", "suffix", *PURPOSES}


@dataclasses.dataclass(frozen=True)
class Citation:
    """A citation: its cites, as `Document.citation` takes them, and the number of its note."""

    cites: List[Tree]
    note: int | None = None


def cite(value: Any, mode: str) -> Tree:
    """A cite, in a citation of this mode."""
    if not isinstance(value, dict) or not isinstance(value.get("id"), (str, int)):
        raise Wrong('a cite is an object with an `id`, as {"id": "kwan", "locator": "7"}')
    unknown = [name for name in value if name not in MEMBERS]
    if unknown:
        raise Wrong(f"{named(unknown[0])} is no part of a cite")
    found = {"id": cleaned(str(value["id"]))}
    found.update({name: MARKUP.sub("", on_one_line(str(value[name])))
                  for name in ("prefix", "suffix") if value.get(name)})
    purpose = next((word for name, word in PURPOSES.items() if value.get(name)), MODES.get(mode))
    if purpose:
        found["purpose"] = purpose
    if value.get("locator"):
        label = value.get("label") or "page"
        if label not in NAMES["Locator"]:
            raise Wrong(f"the label {named(str(label))} is unknown")
        found["locator"] = OTHER_SPELLINGS.get(label, label), cleaned(str(value["locator"]))
    return found


def citation(value: Any) -> Citation:
    """A citation: an object of citeproc-js, or the list of its cites alone."""
    given = value if isinstance(value, dict) else {"citationItems": value}
    items, how = given.get("citationItems"), given.get("properties") or {}
    if not isinstance(items, list) or not isinstance(how, dict):
        raise Wrong('a citation is a list of cites, or an object with one in "citationItems"')
    mode, note = how.get("mode", ""), how.get("noteIndex")
    # (only the first author of several cites is in the text)
    cites = [cite(item, "" if mode == "composite" and place else mode)
             for place, item in enumerate(items)]
    return Citation(cites, note if isinstance(note, int) and note > 0 else None)


def values_of(path: str) -> Any:
    """The value of a file of JSON."""
    try:
        return json.loads(content_of(path, MOST_BYTES, "more than 32 MB: take fewer citations"))
    except (ValueError, RecursionError) as why:
        raise Refused(f"{path}: no JSON: {why}") from None


def citations_of(given: Union[str, Sequence[Any]], ids: Container[str]
                 ) -> Tuple[List[Citation], List[str]]:
    """The citations of a file, or of a list, of works of these `ids`, and a line for each thing
    that is wrong. A citation that is wrong is left out, and so is a cite of another work."""
    is_file = isinstance(given, str)
    values, begin = values_of(given) if is_file else given, f"{given}: " if is_file else ""
    if not isinstance(values, list):
        raise Refused(f"{begin}no list of citations, as [[{{\"id\": \"kwan\"}}]]")
    found, faults = [], []
    for number, value in enumerate(values, 1):
        place = f"{begin}citation {number}"
        try:
            whole = citation(value)
            found.append(Citation([item for item in whole.cites if item["id"] in ids], whole.note))
            faults += [f"{place}: there is no work {named(item['id'])}"
                       for item in whole.cites if item["id"] not in ids]
        except Wrong as why:
            faults.append(f"{place}: {why}")
    return found, faults
