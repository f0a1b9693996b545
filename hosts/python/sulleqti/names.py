"""The names that styles and works may use, in CSL's words, by their sorts. `tools/test_python
--names` writes names.json from the sources of the library."""
from __future__ import annotations

import json
import os
from typing import Dict, List

# Spellings beside those of CSL's locales: of Appendix IV of CSL 1.0.2, and of CSL 1.0.1.
OTHER_SPELLINGS = {"editor-translator": "editortranslator", "sub verbo": "sub-verbo"}

with open(os.path.join(os.path.dirname(__file__), "names.json"), encoding="utf-8") as file:
    NAMES: Dict[str, List[str]] = json.load(file)

NUMERIC = NAMES["NumberVariable"] + NAMES["PageVariable"]
# The sort of each variable.
SORTS = {name: sort for sort in ("StandardVariable", "NumberVariable", "PageVariable",
                                 "DateVariable", "NameVariable") for name in NAMES[sort]}
# The terms of a variable, or of neither a variable nor a locator.
OTHER_TERMS = {*NAMES["NameVariable"], *NUMERIC, *NAMES["OtherTerm"]}
TERMS = {*OTHER_TERMS, *NAMES["Locator"]}
NAMES.update({
    "flag": ["true", "false"], "true": ["true"], "class": ["in-text", "note"],
    "case": ["lowercase", "uppercase", "capitalize-first", "capitalize-all", "sentence", "title"],
    "order": ["ascending", "descending"], "EtAlTerm": ["et-al", "and others"],
    "NumericVariable": NUMERIC, "TextVariable": NAMES["StandardVariable"] + NUMERIC,
    "Variable": list(SORTS),
    "day": ["numeric", "numeric-leading-zeros", "ordinal"],
    "month": ["long", "short", "numeric", "numeric-leading-zeros"], "year": ["long", "short"]})
# What a fault calls a name of a sort. Others are values of their attributes.
CALLED = {"Kind": "kind", "Locator": "locator", "TestPosition": "position", "DateVariable": "date",
          "NameVariable": "variable of names",
          **dict.fromkeys(("TextVariable", "NumericVariable", "Variable"), "variable")}
