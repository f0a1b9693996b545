"""Locales: the library's by their tags, and those of files and styles as values of JSON
(docs/WIRE.md)."""
from __future__ import annotations

import os
import re
from typing import Iterator, List, Set, Union

from sulleqti.attributes import AFFIXES, Attributes, Tree
from sulleqti.document import LANGUAGE, Node, Refused, document
from sulleqti.elements import Elements
from sulleqti.names import NAMES, OTHER_SPELLINGS, OTHER_TERMS, TERMS

# A locale: the tag of a language of the library, or the root of a file.
Locale = Union[str, Node]
ORDINAL = re.compile(r"(long-)?ordinal(?:-(\d\d))?")
NUMBERS_IN_WORDS = [f"{number:02}" for number in range(1, 11)]
OPTIONS = ("punctuation-in-quote", "limit-day-ordinals-to-day-1")
UNNAMED = "terms of locales that the library does not name"


def built_in(word: str) -> str | None:
    """The tag of the library's language that is named as in `en-US` or `en`, or `None`."""
    known = {language.lower(): language for language in NAMES["Language"]}
    # (without a region, the first language: `en` is `en-US`)
    known = {name.split("-")[0]: tag for name, tag in reversed(list(known.items()))} | known
    return known.get(word.lower())


def locale_of(word: str) -> Locale:
    """The locale of a language of the library, or else of a file."""
    if not os.path.exists(word):
        found = built_in(word)
        if found is not None:
            return found
        if re.fullmatch(r"[A-Za-z]{2,3}(-\w+)?", word):
            known = ", ".join(NAMES["Language"])
            raise Refused(f"{word}: the library has {known}: of another language give the locale's "
                          "file")
    return document(word, "locale")


def language_of(locale: Locale) -> str:
    """The language of a locale."""
    return locale if isinstance(locale, str) else locale.get(LANGUAGE, "")


def in_order(own: List[Node], locale: Locale) -> List[Node]:
    """Those of a style's own locales that count for the language of another locale: for its region,
    for its language and for all."""
    name = language_of(locale).lower()
    return [node for wanted in dict.fromkeys((name, name.split("-")[0], ""))
            for node in own if language_of(node).lower() == wanted]


class Locales:
    """Reads locales. Their dates are read by `elements`. `unnamed` has the terms that the library
    does not name."""

    def __init__(self, elements: Elements) -> None:
        self.elements, self.left = elements, elements.left
        self.unnamed: Set[str] = set()

    def locale(self, locale: Locale) -> Union[str, Tree]:
        """A locale of a file or a style, or the tag of one of the library."""
        if isinstance(locale, str):
            return locale
        given = Attributes(locale, self.left)
        given.taken({LANGUAGE: "text", "version": "text"})
        given.end(("info", "translator", "style-options", "terms", "date"))
        terms = [term for node in locale.below("terms") for term in self.terms(node)]
        value = {"terms": terms, "dates": [self.date(date) for date in locale.below("date")]}
        for node in locale.below("style-options"):
            given = Attributes(node, self.left)
            # (the first that sets one counts)
            value = {**given.taken(dict.fromkeys(OPTIONS, "flag")), **value}
            given.end()
        return self.elements.made(locale, value)

    def terms(self, node: Node) -> Iterator[Tree]:
        """The terms of an element `terms`."""
        Attributes(node, self.left).end(("term",))
        for child in node:
            given = Attributes(child, self.left)
            name, texts = given.taken({"name": "text"}, "name")["name"], self.texts(child)
            read = self.ordinal if ORDINAL.fullmatch(name) else self.term
            for value in read(given, name, texts):
                yield self.elements.made(child, value)
            given.end(("single", "multiple"))

    def texts(self, node: Node) -> Tree:
        """The singular of a term, and the plural if it has another."""
        for child in node:
            Attributes(child, self.left).end()
        if [child.name for child in node] not in ([], ["single", "multiple"]):
            node.refuse("`term` needs a text, or a `single` and a `multiple`")
        one, many = (child.text or "" for child in node) if len(node) else 2 * [node.text or ""]
        return {"single": one, **({"multiple": many} if many != one else {})}

    def ordinal(self, given: Attributes, name: str, texts: Tree) -> List[Tree]:
        """An ordinal: one in words, of a number, or of all others."""
        if name.startswith("long") and name[13:] not in NUMBERS_IN_WORDS:
            given.node.refuse("an ordinal in words is of 1 to 10")
        # (a form of an ordinal says nothing in CSL)
        given.leave_out("form")
        found = given.taken({"match": "OrdinalMatch", "gender-form": "GrammarGender"})
        return [{"name": name, **found, "single": texts["single"]}]

    def term(self, given: Attributes, name: str, texts: Tree) -> List[Tree]:
        """A term: of a variable and of a locator, if CSL has one name for both, and none if the
        library does not name it."""
        found = {**given.taken({"form": "TermForm", "gender": "GrammarGender"}), **texts}
        self.left[UNNAMED] += name not in TERMS
        if name not in TERMS:
            self.unnamed.add(name)
        names = [name] if name in OTHER_TERMS else []
        if name in NAMES["Locator"]:
            names.append(f"locator:{name}" if names else name)
        return [{"name": OTHER_SPELLINGS.get(term, term), **found} for term in names]

    def date(self, node: Node) -> Tree:
        """A localized date."""
        given = Attributes(node, self.left)
        value = {**given.taken({"form": "DateForm"}, "form"), **self.elements.date_parts(node),
                 **given.taken({"delimiter": "text"}), **given.formatting(),
                 **given.taken(AFFIXES), **given.text_case()}
        given.end(("date-part",))
        return self.elements.made(node, value)
