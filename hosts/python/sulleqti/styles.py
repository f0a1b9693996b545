"""A style of a CSL file, as a value of JSON (docs/WIRE.md)."""
from __future__ import annotations

import collections
import graphlib
import unicodedata
from typing import Counter, Dict, List, Sequence, Tuple

from sulleqti.attributes import INHERITED, Attributes, Tree
from sulleqti.document import CS, Node, document
from sulleqti.elements import RENDERED, Elements
from sulleqti.keys import LIMITS, KeyMacros
from sulleqti.locales import Locale, Locales, built_in, in_order, language_of, locale_of

# The layouts of a style, in their order, and what says how they are listed.
LAYOUTS = ("citation", "bibliography")
LISTED = {
    "citation": {"collapse": "Collapse", "cite-group-delimiter": "text",
                 "year-suffix-delimiter": "text", "after-collapse-delimiter": "text",
                 "near-note-distance": "number", "disambiguate-add-names": "flag",
                 "disambiguate-add-givenname": "flag",
                 "givenname-disambiguation-rule": "GivenNameRule",
                 "disambiguate-add-year-suffix": "flag"},
    "bibliography": {"hanging-indent": "flag", "second-field-align": "SecondFieldAlign",
                     "line-spacing": "number", "entry-spacing": "number",
                     "subsequent-author-substitute": "text",
                     "subsequent-author-substitute-rule": "SubstituteRule"},
}
# The texts around a layout.
TEXTS = {"prefix": "affix", "suffix": "affix", "delimiter": "text"}
SETTINGS = {"demote-non-dropping-particle": "DemoteNonDroppingParticle",
            "initialize-with-hyphen": "flag", **INHERITED}


def plain(text: str | None) -> str:
    """A text as a comment holds it: on one line, and without characters that have no shape."""
    text = " ".join((text or "").replace("`", "'").split())
    return "".join(char for char in text if unicodedata.category(char)[0] != "C")


def macros_of(style: Node) -> List[Node]:
    """The macros. It refuses one that is there twice, that is missing, or that leads back to
    itself."""
    macros: Dict[str, Node] = {}
    for node in style.below("macro"):
        name = Attributes(node).needed("name")
        if name in macros:
            node.refuse(f"the macro `{name}` is there twice")
        macros[name] = node
    for node in style.iter():
        called = node.get("macro") if node.name in ("text", "key") else None
        if called is not None and called not in macros:
            node.refuse(f"the macro `{called}` is missing")
    calls = {name: [text.get("macro") for text in node.iter(f"{CS}text") if text.get("macro")]
             for name, node in macros.items()}
    try:
        graphlib.TopologicalSorter(calls).prepare()
    except graphlib.CycleError as why:
        name = min(why.args[1], key=list(macros).index)
        macros[name].refuse(f"the macro `{name}` leads back to itself")
    return list(macros.values())


def refuse_dependent(root: Node) -> None:
    """Refuses a style that has no layouts of its own and names another in their place."""
    for link in root.below("info", "link"):
        if link.get("rel") == "independent-parent" and root.first("citation") is None:
            parent = link.get("href", "").rstrip("/").split("/")[-1]
            link.refuse("a dependent style, without layouts of its own: take its parent, "
                        f"`{parent}.csl`")


class Style:
    """Reads the style of a file, in the language of the first of these locales, or of its own if
    the library has that, or else in English. `tree` is the style with its options for documents.
    `left` counts what the library leaves out."""

    def __init__(self, path: str, locales: Sequence[Locale] = ()) -> None:
        self.path, self.root = path, document(path, "style")
        refuse_dependent(self.root)
        self.title, self.rights = (plain(self.root.findtext(f"{CS}info/{CS}{part}"))
                                   for part in ("title", "rights"))
        self.locales = list(locales) or [self.default_locale()]
        self.language = language_of(self.locales[0])
        self.left: Counter[str] = collections.Counter()
        self.elements, self.tree = Elements(self.left), {"style": {}}
        # (the keys by a macro that limit names)
        self.limited: List[Tuple[Tree, Tree]] = []
        macros, style = macros_of(self.root), self.tree["style"]
        style.update(self.settings())
        for name in LAYOUTS:
            if (node := self.root.first(name)) is not None:
                style[name].update(self.layout(node))
        style["macros"] = [self.macro(macro) for macro in macros]
        copies = KeyMacros(style["macros"], self.elements)
        for key, limits in self.limited:
            key["macro"] = copies.limited(key["macro"], limits)
        style["locales"] = self.all_locales()

    def default_locale(self) -> Locale:
        """The library's locale for the style's language, or else English."""
        wanted = self.root.get("default-locale", "")
        return built_in(wanted) or built_in(wanted.split("-")[0]) or locale_of("en-US")

    def place(self, pointer: str) -> str:
        """The file and the line of what a JSON Pointer into `tree` leads to."""
        value, found = self.tree, f"{self.path}:1"
        for step in pointer.split("/")[1:]:
            try:
                value = value[int(step) if isinstance(value, list) else step]
            except (LookupError, TypeError, ValueError):
                break
            found = self.elements.places.get(id(value), found)
        return found

    def settings(self) -> Tree:
        """The options for all nodes, and the layouts as yet without their nodes."""
        given = Attributes(self.root, self.left)
        found = given.taken({"version": "text", "class": "class", "default-locale": "text"})
        other = "`default-locale` of another language than the locale"
        self.left[other] += found.get("default-locale", self.language) != self.language
        self.tree.update({name: found[name] for name in ("class",) if name in found})
        pages = given.rest.get("page-range-format", "")
        if pages == "chicago" or pages.startswith("chicago-"):
            given.rest["page-range-format"] = "expanded"
            self.left[f"the page format `{pages}` (written as `Expanded`)"] += 1
        tree = given.taken({"page-range-format": "PageRangeFormat", **SETTINGS})
        for name in LAYOUTS:
            nodes = self.root.below(name)
            if len(nodes) > 1 or not nodes and name == "citation":
                (nodes[1:] or [self.root])[0].refuse(f"`style` needs one `{name}`")
            for node in nodes:
                own = Attributes(node, self.left)
                tree[name] = self.elements.made(node, own.taken(INHERITED))
                self.tree[name] = own.taken(LISTED[name])
                own.end(("sort", "layout"))
        given.end(("info", "locale", "macro", *LAYOUTS))
        return tree

    def layout(self, node: Node) -> Tree:
        """The nodes of a layout, with their formatting. The keys and the texts around the layout go
        to the options."""
        for sort in node.below("sort"):
            Attributes(sort, self.left).end(("key",))
        keys = [self.key(key) for key in node.below("sort", "key")]
        layouts = node.below("layout")
        if len(layouts) != 1:
            node.refuse(f"`{node.name}` needs one `layout`")
        given = Attributes(layouts[0], self.left)
        self.tree[node.name].update({"layout": given.taken(TEXTS), "sort": keys})
        if node.name == "bibliography":
            # (nothing is between two works)
            self.tree[node.name]["layout"].pop("delimiter", None)
        value = {"children": self.elements.nodes(layouts[0]), **given.formatting()}
        given.end(RENDERED)
        return value

    def key(self, node: Node) -> Tree:
        """A key of a sort: a variable or a macro."""
        given = Attributes(node, self.left)
        value = given.taken({"macro": "text", "variable": "Variable", "sort": "order"})
        found = given.taken({"names-min": "number", "names-use-first": "number",
                             "names-use-last": "flag"})
        given.end()
        if "variable" not in value and "macro" not in value:
            node.refuse("`key` needs a `variable` or a `macro`")
        if "variable" in value:
            value.pop("macro", None)
            for name in found:
                self.left[f"`{name}` of a `key` by a variable"] += 1
        elif found:
            limits = {option: found[name] for name in found for option in LIMITS[name]}
            self.limited.append((value, limits))
        return self.elements.made(node, value)

    def macro(self, node: Node) -> Tree:
        """A macro."""
        given = Attributes(node, self.left)
        value = given.taken({"name": "text"})
        given.end(RENDERED)
        return self.elements.made(node, {**value, "children": self.elements.nodes(node)})

    def all_locales(self) -> List[Locale | Tree]:
        """The style's own locales for the language, and the others."""
        own, read = self.root.below("locale"), Locales(self.elements)
        found = in_order(own, self.locales[0])
        self.left["`locale` of another language"] += len(own) - len(found)
        self.in_order = [(language_of(entry), entry in found) for entry in [*found, *self.locales]]
        return [read.locale(entry) for entry in [*found, *self.locales]]
