"""The rows of tools/test_style about tools/try."""
import collections
import json
import os
import re
import shutil
from typing import Any

from csl_source import library
from csl_source.page import rules
from kit import TOP, read
from programs import Program
from sulleqti import Refused, citations_of, works_of
from testing import ran, ran_on_full_disk

STYLES = "tools/samples"
# An item in which nothing is wrong, and what the first sample style prints of it.
BOOK = {"id": "b", "type": "book", "title": "T", "author": [{"family": "Ode"}],
        "issued": {"date-parts": [[2014]]}}
OF_BOOK = "b\n  (Ode, 2014)\n  Ode (2014). T.\n"
# A style that prints titles, and what it prints them by.
OF_TITLES = """<style xmlns="http://purl.org/net/xbiblio/csl" version="1.0" class="in-text"><info/>\
<citation>
<layout delimiter="; "><text variable="title" font-style="italic"/></layout></citation></style>"""
TITLE = '<text variable="title" font-style="italic"/>'
# Variables of an item of its own, with the line of the bibliography.
RIGHT = [
    ({"issued": {"date-parts": [["2014", "5"]]}}, "Ode (2014). T."),
    ({"issued": {"raw": "2014-05-02"}}, "Ode (2014). T."),
    ({"issued": "2014"}, "Ode (2014). T."),
    ({"issued": {"literal": "2014?"}}, "Ode (2014). T."),
    ({"issued": {"date-parts": [[2014, 5], [2015, 6]]}}, "Ode (2014). T."),
    ({"issued": {"date-parts": [[-44]]}}, "Ode (44BC). T."),
    ({"issued": {"date-parts": [[2014]], "season": 2, "circa": True}}, "Ode (2014). T."),
    ({"type": "webpage", "issued": {"date-parts": [[2014]], "season": "fall"}},
     "Ode (2014, Autumn). T."),
    ({"type": "webpage", "issued": {"date-parts": [[2014, 22]]}}, "Ode (2014, Summer). T."),
    ({"author": [{"literal": "A, B and C"}]}, "A, B and C (2014). T."),
    ({"author": [{"given": "Plato"}]}, "Plato (2014). T."),
    ({"author": [{"family": "Velde", "given": "Hendrik", "non-dropping-particle": "van der"}]},
     "Velde, H. van der (2014). T."),
    ({"author": [{"family": "Okafor", "given": "Sam", "suffix": "Jr."}]},
     "Okafor, S., Jr. (2014). T."),
    ({"author": [{"family": "Beethoven", "given": "Ludwig", "dropping-particle": "van"}]},
     "Beethoven, L. van (2014). T."),
    ({"author": [{"family": "Alembert", "given": "Jean", "non-dropping-particle": "d'"}]},
     "d'Alembert, J. (2014). T."),
    ({"title": "A <i>b</i> \"c\" 'd' \"#"}, "Ode (2014). A b \"c\" 'd' \"#."),
    ({"title": "a\n b\tc"}, "Ode (2014). A b c."),
    ({"title": 7}, "Ode (2014). 7."),
    ({"edition": "2"}, "Ode (2014). T (2nd ed.)."),
    ({"edition": "revised"}, "Ode (2014). T."),
    ({"title": None, "shortTitle": "S"}, "Ode (2014)."),
    ({"DOI": "10.5555/a"}, "Ode (2014). T. https://doi.org/10.5555/a"),
    ({"DOI": "https://dx.doi.org/10.5555/a"}, "Ode (2014). T. https://doi.org/10.5555/a"),
    ({"type": "webpage", "issued": {"date-parts": [["2012", "02", 29]]}},
     "Ode (2012, February 29). T."),
    ({"issued": {"date-parts": [["2014", "", ""]]}}, "Ode (2014). T."),
    ({"author": [{"family": "Ode", "multi": {"_key": {}}}], "multi": {"main": {}}},
     "Ode (2014). T."),
]
# Variables with something wrong, the line that is told, and what it says.
WRONG = [
    ({"id": None}, 2, "an item needs an `id`"),
    ({"id": ""}, 3, "an item needs an `id`"),
    ({"id": True}, 3, "an item needs an `id`"),
    ({"type": None}, 2, "b: an item needs a `type`"),
    ({"type": "boook"}, 4, "b: the type `boook` is unknown (is it `book`?)"),
    ({"titel": "T"}, 8, "b: `titel`: the variable is unknown (is it `title`?)"),
    ({"title": {"a": 1}}, 5, "b: `title`: a text goes here"),
    ({"volume": True}, 8, "b: `volume`: a text goes here"),
    ({"author": "Ode"}, 6, "b: `author`: a list of names goes here"),
    ({"author": ["Ode"]}, 6,
     'b: `author`: a name has to be an object, as {"family": "Kwan", "given": "Kevin"}'),
    ({"author": [{}]}, 6, "b: `author`: a name without `family`, `given` and `literal`"),
    ({"author": [{"family": "O", "fammily": "O"}]}, 6,
     "b: `author`: `fammily` is no part of a name (is it `family`?)"),
    ({"author": [{}] * 10_001}, 6, "b: `author`: more than 10000 names"),
    ({"issued": 2014}, 7,
     'b: `issued`: no date: an object goes here, as {"date-parts": [[2014, 5]]}'),
    ({"issued": {"date-parts": [["May"]]}}, 7, "b: `issued`: no date: `May` is no number"),
    ({"issued": {"date-parts": [[2014, 13, 41]]}}, 7, "b: `issued`: no date: the day is 41"),
    ({"issued": {"date-parts": [[2014, 17]]}}, 7, "b: `issued`: no date: the month is 17"),
    ({"issued": {"date-parts": [[]]}}, 7,
     "b: `issued`: no date: a year, a month and a day go here"),
    ({"issued": {"date-parts": [["", 5]]}}, 7,
     "b: `issued`: no date: a year, a month and a day go here"),
    ({"issued": {"date-parts": [[0]]}}, 7, "b: `issued`: no date: there is no year 0"),
    ({"issued": {"date-parts": [[2014, 2, 29]]}}, 7, "b: `issued`: no date: the day is 29"),
    ({"issued": {"raw": "2014-04-31"}}, 7, "b: `issued`: no date: the day is 31"),
    ({"issued": {}}, 7, "b: `issued`: no date: it is empty"),
    ({"issued": {"date-parts": 2014}}, 7,
     "b: `issued`: no date: `date-parts` is a list of lists, as [[2014, 5, 2]]"),
    ({"issued": {"date-parts": [[2014]], "season": "wet"}}, 7,
     "b: `issued`: the season `wet` is unknown"),
    ({"issued": {"raw": "May 2014"}}, 7,
     "b: `issued`: no date: `May 2014` is in words; in numbers it is as [[2014, 5, 2]]"),
    ({"issued": {"literal": "n.d."}}, 7,
     "b: `issued`: no date: `n.d.` is in words; in numbers it is as [[2014, 5, 2]]"),
    ({"issued": {"date-parts": [[2014]], "year": 1}}, 7,
     "b: `issued`: `year` is no part of a date"),
]
# Whole files, and what is told of them after the name of the file.
FILES = [
    (b"", ":1: no JSON: Expecting value"),
    (b"[", ":1: no JSON: Expecting value"),
    (b"\n[{]", ":2: no JSON: Expecting property name enclosed in double quotes"),
    (b'[{"id": 1, "type": "book"} {}]', ":1: no JSON: a `,` or a `]` goes here"),
    (b"7", ':1: no list of items, as [{"id": "a", "type": "book"}]'),
    (b'{"id": "a"}', ":1: a: an item needs a `type`"),
    (b'{"title": "a"}', ':1: no list of items, as [{"id": "a", "type": "book"}]'),
    (b'[{"id": "a", "type": "book"},\n{"id": "a"}]',
     ":2: a: an item of this `id` is there already: FILE:1"),
    (b"[7]", ":1: an item has to be an object"),
    (b"[NaN]", ":1: no JSON: `NaN` is no value"),
    (b"[" * 100_000, ":1: no JSON: it is nested too deep"),
    (b"\n\xff", ":2: no UTF-8"),
    (b"title: T", ":1: no JSON: Expecting value"),
    (b'{"config": {"items": [7]}}', ':1: no list of items, as [{"id": "a", "type": "book"}]'),
    (b'{"items": 7}', ':1: no list of items, as [{"id": "a", "type": "book"}]'),
    (b'[{"id": 1, "type": "book",\n"title": 1e999}]', ":2: 1: `title`: the number is too large"),
    (b'[{"id": 1, "type": "book",\n"issued": {"raw": -1e999}}]',
     ":2: 1: `issued`: the number is too large"),
]
# Objects that have the list of one item. Only a member of the object itself counts.
OBJECTS = [
    {"items": [BOOK]},
    {"config": {"items": [{}], "references": [{}]}, "items": [BOOK]},
    {"\"items\": [": "\"items\": [7]", "references": [BOOK], "items": {}},
    {"references": [7], "items": [BOOK], "a": {}},
    BOOK,
]
# A work whose texts turn the direction of writing, end the isolates of their elements, and have
# markup, and the body of its page.
TURNS = "\u202a\u202b\u202c\u202d\u202e\u2066\u2067\u2068\u2069"
HOSTILE = {"id": "h\u2069<", "type": "webpage", "title": "A \u2069\u202e evil <script> \u05d0",
           "author": [{"family": "\u202bOde"}], "publisher": f"P{TURNS}",
           "URL": f"https://a.org/{TURNS}b", "issued": {"date-parts": [[2014]]}}
HOSTILE_BODY = """<h1>Numbers in brackets</h1>
<h2>Cites</h2>
<p><b>h&lt;</b>: [1]</p>
<h2>References</h2>
<div class="entry columns"><div>[1]</div><div>Ode, “A  evil &lt;script&gt; \u05d0,” P, 2014, \
<a href="https://a.org/b">https://a.org/b</a>.</div></div>
"""
# Cites of works `a` and `b`, each in the words of citeproc-js, and what the first sample style
# prints of them.
CITES = [
    ([{"id": "a"}], "(Ode, 2014)"),
    ([{"id": "b", "prefix": "see ", "suffix": ", too"}, {"id": "a", "locator": 7}],
     "(Ode, 2014, p. 7; see Poe, 2015, too)"),
    ([{"id": "a", "locator": "2", "label": "chapter"}], "(Ode, 2014, chap. 2)"),
    ([{"id": "a", "locator": "x", "label": "sub verbo"}], "(Ode, 2014, s.v. x)"),
    ([{"id": "a", "suppress-author": True}], "(2014)"),
    ([{"id": "a", "author-only": 1}], "Ode"),
    ({"citationItems": [{"id": "a"}, {"id": "b"}],
      "properties": {"noteIndex": 3, "mode": "composite"}},
     "Ode (2014; Poe, 2015)"),
    ({"citationItems": [{"id": "b"}]}, "(Poe, 2015)"),
    ([{"id": "a", "prefix": "<i>cf.</i>\n"}], "(cf. Ode, 2014)"),
    ([], ""),
]
# Citations with something wrong, and what is told of them.
WRONG_CITES = [
    ([{"id": "c"}], "there is no work `c`"),
    ([{"locator": "7"}], 'a cite is an object with an `id`, as {"id": "kwan", "locator": "7"}'),
    (["a"], 'a cite is an object with an `id`, as {"id": "kwan", "locator": "7"}'),
    ([{"id": "a", "page": "7"}], "`page` is no part of a cite"),
    ([{"id": "a", "locator": "7", "label": "shelf"}], "the label `shelf` is unknown"),
    ({"properties": {}}, 'a citation is a list of cites, or an object with one in "citationItems"'),
    ("a", 'a citation is a list of cites, or an object with one in "citationItems"'),
]
# Names of variables, each a megabyte long.
LONG_NAMES = ["x" * 1_000_000 + str(place) for place in range(10)]
# Macros that each call the next one twice.
DOUBLED = "".join(f'<macro name="m{place}">{f"""<text macro="m{place + 1}"/>""" * 2}</macro>'
                  for place in range(40))
DOUBLED += '<macro name="m40"/>'
UNPROVED = "tools/try: csl_serve is not proved here; ./test proves it"
# Words that are wrong, and what is told of them.
WORDS = [
    ([], "the following arguments are required: style"),
    (["a.csl", "b.json", "c"], "unrecognized arguments: c"),
    (["a.csl", "--colour"], "unrecognized arguments: --colour"),
    (["a.csl", "--list=no"], "argument --list: ignored explicit argument 'no'"),
    (["a.csl", "--locale"], "argument --locale: expected one argument"),
    (["a.csl", "--html="], "an option lacks its word"),
    ([f"{STYLES}/footnotes.csl", "--html", f"{STYLES}/footnotes.csl"],
     f"--html would write over {STYLES}/footnotes.csl"),
]


class TrialTests:
    """Tests of tools/try, for a class that has `row` and `room`."""

    def tried(self, *words: str, **how: Any) -> tuple[int, str, list[str]]:
        """The status, the output and the lines of faults of the tool."""
        status, text, told = ran([f"{TOP}/tools/try", *words], **how)
        return status, text, told.splitlines()

    def file(self, name: str, content: str | bytes) -> str:
        """The path of a new file."""
        path = f"{self.room}/{name}"
        os.makedirs(os.path.dirname(path), exist_ok=True)
        with open(path, "wb") as file:
            file.write(content.encode() if isinstance(content, str) else content)
        return path

    def items(self, items: list[dict[str, Any]]) -> str:
        """The path of a file of items, each variable on a line of its own."""
        texts = []
        for item in items:
            variables = (f"{json.dumps(name)}: {json.dumps(value)}" for name, value in item.items())
            texts.append("{\n" + ",\n".join(variables) + "\n}")
        return self.file("items.json", "[\n" + ",\n".join(texts) + "\n]")

    def read(self, path: str) -> tuple[list[str], list[str]]:
        """What is read of a file: each `id`, and what is told without the name of the file."""
        try:
            works, faults = works_of(path, collections.Counter())
        except Refused as why:
            works, faults = [], [str(why)]
        told = [fault.removeprefix(path).replace(path, "FILE") for fault in faults]
        return [work.id for work in works], told

    def of_items(self, items: list[dict[str, Any]], *words: str) -> tuple[int, str, list[str]]:
        """What is printed of these items, without year suffixes, and what is told of the file."""
        path, style = self.items(items), read(f"{STYLES}/author_year.csl")
        style = self.file("author_year.csl",
                          style.replace('disambiguate-add-year-suffix="true"', ""))
        status, text, faults = self.tried(style, path, "--more", *words)
        faults = [fault.removeprefix(path) for fault in faults if fault.startswith(path)]
        return status, text.split("The first")[0], faults

    def test_items(self) -> None:
        """Items, and what is wrong with some: it alone is left out."""
        items = [{**BOOK, **more, "id": f"i{place}"} for place, (more, _) in enumerate(RIGHT)]
        status, text, faults = self.of_items(items)
        given = dict(re.findall(r"^i(\d+)\n  .*\n  (.*)$", text, re.M))
        # (markup and the end of a range are left out)
        self.row("right items", (status, faults), (1, []))
        for place, (more, wanted) in enumerate(RIGHT):
            self.row(f"the item {more}", given.get(str(place)), wanted)
        for more, line, why in WRONG:
            item = {name: value for name, value in {**BOOK, **more}.items() if value is not None}
            given = self.read(self.items([item, {**BOOK, "id": "c"}]))
            ids = ["c"] if "id" in more else ["b", "c"]
            self.row(f"the wrong item {str(more)[:99]}", given, (ids, [f":{line}: {why}"]))
        item = {**BOOK, "id": "w", "type": "a", "titel": "T"}
        told = [":4: w: the type `a` is unknown",
                ":8: w: `titel`: the variable is unknown (is it `title`?)"]
        wanted = f"w{OF_BOOK[1:]}{OF_BOOK}"
        self.row("an item with two faults", self.of_items([item, BOOK]), (1, wanted, told))
        style = f"{STYLES}/author_year.csl"
        given = self.faults(style, self.items([{**item, "id": number} for number in range(30)]))[2]
        self.row("many wrong items", given[50:], ["10 more faults"])

    def test_item_files(self) -> None:
        """Files of items that are no JSON, or too large, or not there. What is right before a fault
        is printed."""
        style = f"{STYLES}/author_year.csl"
        for content, why in FILES:
            given = self.read(self.file("items.json", content))
            self.row(f"the file {content[:30]!r}", given[1], [why])
        path = self.file("items.json", "[]")
        self.row("no items", self.faults(style, path), (2, "", [f"{path}: no items"]))
        path = self.file("items.json", json.dumps([BOOK])[:-1] + ", {]")
        told = [f"{path}:1: no JSON: Expecting property name enclosed in double quotes"]
        self.row("a fault in the second item", self.faults(style, path), (1, OF_BOOK, told))
        for object in OBJECTS:
            path = self.file("items.json", "\ufeff" + json.dumps(object, indent=1))
            self.row(f"a list in {object}", self.faults(style, path), (0, OF_BOOK, []))
        path = self.file("items.json", b" " * 33_000_000)
        large = "more than 32 MB: take fewer items"
        for file, why in ((path, large), ("/dev/zero", large), (self.room, "Is a directory"),
                          (f"{path}.no", "No such file or directory")):
            self.row(f"the file {file}", self.faults(style, file), (2, "", [f"{file}: {why}"]))
        told = ["no.csl: No such file or directory"]
        self.row("no style", self.faults("no.csl"), (2, "", told))

    def faults(self, *words: str, **how: Any) -> tuple[int, str, list[str]]:
        """What the tool prints, without the first works together, and what it tells with --more."""
        status, text, faults = self.tried(*words, "--more", **how)
        return status, text.split("The first")[0], [fault for fault in faults if fault != UNPROVED]

    def test_trial_words(self) -> None:
        """Words that the tool refuses, and its help."""
        example = "; for example: tools/try apa.csl items.json --html list.html"
        for words, why in WORDS:
            self.row(f"the words {words}", self.tried(*words),
                     (2, "", [f"tools/try: {why}{example}"]))
        self.row("--help of tools/try", self.tried("--help")[::2], (0, []))
        for words in ["--help"], [f"{STYLES}/footnotes.csl"]:
            given = ran_on_full_disk([f"{TOP}/tools/try", *words])
            self.row(f"a full disk: tools/try {words}", given,
                     (1, "tools/try: No space left on device"))

    def test_locales(self) -> None:
        """The language of the library that the style names, another one, and that of a file."""
        style = f"{STYLES}/bracketed.csl"
        path = self.file("items.json", json.dumps([{**BOOK, "edition": 2}]))
        for words, wanted in (([], "2nd ed."), (["--locale", "de-DE"], "2. Aufl."),
                              (["--locale=fr"], "2ᵉ éd."),
                              (["--locale", "tools/style_tests/fr.xml"], "2e éd.")):
            line = self.faults(style, path, *words)[1].splitlines()[-1]
            self.row(f"a language: {words}", line, f"  [1] Ode, T, {wanted}, 2014.")
        why = f"da-DK: the library has {', '.join(library.languages())}: of another language " \
            "give the locale's file"
        self.row("no such language", self.faults(style, path, "--locale", "da-DK"), (2, "", [why]))

    def test_sorted(self) -> None:
        """The order of a style: by names without accents, then by dates, and without a key."""
        works = [("Zuse", 1), ("Östlund", 2), ("Ødegård", 2), ("Oster", 2019), ("Oster", 2001),
                 ("", 3)]
        items = [{**BOOK, "id": f"{name}{year}", "author": [{"family": name}] if name else [],
                  "issued": {"date-parts": [[year]]}, "title": ""} for name, year in works]
        wanted = ["Ødegård2", "Oster2001", "Oster2019", "Östlund2", "Zuse1", "3"]
        for words, found in ([], r"^(\S+)$"), (["--list"], r"^(\S+)\n  .*\n(?=\S|$)"):
            text = self.of_items(items, *words)[1]
            self.row(f"sorted works: {words}", re.findall(found, text, re.M), wanted)
        path = self.file("none.csl", OF_TITLES)
        self.row("a style without a bibliography", self.faults(path, "--list"), (0, "", []))

    def test_cites(self) -> None:
        """The citations of a document, and what is wrong with some."""
        works = [{**BOOK, "id": "a"},
                 {**BOOK, "id": "b", "author": [{"family": "Poe"}], "issued": "2015"}]
        words = [f"{STYLES}/author_year.csl", self.items(works), "--cites"]
        path = self.file("cites.json", json.dumps([citation for citation, _ in CITES]))
        status, text, faults = self.tried(*words, path)
        cited, _, listed = text.partition("\n\n")
        given = re.findall(r"^(?:[ab](?:, [ab])*|\(no cites\))\n?((?:  .*)?)", cited, re.M)
        self.row("cites", (status, [line.strip() for line in given], faults),
                 (0, [text for _, text in CITES], []))
        self.row("the list after cites", listed, "a\n  Ode (2014). T.\nb\n  Poe (2015). T.\n")
        path = self.file("cites.json", json.dumps([citation for citation, _ in WRONG_CITES]))
        told = [f"{path}: citation {place}: {why}" for place, (_, why) in enumerate(WRONG_CITES, 1)]
        self.row("wrong cites", citations_of(path, {"a", "b"})[1], told)
        status, text, faults = self.faults(*words, path)
        self.row("wrong cites are told", (status, faults, text[-19:]),
                 (1, told, "b\n  Poe (2015). T.\n"))
        no_json = "no JSON: Expecting property name enclosed in double quotes: line 1 column 2 " \
            "(char 1)"
        for content, why in ("{", no_json), ("{}", 'no list of citations, as [[{"id": "kwan"}]]'):
            path = self.file("cites.json", content)
            self.row(f"the citations {content}", self.faults(*words, path),
                     (2, "", [f"{path}: {why}"]))

    def test_more(self) -> None:
        """What is left out: one line, or each thing in its own. A term is told if the library does
        not name it, and not if no locale has it."""
        terms = "".join(f'<text term="{term}"/>' for term in ("author", "hook", "page"))
        style = self.file("titles.csl", OF_TITLES.replace(TITLE, TITLE + terms))
        path = self.file("items.json", json.dumps([{**BOOK, "title": "<b>T</b>", "titel": 1}]))
        told = self.tried(style, path)
        wanted = (1, "b\n  Tpage\n",
                  [f"{style}: left out: 3 things, in 3 places (--more says what)"])
        self.row("one line", told, wanted)
        told = self.tried(style, path, "--more")[2]
        wanted = [UNPROVED,
                  "words are missing that the library has no term for: 1 place (the term `hook`)",
                  "markup inside of titles is dropped: 1 place (markup in texts)",
                  f"{path}:1: b: `titel`: the variable is unknown (is it `title`?)"]
        self.row("each thing", sorted(told), sorted(wanted))

    def test_page(self) -> None:
        """A web page: texts are escaped, and only web addresses are links."""
        file = f"{self.room}/list.html"
        items = [{**BOOK, "id": "<b>", "title": "<script>", "URL": "javascript:alert(1)"},
                 {**BOOK, "URL": "https://example.org/"}]
        status, _, faults = self.of_items(items, "--html", file)
        text = read(file)
        self.row("a page is written", (status, faults), (0, []))
        self.row("no script on the page", "<script" in text, False)
        self.row("the links of the page", re.findall('href="(.*?)"', text),
                 ["https://example.org/"])
        self.row("the lines of the page", text.count('<div class="entry hanging">'), 2)
        self.row("the title of the page", re.findall("<h1>(.*)</h1>", text), ["Author and year"])
        self.tried(f"{STYLES}/bracketed.csl", "--html", file)
        self.row("numbers beside lines", read(file).count('<div class="entry columns"><div>['), 8)
        self.row("a width of numbers", "first-child { flex: none; min-width: 3ch;" in read(file),
                 True)
        self.tried(f"{STYLES}/bracketed.csl", "--list", "--html", file)
        self.row("the list alone", re.findall("<h2>(.*)</h2>", read(file)), ["References"])
        for path, why in (("/dev/full", "No space left on device"),
                          (f"{self.room}/no/no", "No such file or directory")):
            told = self.faults(f"{STYLES}/bracketed.csl", "--html", path)
            self.row(f"the page {path}", (told[0], told[2]), (2, [f"{path}: {why}"]))

    def test_hostile_page(self) -> None:
        """The page of a work that turns the direction of writing, with the rules of page.rt."""
        file = f"{self.room}/list.html"
        path = self.file("items.json", json.dumps([HOSTILE]))
        self.tried(f"{STYLES}/bracketed.csl", path, "--html", file)
        head, _, body = read(file).partition("<body>\n")
        self.row("a hostile page", body, f"{HOSTILE_BODY}</body>\n</html>\n")
        self.row("the rules of page.rt", ["overflow: clip" in rules(), rules() in head],
                 [True, True])

    def test_hostile_items(self) -> None:
        """What has no shape in an item or a style is written by its number; no line is forged."""
        hostile = "a\x1b[31m\u202e\nb.json:1: forged"
        shown = r"a [31m\u{202e} b.json:1: forged"
        items = [{**BOOK, "id": hostile, "title": hostile},
                 {**BOOK, "id": f"{hostile}2", hostile: 1},
                 {**BOOK, "title": "\ud800"}]
        status, text, faults = self.of_items(items)
        self.row("a hostile item", (status, text.splitlines()[0]), (1, shown))
        self.row("a hostile variable", faults,
                 [f":9: {shown}2: `{shown}`: the variable is unknown"])
        self.row("half of a character", text.splitlines()[-1], "  Ode (2014). \ufffd.")
        self.row("no control characters", set(re.findall("[\0-\x1f\x7f-\x9f\u202e\u2028]", text)),
                 {"\n"})

    def test_hostile_sizes(self) -> None:
        """Files that cost the most, each of which may cost five seconds of a core."""
        style, path = f"{STYLES}/author_year.csl", f"{self.room}/hostile.json"
        title = "\"'" + "#" * 40_000
        self.file("hostile.json", json.dumps([{**BOOK, "title": title}]))
        wanted = f"b\n  (Ode, 2014)\n  Ode (2014). {title}.\n"
        self.row("a text of marks", self.cheap(style, path), (0, wanted, []))
        self.file("hostile.json", json.dumps([{**BOOK, **dict.fromkeys(LONG_NAMES, 1)}], indent=0))
        told = [f"{path}:{line}: b: `{'x' * 60}..`: the variable is unknown"
                for line in range(18, 28)]
        self.row("long names", self.cheap(style, path), (1, OF_BOOK, told))
        for macros, text in (DOUBLED, '<text macro="m0"/>'), ("", '<text term="in"/>' * 3_000):
            costly = OF_TITLES.replace("<citation>", f"{macros}<citation>").replace(TITLE, text)
            path = self.file("hostile.csl", costly)
            told = [f"{path}:1: the style renders more than is allowed"]
            self.row(f"a costly style: {text[:50]}", self.cheap(path), (2, "", told))

    def cheap(self, *words: str) -> tuple[int, str, list[str]]:
        """What `faults` gives of a call that may cost five seconds of a core."""
        return self.faults(*words, seconds=5)

    def test_compare_pandoc(self) -> None:
        """tools/compare_pandoc over a pandoc that prints what `tools/try` prints, but for the case
        of a citation, and for a citation and a line."""
        folder, style = "tools/pandoc_tests", f"{STYLES}/bracketed.csl"
        text = self.tried(style, f"{folder}/works.json", "--cites", f"{folder}/document.json")[1]
        cites, lines = (re.findall(r"^(\S.*)\n  (.*)$", part, re.M) for part in text.split("\n\n"))
        cites[0], cites[5] = (cites[0][0], "[other]"), (cites[5][0], cites[5][1].upper())
        lines[2] = (lines[2][0], "other")
        blocks = [{"t": "Cite", "c": [[], [{"t": "Str", "c": cite}]]} for _, cite in cites]
        entries = [{"t": "Div", "c": [[f"ref-{name}"], [{"t": "Str", "c": line}]]}
                   for name, line in lines]
        blocks.append({"t": "Div", "c": [["refs"], entries]})
        printed = self.file("blocks.json", json.dumps({"blocks": blocks}))
        pandoc = self.file("bin/pandoc", f"#!/bin/sh\ncat {printed}\n")
        os.chmod(pandoc, 0o755)
        path = {**os.environ, "PATH": f"{self.room}/bin:{os.environ['PATH']}"}
        places = f"  bracketed line {lines[2][0]}\n  bracketed citation 7\n"
        causes = self.file("causes", f"pandoc: another\n{places}")
        status, text, _ = ran(["tools/compare_pandoc", style, "--causes", causes], env=path)
        counts = "17 of 18 lines (17 exactly), 15 of 16 citations (14 exactly)"
        wanted = ["Equal but for case:", f"bracketed: {counts}", f"all: {counts}",
                  "0 lines, 1 citations: without a cause", "1 lines, 0 citations: pandoc: another",
                  "",
                  "bracketed: citation 1", "  pandoc [other]", "  here   [1]",
                  "nothing differs at bracketed citation 7 (pandoc: another)"]
        self.row("differences from pandoc", (status, text.splitlines()), (1, wanted))

    def test_compare_csl(self) -> None:
        """tools/compare_csl over made-up tests: one is equal, one differs, one differs by a cause,
        and one is not taken. Two causes are of tests that do not differ."""
        works = [{"id": title, "type": "book", "title": title} for title in "TU"]
        wanted = {"one": "<i>T</i>; <i>U</i>", "two": "<b>T</b>; <i>U</i>", "three": "T",
                  "four": "<i>T</i>"}
        for name, result in wanted.items():
            parts = {"MODE": "citation", "RESULT": result, "CSL": OF_TITLES,
                     "INPUT": json.dumps(works if name != "four" else works[:1])}
            text = "\n\n".join(f">>== {section} ==>>\n{part}\n<<== {section} ==<<"
                               for section, part in parts.items())
            path = self.file(f"official/{name}.txt", text)
        causes = self.file("causes", "csl: another\n  three four\nlist: a fault\n  one\n")
        status, text, _ = ran(["tools/compare_csl", os.path.dirname(path), "--causes", causes])
        wanted = ["4 tests, 3 taken: 1 equal", "1 not taken: (needs no document)",
                  "1 differ: csl: another",
                  "1 differ: without a cause", "", "two:", "  CSL  {bold}T{}; {italic}U",
                  "  here {italic}T{}; {italic}U", "nothing differs at four (csl: another)",
                  "nothing differs at one (list: a fault)"]
        self.row("differences from CSL's tests", (status, text.splitlines()), (1, wanted))

    def test_no_kit(self) -> None:
        """Without the kit, and without a program of an earlier call, there is one line."""
        top = f"{self.room}/no_kit"
        leave_out = shutil.ignore_patterns("out")
        for folder in "crates", "hosts", "tools":
            shutil.copytree(f"{TOP}/{folder}", f"{top}/{folder}", ignore=leave_out)
        shutil.copy2(f"{TOP}/crates.txt", top)
        words = [f"{top}/tools/try", f"{top}/{STYLES}/footnotes.csl"]
        status, text, told = ran(words, env={"PATH": "/usr/bin:/bin"})
        why = told.splitlines()[-1].split(":")[1]
        self.row("no kit", (status, text, why), (127, "", " there is no command `rt` on PATH"))

    def test_kept_at_once(self) -> None:
        """A program that another call has just kept stays, so that the call can run it."""
        reader = Program(f"{TOP}/tools/rows_reader", print)
        reader.out = f"{self.room}/out"
        file = reader.file_of(reader.sums())
        self.file("out/unproved-0", "of older sources")
        self.file(f"{os.path.relpath(file, self.room)}.1", "of another call")
        kept, name = reader.keep("/bin/true", reader.sums()), os.path.basename(file)
        self.row("kept at once", (kept, sorted(os.listdir(reader.out))),
                 (True, [name, f"{name}.1"]))

    def test_many(self) -> None:
        """Many items, whose cost may not grow with the square of their number."""
        many = json.dumps([{**BOOK, "id": place} for place in range(20_000)], indent=1)
        self.row("many items are read", len(self.read(self.file("many.json", many))[0]), 20_000)
        path = self.file("many.json", json.dumps([{**BOOK, "id": place} for place in range(1_000)]))
        status, text, _ = self.tried(f"{STYLES}/author_year.csl", path, seconds=5)
        self.row("many items are printed",
                 (status, len(re.findall(r"\n  Ode \(2014\w+\)\. T\.", text))), (0, 1_000))

    def all_of_trials(self) -> None:
        """All of these tests."""
        self.test_trial_words()
        self.test_items()
        self.test_item_files()
        self.test_locales()
        self.test_sorted()
        self.test_cites()
        self.test_more()
        self.test_page()
        self.test_hostile_page()
        self.test_hostile_items()
        self.test_hostile_sizes()
        self.test_compare_pandoc()
        self.test_compare_csl()
        self.test_no_kit()
        self.test_kept_at_once()
        self.test_many()
