"""The readers of CSL and CSL-JSON. The values that are wanted follow from CSL and docs/WIRE.md."""
import collections
import json
import os
import tempfile
import unittest

import sulleqti

HERE = os.path.dirname(os.path.abspath(__file__))
STYLE, ITEMS = f"{HERE}/moss.csl", f"{HERE}/items.json"
# What is left out of the style.
LEFT = {"`names-min` of a `key` by a variable": 1, "the term `film`": 1,
        "terms of locales that the library does not name": 1, "`locale` of another language": 1,
        "`font-style` oblique (written as italic)": 1}
# Pointers into the style, and the lines of what they lead to.
PLACES = [("", 1), ("/style/macros/1", 26), ("/style/macros/1/children/0/names/children/0", 27),
          ("/style/macros/1/children/0/names/children/0/name/form", 28),
          ("/style/macros/1/children/0/names/children/2/substitute/2/text/quotes", 33),
          ("/style/bibliography/children/0/group/children/0/text", 49),
          ("/citation/sort/1/macro", 38), ("/style/locales/0/terms/3/name", 13),
          ("/style/locales/1", 1), ("/style/macros/7", 1)]
# Changes of the style, and why it is refused at the line of the change.
REFUSED = [
    ("<style xmlns", "<!DOCTYPE style>\n<style xmlns", "a document type is not allowed"),
    ('variable="issued">', 'variable="isued">', "is unknown"),
    ('<text macro="year"', '<text macro="years"', "the macro `years` is missing"),
    ('<text macro="author"/>', '<text macro="author" macros=""/>',
     "the attribute `macros` of `text` is unknown"),
]


def value_of(name):
    """The value of a file of JSON."""
    with open(f"{HERE}/{name}", encoding="utf-8") as file:
        return json.load(file)


class Readers(unittest.TestCase):
    """What is read."""

    def test_style(self):
        """A style, its options, and what is left out of it."""
        style = sulleqti.Style(STYLE, ["en-US"])
        self.assertEqual(style.tree, value_of("moss.json"))
        self.assertEqual(dict(+style.left), LEFT)
        self.assertEqual((style.title, style.rights), ("Moss and <more>", "None."))

    def test_places(self):
        """The lines of what pointers lead to."""
        style = sulleqti.Style(STYLE)
        found = [(pointer, int(style.place(pointer).rpartition(":")[2])) for pointer, _ in PLACES]
        self.assertEqual(found, PLACES)

    def test_refused(self):
        """Styles that are refused, with their lines."""
        with open(STYLE, encoding="utf-8") as file:
            text = file.read()
        with tempfile.TemporaryDirectory() as room:
            for old, new, why in REFUSED:
                before, _, after = text.partition(old)
                with open(f"{room}/a.csl", "w", encoding="utf-8") as file:
                    file.write(before + new + after)
                with self.assertRaises(sulleqti.Refused) as found:
                    sulleqti.Style(f"{room}/a.csl")
                place = f"{room}/a.csl:{before.count(chr(10)) + 1}: "
                self.assertIn(why, str(found.exception))
                self.assertTrue(str(found.exception).startswith(place), found.exception)

    def test_cases(self):
        """A link keeps its case, a mark of a case goes, and what keeps its case is told."""
        with open(STYLE, encoding="utf-8") as file:
            text = file.read()
        new = '<text variable="URL" text-case="lowercase" suffix="a\ufdd1"/>'
        with tempfile.TemporaryDirectory() as room:
            with open(f"{room}/a.csl", "w", encoding="utf-8") as file:
                file.write(text.replace('<text macro="author"/>', new))
            style = sulleqti.Style(f"{room}/a.csl")
        group = style.tree["style"]["citation"]["children"][0]["group"]
        self.assertEqual(group["children"][0], {"text": {"variable": "URL", "suffix": "a"}})
        left = collections.Counter()
        title = 'On <span class="nocase">pH</span>\ufddd'
        works, faults = sulleqti.works_of([{"id": "a", "type": "book", "title": title}], left)
        self.assertEqual((works[0].tree["variables"]["title"], faults), ("On pH", []))
        self.assertEqual(dict(+left), {"`nocase` in texts": 1})

    def test_works(self):
        """Works, what is wrong with them, and what is left out of them."""
        left = collections.Counter()
        works, faults = sulleqti.works_of(ITEMS, left)
        self.assertEqual([work.tree for work in works], value_of("works.json"))
        self.assertEqual([work.place for work in works],
                         [f"{ITEMS}:{line}" for line in (2, 14, 16)])
        self.assertEqual(faults, [
            f"{ITEMS}:11: kwan: `submitted`: no date: `n.d.` is in words; in numbers it is as "
            "[[2014, 5, 2]]",
            f"{ITEMS}:15: doe: `titel`: the variable is unknown (is it `title`?)",
            f"{ITEMS}:16: 7: `accessed`: no date: the day is 30",
            f"{ITEMS}:17: 7: an item of this `id` is there already: {ITEMS}:16"])
        self.assertEqual(dict(+left), {"markup in texts": 1, "ranges of dates": 1})


if __name__ == "__main__":
    unittest.main()
