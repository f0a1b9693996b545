"""The processor: over programs that stand in for `csl_serve`, and over `csl_serve` itself, if
SULLEQTI_SERVE or PATH has it."""
import json
import os
import re
import shutil
import subprocess
import sys
import tempfile
import threading
import time
import unittest

import sulleqti

HERE = os.path.dirname(os.path.abspath(__file__))
STYLE, ITEMS = f"{HERE}/moss.csl", f"{HERE}/items.json"
WORKS = [("moss", "Moss", "Kwan", 2014), ("roe", "Hills", "Roe", 2010),
         ("fern", "Ferns", "Kwan", 2016), ("doe", "Lakes", "Doe", 1999)]
# A program that has items, to the letter.
PROGRAM = """
with sulleqti.Processor() as processor:                      # csl_serve: a path, SULLEQTI_SERVE, or on PATH
    style = processor.style("apa.csl", locale="en-GB")
    document = style.document(items)                         # CSL-JSON, as Zotero has it
    cite = document.cite("kwan", locator=("page", "7"))
    done = document.render()
print(done[cite].html, done.bibliography[0].html)            # also .text, .tree
"""
IS_HERE = bool(os.environ.get("SULLEQTI_SERVE") or shutil.which("csl_serve"))


def stands_in(answer):
    """A processor whose program runs this line for each request, `line`."""
    text = f"import sys, time\nfor line in sys.stdin:\n    {answer}\n    sys.stdout.flush()"
    return sulleqti.Processor([sys.executable, "-c", text], timeout=5)


class StandIns(unittest.TestCase):
    """Programs that answer, end, or do not answer."""

    def test_answers(self):
        """Answers, one for each request, also of threads, however much is said beside them."""
        answer = "sys.stderr.write('x' * 200_000); print('{\"ok\": ' + str(len(line)) + '}')"
        with stands_in(answer) as processor:
            found = []
            threads = [threading.Thread(target=lambda size=count: found.append(
                (size, processor.ask("a" * size)))) for count in range(20)]
            for thread in threads:
                thread.start()
            for thread in threads:
                thread.join()
            self.assertEqual(sorted(found), [(count, count + 11) for count in range(20)])

    def test_ends(self):
        """A program that ends, and is not started again."""
        with stands_in("sys.exit('no memory')") as processor:
            for _ in range(2):
                with self.assertRaisesRegex(sulleqti.ServerEnded, "(?s)ended with 1.*no memory"):
                    processor.ask("hello")

    def test_time(self):
        """A program that does not answer is ended."""
        processor = stands_in("time.sleep(60)")
        processor.timeout, start = 0.5, time.monotonic()
        with self.assertRaisesRegex(sulleqti.ServerEnded, "did not answer in 0.5 seconds"):
            processor.ask("hello")
        self.assertLess(time.monotonic() - start, 10)

    def test_refused(self):
        """A refused style is told with its place in the file."""
        error = '{"at": "/style/macros/1/children/0/names", "code": "c", "message": "no"}'
        with stands_in(f"print('{{\"error\": {error}}}')") as processor:
            with self.assertRaises(sulleqti.Refused) as found:
                processor.style(STYLE)
        self.assertEqual(str(found.exception), f"{STYLE}:27: no")

    def test_document(self):
        """What is asked and answered of a document."""
        cite = '{"plain": "p", "html": "h", "tree": []}'
        answers = ('{"missing-macro": null}', '[{"ok": {}}, {"ok": {}}, {"ok": {}}]',
                   f'{{"citations": [{cite}, {cite}], "works": ["2:7"], "bibliography": {{"items": '
                   f'[{{"work": "2:7", "content": {cite}, "first-field": {cite}}}], '
                   '"line-spacing": 2}}')
        answer = (f"sys.stderr.write(line); word = line.split('\"')[3]; answers = {answers!r}; "
                  "place = ['style', 'works', 'document'].index(word); "
                  "print('{\"ok\": ' + answers[place] + '}')")
        with stands_in(answer) as processor:
            document = processor.style(STYLE).document(ITEMS)
            self.assertEqual(document.cite("kwan", locator=("page", "7"), note=2), 0)
            self.assertEqual(document.citation([{"id": 7, "prefix": "see "}, {"id": "doe"}]), 1)
            with self.assertRaisesRegex(sulleqti.Refused, "no work has the `id` roe"):
                document.cite("roe")
            done = document.render(uncited=["7"])
        found = json.loads(processor.said[-1])
        self.assertEqual((found["citations"], found["works"]), ([
            {"items": [{"work": "2:kwan", "locator": {"label": "page", "value": "7"}}],
             "note-number": 2},
            {"items": [{"work": "2:7", "prefix": "see "}, {"work": "2:doe"}]}], ["2:7"]))
        self.assertEqual((done[1].html, done.bibliography[0].first_field.text), ("h", "p"))
        self.assertEqual((done.bibliography[0].id, done.looks), ("7", {"line-spacing": 2}))

    def test_nothing(self):
        """No program."""
        with self.assertRaises(FileNotFoundError):
            sulleqti.Processor("/none/csl_serve")


@unittest.skipUnless(IS_HERE, "there is no csl_serve")
class Served(unittest.TestCase):
    """`csl_serve` itself."""

    def test_cites(self):
        """Cites and lines of works, and what is left out of them."""
        with sulleqti.Processor() as processor:
            works = processor.style(STYLE, locale="en-US").works(ITEMS)
            self.assertEqual((list(works.ids), len(works.warnings)), (["kwan", "doe", "7"], 4))
            self.assertEqual(works.cite("kwan").text, "van der Kwan, Okafor, and ACME, 2014!")
            self.assertEqual(works.line("7").html,
                             '“<span style="font-style: italic;">Line by Line</span>')
            self.assertEqual(works.sort_key("7", variable="title"), "Line by line")
            given = processor.style(STYLE).works([{"id": 1, "type": "book", "titel": "T"}, 7])
            self.assertEqual(given.warnings[1], "item 2: an item has to be an object")
            works.drop()
            for these in works, given:
                with self.assertRaisesRegex(sulleqti.Refused, "no work is kept by this name"):
                    these.cite("kwan")
            works.style.drop()
            with self.assertRaisesRegex(sulleqti.Refused, "no style is kept by this name"):
                works.cite("kwan")

    def test_document(self):
        """The document of docs/WIRE.md."""
        items = [{"id": id, "type": "book", "title": title, "author": [{"family": name}],
                  "issued": {"date-parts": [[year]]}} for id, title, name, year in WORKS]
        with sulleqti.Processor() as processor:
            document = processor.style(f"{HERE}/year.csl").document(items)
            document.citation([{"id": "moss", "prefix": "see "}, {"id": "roe"}])
            cite = document.cite("moss", locator=("page", "7"), purpose="prose")
            document.cite("fern", hidden=True)
            done = document.render(uncited=["doe"])
        self.assertEqual([citation.text for citation in done.citations],
                         ["(see Kwan 2014; Roe 2010)", "Kwan (2014: 7)", ""])
        self.assertEqual(done[cite].html, "Kwan (2014: 7)")
        self.assertEqual([(entry.id, entry.text) for entry in done.bibliography], [
            ("doe", "Doe. 1999. Lakes."), ("fern", "Kwan. 2016. Ferns."),
            ("moss", "Kwan. 2014. Moss."), ("roe", "Roe. 2010. Hills.")])
        self.assertEqual(done.looks, {"hanging-indent": True, "line-spacing": 1,
                                      "entry-spacing": 1})

    def test_programs(self):
        """The last block of README.md, and the program, over this style and these works."""
        with open(f"{HERE}/../README.md", encoding="utf-8") as file:
            block = re.findall("(?s)```python\n(.*?)```", file.read())[-1]
        begin = "import json, sulleqti\nitems = json.load(open('items.json'))"
        path = {**os.environ, "PYTHONPATH": os.path.dirname(HERE)}
        with tempfile.TemporaryDirectory() as room:
            shutil.copy(f"{HERE}/year.csl", f"{room}/apa.csl")
            shutil.copy(ITEMS, f"{room}/items.json")
            for program in (block, begin + PROGRAM):
                ran = subprocess.run([sys.executable, "-c", program], cwd=room, env=path,
                                     stdout=subprocess.PIPE, check=True)
                self.assertEqual(ran.stdout.decode(),
                                 "(van der Kwan, Okafor, ACME 2014: 7) van der Kwan, Okafor, ACME. "
                                 "2014. Crazy rich moss: a survey.\n")


if __name__ == "__main__":
    unittest.main()
