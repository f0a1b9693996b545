"""A reference list as a whole web page, with the looks of csl_uses' `page.rt`: texts are escaped,
only web addresses are links, and there are no direction controls."""
import glob
import html
import os
import re
from typing import Any

from kit import TOP, Failure, read
from sulleqti import Entry, Refused, Style
from sulleqti.processor import RenderedDocument

# The rules of page.rt come first. A line in columns is a flex box, whose first field keeps its
# width, so all second fields begin at one place. An author, a title and an address that have an
# element are each isolated, so a letter in one of them that is written from right to left turns
# nothing else.
PAGE = """<!doctype html>
<html lang="{language}">
<head>
<meta charset="utf-8">
<title>{title}</title>
<style>
body {{ max-width: 45em; margin: 2em auto; padding: 0 1em; line-height: 1.4; }}
p {{ margin: 0.3em 0; overflow-wrap: anywhere; }}
{rules}.entry {{ margin: {spacing}em 0; line-height: {lines}; }}
.entry.hanging {{ padding-left: 2em; text-indent: -2em; }}
.entry.columns {{ display: flex; gap: 1em; }}
.entry.columns > div:first-child {{ flex: none; min-width: {width}ch; max-width: 50%; }}
b, span, a {{ unicode-bidi: isolate; }}
</style>
</head>
<body>
<h1>{title}</h1>
{body}</body>
</html>
"""
# The first field of a line whose fields the library sets apart itself. Its columns are floats.
FLOAT = re.compile('<div style="float: left;">(.*?)</div>', re.S)
# The most letters of a first field that make all of them wider.
WIDEST = 12
# The characters that turn the direction of writing until another one ends that, and such ends. An
# end also closes the isolate of an element.
DIRECTION_CONTROLS = re.compile("[\u202a-\u202e\u2066-\u2069]")


def rules() -> str:
    """The rules of page.rt for the looks of a page."""
    for path in glob.glob(f"{TOP}/crates/*/src/page.rt"):
        found = re.search(r"<style>\n(.*?)</style>", read(path), re.S)
        if found:
            return found[1]
    raise Failure("no page.rt has rules for the looks of a page")


def first_of(line: Entry) -> str:
    """The first field of a line, as HTML, or nothing."""
    apart = FLOAT.match(line.html)
    return line.first_field.html if line.first_field else apart[1] if apart else ""


def entry(line: Entry, is_hanging: bool) -> str:
    """A line of the bibliography."""
    first, inside = line.first_field, line.html
    if first:
        inside = f"<div>{first.html}</div><div>{inside}</div>"
    sort = " columns" if first_of(line) else " hanging" if is_hanging else ""
    return f'<div class="entry{sort}">{inside}</div>\n'


def page(style: Style, cited: list[tuple[str, str]], done: RenderedDocument) -> str:
    """The page of these citations, each with a name, and of the bibliography of a document. It
    shows no space that is larger than ten lines."""
    body = "<h2>Cites</h2>\n" if cited else ""
    body += "".join(f"<p>{f'<b>{html.escape(name)}</b>: ' if name else ''}{cite}</p>\n"
                    for name, cite in cited)
    body += "<h2>References</h2>\n" if done.bibliography else ""
    body += "".join(entry(row, done.looks["hanging-indent"]) for row in done.bibliography)
    widths = [len(html.unescape(re.sub("<[^>]*>", "", first_of(row)))) for row in done.bibliography]
    spaces = {name: min(done.looks.get(name, 1), 10) for name in ("entry-spacing", "line-spacing")}
    title = style.title or os.path.basename(style.path)
    text = PAGE.format(
        language=html.escape(style.language), title=html.escape(title), body=body, rules=rules(),
        spacing=0.3 + 0.5 * spaces["entry-spacing"], lines=1.4 * max(1, spaces["line-spacing"]),
        width=min(max(widths, default=0), WIDEST))
    return DIRECTION_CONTROLS.sub("", text)


def write_page(path: str, *of_page: Any) -> None:
    """Writes a page."""
    text = page(*of_page)
    try:
        with open(path, "w", encoding="utf-8", errors="replace") as file:
            file.write(text)
    except OSError as why:
        raise Refused(f"{path}: {why.strerror}") from None
