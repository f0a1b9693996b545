"""Published styles and locales, which are Debian's packages `citation-style-language-styles` and
`citation-style-language-locales`, and the causes why other programs print otherwise."""
from typing import Iterator

from kit import read

PUBLISHED, LOCALES = (f"/usr/share/citation-style-language/{name}"
                      for name in ("styles", "locales"))


def causes_in(file: str) -> Iterator[tuple[str, list[str]]]:
    """The words of each indented line of a file of causes, with the cause above it."""
    cause = ""
    for line in read(file).split("\n"):
        words = line.split("#")[0].split()
        if words and line.startswith(" "):
            yield cause, words
        elif words:
            cause = " ".join(words)
