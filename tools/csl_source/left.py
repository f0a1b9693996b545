"""What the library leaves out of a style or of works, in words of what a reader will see."""
import collections
import re

# What is seen, and the names of what is left out. What matters first comes first.
SEEN = (
    ("the words are of another language or country than the style's",
     "`default-locale` of another language than the locale"),
    ("page ranges are in full, as 454–477 for 454–77", "the page format .*"),
    ("titles and labels keep their case", "`text-case`( of .*)?"),
    ("words are missing that the library has no term for", "the term .*"),
    ("ranges of dates are cut to their first date", "ranges of dates"),
    ("markup inside of titles is dropped", "markup in texts"),
    ("words that keep their case have that of the text around them", "`nocase` in texts"),
    ("names are sorted as they print", "`names-(min|use-first|use-last)` of a `key` by a variable"),
    ("texts before and after names are missing", "affixes of `name`"),
    ("texts before and after a part are formatted like the part",
     "affixes outside of the formatting"),
    ("slanted text is italic", "`font-style` oblique .*"),
    ("names are in the order of the style", "`static-ordering`"),
    ("line breaks and other control characters are spaces", "line breaks .*"),
    ("ranges of dates have no delimiter of their own", "`range-delimiter`"),
    ("words of other languages are not used", "`locale` of another language"),
    ("ordinals have one form", "`form`"),
    ("terms are missing that no style can name", "terms of locales .*"),
)
# What nobody sees: CSL has no other meaning of these, or no style names them.
UNSEEN = {"`range-delimiter`", "`locale` of another language", "`form`",
          "terms of locales that the library does not name"}
# The most names on a line.
MOST_NAMES = 5


def places(count: int) -> str:
    """A number of places."""
    return f"{count} {'place' if count == 1 else 'places'}"


def lines(left: collections.Counter) -> list[str]:
    """A line for each thing that is seen, with how often it is there and its names in CSL. What
    matters first comes first."""
    found, rest = [], {name: count for name, count in left.items() if count}
    for seen, names in (*SEEN, ("left out", ".*")):
        own = {name: count for name, count in rest.items() if re.fullmatch(names, name, re.DOTALL)}
        if own:
            rest = {name: count for name, count in rest.items() if name not in own}
            more = len(own) - MOST_NAMES
            names = [*own][:MOST_NAMES] + [f"and {more} more"] * (more > 0)
            found.append(f"{seen}: {places(sum(own.values()))} ({', '.join(names)})")
    return found


def seen(left: collections.Counter) -> collections.Counter:
    """What is left out that is seen."""
    return collections.Counter({name: count for name, count in left.items()
                                if count and name not in UNSEEN})


def summary(left: collections.Counter, faults: list[str]) -> str:
    """How much is left out, and how much is wrong, in a few words."""
    counts = [*left.values(), *(1 for _ in faults)]
    things = f"{len(counts)} {'thing' if len(counts) == 1 else 'things'}"
    return f"{things}, in {places(sum(counts))}"
