"""The paths, tools and options that documents may name."""
import functools
import glob
import os
import re
from typing import Iterator

from kit import TOP, kit, read

SUFFIXES = ("md", "rt", "rs", "antt", "py", "rows", "csl", "json", "xml", "edit", "edits", "c")
PATH = re.compile(r"[\w.+*{},/-]*\w[\w.+*{},/-]*")
# What examples invent: the stems of files and folders of a caller, of a language to come, and of a
# file that there cannot be. And files of the Rust crate.
INVENTED = ("my_cites", "house", "apa", "danish", "Streams")
ELSEWHERE = ("elem.rs", "taxonomy.rs", "citation_label.rs", "rendering/mod.rs",
             "rendering/names.rs")
# The made-up documents, whose paths nobody is to name.
TESTS = "tools/document_tests"


@functools.cache
def ends_of_paths() -> set[str]:
    """All that a path of the repository may end with, part by part."""
    ends: set[str] = set()
    for folder, folders, files in os.walk(TOP):
        folders[:] = [child for child in folders if child not in (".git", "out", "__pycache__")]
        at = os.path.relpath(folder, TOP)
        for name in [*folders, *files]:
            path = os.path.normpath(f"{at}/{name}")
            parts = [] if path.startswith(f"{TESTS}/") else path.split("/")
            ends.update("/".join(parts[start:]) for start in range(len(parts)))
    return ends


@functools.cache
def documents_of_kit() -> set[str]:
    """All that the path of a document of the kit may end with."""
    at = kit()
    found = [path for pattern in ("*.md", "rattle/*.md", "rattle/*/*.md")
             for path in glob.glob(f"{at}/{pattern}")]
    parts = [os.path.relpath(path, at).split("/") for path in found]
    return {"/".join(path[start:]) for path in parts for start in range(len(path))}


def is_open(part: str) -> bool:
    """Whether a part of a path stands for another, or is what a caller or a build makes."""
    stem, _, ending = part.partition(".")
    is_name = re.match(r"[A-Z]{2,}(?![a-z])|[A-Za-z]$", stem) and ending != "md"
    return bool(is_name) or stem in INVENTED or part in ("out", "..", "")


def variants_of(path: str) -> list[str]:
    """The paths that one with lists in braces stands for."""
    found = re.search(r"\{([^{}]*)\}", path)
    if not found:
        return [path]
    return [variant for part in found[1].split(",")
            for variant in variants_of(path[:found.start()] + part + path[found.end():])]


def lacks(path: str) -> bool:
    """Whether a path is the end of none of the repository, and of no document of the kit. That of a
    source may lack its ending, and that of a file of definitions `specs` too."""
    parts = path.removeprefix("./").rstrip("/").split("/")
    taken = next((at for at, part in enumerate(parts) if is_open(part)), len(parts))
    if taken < len(parts):
        return bool(taken) and lacks("/".join(parts[:taken]))
    end, ends = "/".join(parts), ends_of_paths()
    if "*" in end:
        pattern = re.compile(re.escape(end).replace(r"\*", "[^/]*"))
        return not any(map(pattern.fullmatch, ends))
    module = f"{parts[0]}/specs/{'/'.join(parts[1:])}.antt"
    if ends & {end, f"{end}.rt", module} or end in ELSEWHERE:
        return False
    return end not in documents_of_kit()


def is_path(word: str) -> bool:
    """Whether a word is a path: it has a known ending, or begins with the name of a folder."""
    if not PATH.fullmatch(word) or "//" in word:
        return False
    first = word.removeprefix("./").split("/")[0]
    has_ending = re.search(rf"\w\.({'|'.join(SUFFIXES)})$", word)
    return bool(has_ending) or ("/" in word and (first in ends_of_paths() or is_open(first)))


def faults_of_words(quoted: str) -> Iterator[str]:
    """What is wrong in a text in backquotes: a command, or any words."""
    words = [word.strip("'\",;:()[]") for word in quoted.split()]
    for before, word in zip(["", *words], words):
        if before not in (">", ">>", "<") and is_path(word):
            yield from (f"there is no {path}" for path in variants_of(word) if lacks(path))
    tool = f"{TOP}/{words[0]}" if words and words[0].startswith(("tools/", "./")) else ""
    if os.path.isfile(tool):
        text = read(tool)
        yield from (f"{words[0]} has no option {option}"
                    for option in re.findall(r"(?<!\S)--[\w-]+", " ".join(words))
                    if option not in text)
