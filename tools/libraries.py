"""The built libraries of this checkout's sources: those that the kit keeps of what `rt ci` proved
on this machine, here or in another checkout, and those that `rt ci` has left in this one."""
import os
import re
import shutil
import subprocess
import sys

from kit import PARTS, TOP, kit, uses_of_crates

# `rt` has no word for it. This asks its own code for the library of each crate, lowest first, over
# those below. A kit that keeps nothing, or in another way, gives none.
ASKING = """
import os, sys
path = os.path.realpath(sys.argv[1])
sys.path.insert(0, os.path.dirname(path))
rt = {"__name__": "rt", "__file__": path}
exec(compile(open(path).read(), path, "exec"), rt)
rt["Crate"].allowed, rt["Crate"].cuts_libraries = rt["handles_of"](os.getcwd()), True
crates = rt["crates_of"](os.getcwd())
kept, found = rt["Kept"](crates), set()
for crate in crates:
    if all(dep.name in found for dep in crate.below()) and kept.give(crate, False, kept.key(crate)):
        kept.is_built(crate)
        found.add(crate.name)
        print("library", crate.name, flush=True)
"""


def copy_sources(room: str) -> None:
    """Copies the crates of the checkout into a room, without edits and without what was built."""
    os.makedirs(room, exist_ok=True)
    for file in ("crates.txt", "HANDLES"):
        shutil.copy2(f"{TOP}/{file}", room)
    left_out = shutil.ignore_patterns("out", "must-fail")
    shutil.copytree(f"{TOP}/crates", f"{room}/crates", ignore=left_out)


def kept_libraries(room: str, below: list[str]) -> dict[str, str]:
    """The libraries among these crates that an earlier `rt ci` built of these very sources, each
    with its place in the room, a new folder."""
    copy_sources(room)
    asked = [sys.executable, "-c", ASKING, f"{kit()}/bin/rt"]
    said = subprocess.run(asked, cwd=room, stdin=subprocess.DEVNULL, stdout=subprocess.PIPE,
                          stderr=subprocess.DEVNULL, text=True).stdout
    names = re.findall(r"^library (.*)$", said, re.M)
    return {name: f"{room}/crates/{name}/out/rlib/{name}.rlib" for name in names if name in below}


def libraries_of_ci(below: list[str], top: str = TOP) -> dict[str, str]:
    """The libraries among these crates that `rt ci` has built in a checkout itself."""
    places = {name: f"{top}/crates/{name}/out/rlib/{name}.rlib" for name in below}
    return {name: place for name, place in places.items() if os.path.isdir(place)}


def last_change(folder: str) -> float:
    """When a file or a folder below a folder has changed last."""
    return max((os.path.getmtime(f"{at}/{name}") for at, _, files in os.walk(folder)
                for name in [".", *files]), default=0.0)


def libraries_left(below: list[str], top: str = TOP) -> dict[str, str]:
    """The libraries among these crates, lowest first, that `rt ci` has left in a checkout and that
    are up to date by their times: no source of the crate and no library below it is newer, and each
    library below it is up to date."""
    uses, times, found = uses_of_crates(top), {}, {}
    for name, place in libraries_of_ci(below, top).items():
        made = last_change(place)
        sources = max(last_change(f"{top}/crates/{name}/{part}") for part in PARTS)
        used = [crate for crate in uses[name] if crate in uses]
        if sources < made and all(times.get(crate, made + 1) <= made for crate in used):
            times[name], found[name] = made, place
    return found


def libraries_to_take(room: str, below: list[str]) -> tuple[dict[str, str], str]:
    """The libraries among these crates that a check may take, and a line that says which: those
    that the kit keeps, or else those that `rt ci` has left here."""
    found, whence = kept_libraries(room, below), "the kit keeps them"
    if not found:
        found, whence = libraries_left(below), "`rt ci` has left them here"
    return found, f"libraries: {' '.join(found)} ({whence})" if found else "libraries: none"
