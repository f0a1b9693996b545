"""Rattle sources that nothing proves stand outside of the crates, as `.rs` files in FOLDER/src,
since `rt ci` takes each `.rt` file for a crate's. FOLDER/uses names the libraries that they use.
FOLDER/shares, if it is there, names a module and sources of another such folder, which are laid out
below that module. The crate is named after the folder, and stands in a copy of the checkout.

Its `compiled` keeps what the kit compiles, so that tools can link it into a program of their own.

As a command, `python3 tools/unproved.py FOLDER..` formats the files of the folders where they
stand. The tools that build them fail if they are not formatted."""
import glob
import os
import re
import signal
import subprocess
import sys
import tempfile
import time
from typing import Any, Callable, Iterable, NamedTuple

from kit import TARGET, TOP, Failure, kit, read, status_of, words_of_try, write


def checked(words: list[str]) -> None:
    """Runs a command that has to succeed."""
    ran = subprocess.run(words, stdin=subprocess.DEVNULL, stdout=subprocess.PIPE,
                         stderr=subprocess.STDOUT, text=True)
    if ran.returncode != 0:
        raise Failure(f"{words[0]} ended with {ran.returncode}: {ran.stdout[-1000:]}")


def unpack(paths: list[str], commit: str | None, to: str, renamed: Iterable[str] = ()) -> None:
    """Copies paths of the checkout, or of a commit, to a folder, without what is built. `renamed`
    has expressions of sed for the new names."""
    pack = ["tar", "-c", "-C", TOP, "--exclude=out"]
    if commit:
        pack = ["git", "-C", TOP, "archive", commit]
    packed = subprocess.run([*pack, *paths], check=True, stdout=subprocess.PIPE).stdout
    transforms = [f"--transform={expression}" for expression in renamed]
    subprocess.run(["tar", "-x", "-C", to, *transforms], input=packed, check=True)


def shared_by(folder: str) -> tuple[str, str, list[str]]:
    """The module of a folder's sources below which those of another folder are laid out, the place
    of these, and their names; nothing, if the folder has no file `shares`."""
    if not os.path.exists(f"{TOP}/{folder}/shares"):
        return "", "", []
    module, place, *names = read(f"{TOP}/{folder}/shares").split()
    return module, place, names


def lay_out(folder: str, room: str, commit: str | None = None, sources: str | None = None) -> str:
    """The crate of a folder: its sources as they stand, or those of the commit `sources`, in a copy
    of the checkout, or of a commit."""
    name, to = os.path.basename(folder), f"{room}/checkout"
    os.mkdir(to)
    unpack(["crates", "crates.txt"], commit, to)
    unpack([folder], sources, to, [f"s,^{folder}/,crates/{name}/,", r"s,\.rs$,.rt,"])
    module, place, shared = shared_by(folder)
    for source in shared if os.path.exists(f"{to}/crates/{name}/shares") else []:
        unpack([f"{place}/{source}.rs"], sources, to,
               [f"s,^{place}/,crates/{name}/src/{module}/,", r"s,\.rs$,.rt,"])
        file = f"{to}/crates/{name}/src/{module}/{source}.rt"
        write(file, read(file).replace("crate::", f"crate::{module}::"))
    uses = read(f"{to}/crates/{name}/uses")
    write(f"{to}/crates.txt", f"{read(f'{to}/crates.txt')}{name}: {uses}")
    return f"{to}/crates/{name}"


def formatted(folder: str, crate: str) -> dict[str, str]:
    """Formats a crate that was laid out, and returns the files of its folder that the format
    changes, each with its new text."""
    subprocess.run([f"{kit()}/bin/rt", "fmt"], cwd=crate, check=True, stdout=subprocess.DEVNULL)
    texts = {}
    for file in glob.glob(f"{TOP}/{folder}/src/**/*.rs", recursive=True):
        laid_out = f"{crate}/{os.path.relpath(file, f'{TOP}/{folder}')}"
        text = read(f"{laid_out.removesuffix('.rs')}.rt")
        if read(file) != text:
            texts[file] = text
    return texts


def laid_out(folder: str, room: str) -> str:
    """The crate of a folder, whose sources have to be formatted."""
    crate = lay_out(folder, room)
    if changed := formatted(folder, crate):
        names = ", ".join(map(os.path.basename, changed))
        raise Failure(f"`python3 tools/unproved.py {folder}` formats {names}")
    return crate


def compiled_c(name: str, room: str) -> str:
    """The object file of a C file of tools/."""
    made = f"{room}/{name}.o"
    checked([f"{kit()}/toolchain/bin/clang", f"--target={TARGET}", "-O2", "-fPIC", "-c",
             f"{TOP}/tools/{name}.c", "-o", made])
    return made


def link_anew(file: str, seen: dict[int, str], second: str) -> None:
    """Gives a file a second name, once. `seen` has the second names, by the numbers of the
    files."""
    try:
        number = os.stat(file).st_ino
        if number not in seen:
            os.link(file, second)
            seen[number] = second
    except OSError:
        pass


class Built(NamedTuple):
    """What the kit makes of a program, unproved: the object files that it links and the bitcode of
    the program, if it leaves these, the status of a run, and what it says."""

    objects: list[str]
    bitcode: str | None
    status: int
    said: str


def watched(words: list[str], meanwhile: Callable[[], None], **how: Any) -> int:
    """Runs a command to its end, and returns its status. While it is at work, `meanwhile` is called
    again and again."""
    command = subprocess.Popen(words, start_new_session=True, **how)
    try:
        while command.poll() is None:
            meanwhile()
            time.sleep(0.01)
    finally:
        if command.poll() is None:
            os.killpg(command.pid, signal.SIGTERM)
            command.wait()
    return command.returncode


def compiled(crate: str, room: str, words: list[str] | None = None,
             run: Callable[..., int] = watched) -> Built:
    """What the kit makes of the program of a crate with these words, or else while the program runs
    for a moment. Its files are there only while it works, so a second name is given to each as it
    begins to be written. The bitcode is complete as soon as its object file is there."""
    name, checkout = os.path.basename(crate), os.path.dirname(os.path.dirname(crate))
    objects: dict[int, str] = {}
    bitcode: dict[int, str] = {}
    temp = f"{room}/{name}-tmp"
    os.mkdir(temp)

    def keep() -> None:
        """Gives a second name to each file that is there, and has none yet."""
        for file in glob.glob(f"{temp}/**/module*.o*", recursive=True):
            link_anew(file, objects, f"{room}/{name}-{len(objects)}.o")
            beside = f"{os.path.dirname(file)}/module.bc"
            # The first module, of a few bytes, only shows that the compiler runs.
            if os.path.exists(beside) and os.path.getsize(beside) > 100_000:
                link_anew(beside, bitcode, f"{room}/{name}-{len(bitcode)}.bc")

    with open(f"{room}/{name}.log", "w+b") as log:
        status = run(words or words_of_try(name, checkout, [], is_run=False), keep, cwd=crate,
                     env={**os.environ, "TMPDIR": temp}, stdin=subprocess.DEVNULL, stdout=log,
                     stderr=log)
        log.seek(0)
        said = log.read().decode(errors="replace")
    if not objects and not re.search(r"^run=(?!none)", said, re.M):
        first = said.rfind("\n", 0, max(said.find("error"), 0)) + 1
        raise Failure(f"{name} cannot be built:\n{said[first:first + 3000]}")
    return Built(list(objects.values()), next(iter(bitcode.values()), None), status, said)


def link(program: str, objects: list[str],
         archives: Iterable[str] = ("libos_c.a", "liblibc_c.a", "asan.a")) -> None:
    """Links object files with the kit's libraries into a program. Its run-time checks, which need
    the last of these, stay in it."""
    at = kit()
    libraries = [f"{at}/c/{name}" for name in archives]
    target = ["--target", TARGET, "--toolchain", f"{at}/toolchain"]
    checked([f"{at}/bin/rattle-link", *target, "-o", program, *objects, *libraries])


def main() -> int:
    """Formats the files of the folders that the words name, and returns the status."""
    for given in sys.argv[1:]:
        with tempfile.TemporaryDirectory() as room:
            folder = os.path.relpath(os.path.realpath(given), TOP)
            for file, text in formatted(folder, lay_out(folder, room)).items():
                write(file, text)
    return 0


if __name__ == "__main__":
    sys.exit(status_of(main))
