"""What the tools that talk to `csl_serve` share: the blocks of docs/HOSTS.md, the program, and a
server."""
import contextlib
import re
import subprocess
from typing import ContextManager

from as_proved import built
from kit import TOP, Failure, read
from libraries import copy_sources
from programs import CHECKED, Program, Work, teller
from unproved import compiled

PAGE = f"{TOP}/docs/HOSTS.md"
CRATE = f"{TOP}/crates/csl_serve"


def blocks_of(page: str) -> list[tuple[str, str]]:
    """The blocks of a page: the language and the text of each."""
    return re.findall(r"(?ms)^```(\w+)\n(.*?)^```$", page)


def requests_of(blocks: list[tuple[str, str]]) -> tuple[list[str], list[tuple[str, str]]]:
    """The requests of the page: those of its first block of JSON, and those of its second one, each
    with the reply below it."""
    first, second = (text.splitlines() for language, text in blocks if language == "json")
    return first, list(zip(second[::2], second[1::2], strict=True))


def good_requests() -> tuple[list[str], list[tuple[str, str]]]:
    """The requests of docs/HOSTS.md."""
    return requests_of(blocks_of(read(PAGE)))


class AsProved(Program):
    """A crate's program, compiled like a proved one: with run-time checks a style takes seconds."""

    def laid_out(self, work: Work) -> str:
        """The crate, in a copy of the sources."""
        copy_sources(f"{work.room}/checkout")
        return f"{work.room}/checkout/crates/{self.name}"

    def built(self, work: Work) -> str:
        """The program, built from a copy of the sources."""
        crate = self.laid_out(work)
        given = compiled(crate, work.room, run=work.run).bitcode
        if not given:
            raise Failure("this kit leaves no bitcode")
        return built(crate, work.room, given=given)


def program_ready(tool: str, given: str | None = None) -> ContextManager[str]:
    """The file of the program that is given, or else of the one that is kept or built."""
    if given:
        return contextlib.nullcontext(given)
    return AsProved(CRATE, teller(tool), "as-proved").ready()


class Server:
    """A `csl_serve` at work."""

    def __init__(self, program: str) -> None:
        self.process = subprocess.Popen([program], stdin=subprocess.PIPE, stdout=subprocess.PIPE,
                                        env=CHECKED)

    def ask(self, request: bytes) -> bytes:
        """The reply to a request: one line, empty if the server has ended."""
        assert self.process.stdin and self.process.stdout
        with contextlib.suppress(BrokenPipeError):
            self.process.stdin.write(request + b"\n")
            self.process.stdin.flush()
        return self.process.stdout.readline()

    def resident(self) -> int:
        """The bytes of memory that the server has in use."""
        found = re.search(r"VmRSS:\s+(\d+) kB", read(f"/proc/{self.process.pid}/status"))
        return 1024 * int(found[1]) if found else 0

    def end(self) -> tuple[bytes, int]:
        """Ends the input. Returns what is left of the output, and the status."""
        rest, _ = self.process.communicate()
        return rest, self.process.returncode
