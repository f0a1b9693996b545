"""What the tests of tools share: rows, each with a given and a wanted result, and runs of tools."""
import resource
import subprocess
from typing import Any, Sequence


def ran(words: Sequence[str], seconds: int = 0, **how: Any) -> tuple[int, str, str]:
    """The status of a command, and what it prints on both streams. With `seconds` it may cost so
    many of a core."""
    def limit() -> None:
        """Limits the process before it starts."""
        if seconds:
            resource.setrlimit(resource.RLIMIT_CPU, (seconds, seconds))

    how = {"stdin": subprocess.DEVNULL, "stdout": subprocess.PIPE, "stderr": subprocess.PIPE, **how}
    run = subprocess.run(words, preexec_fn=limit, encoding="utf-8", **how)
    return run.returncode, run.stdout or "", run.stderr or ""


def ran_on_full_disk(words: Sequence[str]) -> tuple[int, str]:
    """The status of a command whose output has no place, and the last line that it tells."""
    with open("/dev/full", "w") as full:
        status, _, told = ran(words, stdout=full)
    return status, told.splitlines()[-1]


class Results:
    """Counts the rows that pass and fail, and prints those that fail."""

    def __init__(self) -> None:
        self.passed = self.failed = 0

    def row(self, name: str, given: object, wanted: object) -> None:
        """Counts a row, and prints it if it fails."""
        is_right = given == wanted
        self.passed, self.failed = self.passed + is_right, self.failed + (not is_right)
        if not is_right:
            print(f"{name}\n  given:  {given!r}\n  wanted: {wanted!r}", flush=True)

    def status(self) -> int:
        """Prints how many rows passed and failed, and returns the status."""
        print(f"{self.passed} passed, {self.failed} failed")
        return int(self.failed > 0 or not self.passed)
