"""The static library of `crates/csl_c`, with nothing proved: compiled like a proved one, for the
tools that link it."""
import contextlib
import os
import re
import subprocess
from typing import Iterable, Iterator

from as_proved import compiled_anew
from kit import TOP, Failure, kit, read, write
from libraries import copy_sources
from programs import Program, Work, teller
from unproved import compiled

CRATE, NAME = f"{TOP}/crates/csl_c", "libcsl_c.a"
EXPORTS = re.findall(r'extern "C" fn (\w+)', read(f"{CRATE}/src/exports.rt"))
# A program over the library, since the kit compiles nothing else unproved: it reaches each export.
REACHES = """
fn main(rt: HostRuntime) {
    let alloc = rt.alloc();
    let mut at: *mut u8 = std::ptr::null_mut();
    let engine = unsafe { &mut *(&raw mut at as *mut engine::Engine) };
    let mut length = 0;
    let mut room = [0; 9];
    exports::sulleqti_open(alloc, engine, exports::sulleqti_protocol() == 0);
    exports::sulleqti_answer(alloc, engine, b"{}", &mut length);
    exports::sulleqti_take(alloc, engine, &mut room);
    exports::sulleqti_close(alloc, engine);
}
"""


def exported(text: Iterable[str]) -> Iterator[str]:
    """The program as a library: its exports have their names of C, and it has no `main`."""
    named = {f'@"csl_c::exports::{name}"(': f"@{name}(" for name in EXPORTS}
    for line in text:
        for old, new in named.items():
            if old in line:
                line = line.replace(old, new)
                if line.startswith("define "):
                    line = re.sub(r"^define internal ", "define ", line)
        if line.startswith("define ") and "@main(" in line:
            line = re.sub(r"^define (?=.*@main\()", "define internal ", line)
        yield line


class Archive(Program):
    """The library as an archive, compiled like a proved one."""

    def built(self, work: Work) -> str:
        """The archive, built from a copy of the sources."""
        to = f"{work.room}/checkout"
        copy_sources(to)
        source = f"{to}/crates/csl_c/src"
        os.rename(f"{source}/lib.rt", f"{source}/main.rt")
        write(f"{source}/main.rt", read(f"{source}/main.rt") + REACHES)
        write(f"{to}/crates.txt", read(f"{to}/crates.txt").replace("csl_c staticlib:", "csl_c:"))
        given = compiled(f"{to}/crates/csl_c", work.room, run=work.run).bitcode
        if not given:
            raise Failure("this kit leaves no bitcode")
        made = compiled_anew(given, work.room, changed=exported)
        subprocess.run([f"{kit()}/toolchain/bin/llvm-ar", "rcs", f"{work.room}/{NAME}", made],
                       check=True)
        os.chmod(f"{work.room}/{NAME}", 0o755)
        return f"{work.room}/{NAME}"


@contextlib.contextmanager
def library_ready(tool: str, room: str, given: str | None = None) -> Iterator[str]:
    """A folder with the library: the one that is given, or else one in the room, with the archive
    that is kept or built."""
    if given:
        yield given
        return
    with Archive(CRATE, teller(tool), "as-proved").ready() as archive:
        os.mkdir(f"{room}/library")
        os.symlink(archive, f"{room}/library/{NAME}")
        yield f"{room}/library"
