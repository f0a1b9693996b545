"""A program that nothing proves, compiled as `rattle build` compiles a proved one. It is the
bitcode of an unproved build without its run-time checks, and with those functions out of line that
the sources keep so. For the tools that count instructions and stack of tools/works."""
import re
import subprocess
from typing import Callable, Iterable, Iterator

from kit import TARGET, OtherKit, kit
from sources import functions_of, texts_of
from unproved import compiled, link

# As `rattle build` compiles a program.
COMPILED = """-march=x86-64 -mllvm -no-trap-after-noreturn -ffunction-sections -fdata-sections
    -mllvm -trap-unreachable -mllvm -no-x86-call-frame-opt -mllvm -disable-machine-licm
    -mllvm -disable-postra-machine-licm -mllvm -sink-common-insts=false --no-default-config
    -no-canonical-prefixes -fintegrated-cc1 -fno-crash-diagnostics -Werror -c -x ir -fPIE
    -O3""".split()


# The functions of tools/works that are no works: what they call would take time, and change how
# the compiler puts functions in line.
NOT_COUNTED = re.compile(r'@"(?:works::uses::(?:text|html)|csl_cli::program::status)(?:::<.*>)?"\(')


def bitcode(crate: str, room: str) -> str:
    """The bitcode of the program of a crate that was laid out in the room."""
    found = compiled(crate, room).bitcode
    if not found:
        raise OtherKit("nothing is counted: this kit leaves no bitcode")
    return found


def out_of_line(checkout: str) -> set[str]:
    """The functions that the sources keep out of line, as expressions: the bitcode of an unproved
    build does not say so."""
    return {rf"{file.split('/')[1]}::(?:\w+::)*{function.name}"
            for file, text in texts_of(checkout) if "#[inline(never)]" in text
            for function in functions_of(text)
            if any("#[inline(never)]" in line for line in function.above())}


def counted(text: Iterable[str]) -> Iterator[str]:
    """The program without the bodies of what is not counted."""
    is_left_out = False
    for line in text:
        if is_left_out:
            is_left_out = line != "}\n"
            continue
        yield line
        if line.startswith("define ") and NOT_COUNTED.search(line):
            yield "  unreachable\n}\n"
            is_left_out = True


def unchecked(text: Iterable[str], kept: re.Pattern[str]) -> Iterator[str]:
    """The program without its run-time checks: as in a proved program, it never reaches a place
    where they would stop it. It keeps these functions out of line."""
    for line in text:
        if line.startswith(('  call void @"rattle-llvm-checks::', "  call void @llvm.trap()")):
            continue
        if line.startswith("attributes #"):
            line = re.sub(r' "frame-pointer"="all"| sanitize_address', "", line)
            line = line.replace("{ }", "{ nounwind }")
        elif line.startswith("define ") and kept.search(line):
            line = line.replace(") #", ") noinline #", 1)
        yield line


def compiled_anew(given: str, room: str, kept: Iterable[str] = (),
                  changed: Callable[[Iterable[str]], Iterable[str]] = lambda text: text) -> str:
    """The object file of a program whose bitcode is given, and whose crates were laid out in the
    room. The functions `kept` stay out of line too. `changed` may change the text of the program
    before it is compiled."""
    functions = "|".join(out_of_line(f"{room}/checkout").union(kept))
    tools = f"{kit()}/toolchain"
    clang = [f"{tools}/bin/clang", f"--target={TARGET}", f"--sysroot={tools}"]
    plain = ["-x", "ir", "-S", "-emit-llvm", "-O0", "-Xclang", "-disable-llvm-passes"]
    subprocess.run([*clang, *plain, given, "-o", f"{room}/checked.ll"], check=True)
    heads = re.compile(rf'@"?(?:{functions})(::<|"|\()')
    with open(f"{room}/checked.ll") as text, open(f"{room}/program.ll", "w") as plain_text:
        plain_text.writelines(changed(unchecked(counted(text), heads)))
    subprocess.run([*clang, *COMPILED, f"{room}/program.ll", "-o", f"{room}/program.o"], check=True)
    return f"{room}/program.o"


def built(crate: str, room: str, kept: Iterable[str] = (), given: str | None = None) -> str:
    """The program of a crate that was laid out in the room. The functions `kept` stay out of line
    too. If its bitcode is given, it is not compiled again."""
    made = compiled_anew(given or bitcode(crate, room), room, kept)
    link(f"{room}/program", [made], ("libos_c.a", "liblibc_c.a"))
    return f"{room}/program"
