"""The wheel of the package of hosts/python with `csl_serve` in it. A wheel is a zip file whose
folder `.dist-info` says what it is, where it runs, and the sum of each file."""
import base64
import glob
import hashlib
import json
import os
import re
import zipfile

from kit import TOP, read

PACKAGE = f"{TOP}/hosts/python"
FACTS = "csl_serve.json"


def facts_of(program: str, commit: str, kit: str) -> str:
    """What is said of a program in a file beside it: the commit and the kit that proved it, and its
    sum."""
    with open(program, "rb") as file:
        sum = hashlib.sha256(file.read()).hexdigest()
    return f"{json.dumps({'commit': commit, 'kit': kit, 'sha256': sum}, indent=1)}\n"


def tag_of(program: bytes) -> str:
    """The tag of machines that run a program: those of its processor whose C library has what it
    asks for."""
    minor = max(map(int, re.findall(rb"GLIBC_2\.(\d+)", program)), default=17)
    return f"py3-none-manylinux_2_{minor}_x86_64"


def metadata() -> str:
    """What the package is, by its pyproject.toml and README.md."""
    project = dict(re.findall('^([a-z-]+) = "(.*)"$', read(f"{PACKAGE}/pyproject.toml"), re.M))
    names = {"Name": "name", "Version": "version", "Summary": "description",
             "Requires-Python": "requires-python"}
    lines = ["Metadata-Version: 2.1", *(f"{name}: {project[key]}" for name, key in names.items()),
             "Description-Content-Type: text/markdown", "", read(f"{PACKAGE}/README.md")]
    return "\n".join(lines)


def write_wheel(folder: str, program: str, facts: str) -> str:
    """Writes the wheel with a program and what is said of that, and returns its path."""
    version = read(f"{TOP}/VERSION").strip()
    with open(program, "rb") as file:
        served = file.read()
    files = {"sulleqti/csl_serve": served, f"sulleqti/{FACTS}": facts.encode()}
    for path in sorted(glob.glob(f"{PACKAGE}/sulleqti/*.*")):
        with open(path, "rb") as file:
            files[f"sulleqti/{os.path.basename(path)}"] = file.read()
    tag, info = tag_of(served), f"sulleqti-{version}.dist-info"
    wheel = f"Wheel-Version: 1.0\nGenerator: tools/release\nRoot-Is-Purelib: false\nTag: {tag}\n"
    files |= {f"{info}/METADATA": metadata().encode(), f"{info}/WHEEL": wheel.encode()}
    record = [f"{name},sha256={sum_of(data)},{len(data)}\n" for name, data in files.items()]
    files[f"{info}/RECORD"] = "".join([*record, f"{info}/RECORD,,\n"]).encode()
    path = f"{folder}/sulleqti-{version}-{tag}.whl"
    with zipfile.ZipFile(path, "w", zipfile.ZIP_DEFLATED) as made:
        for name, content in files.items():
            # (its date is always the same, so the same files make the same wheel)
            entry = zipfile.ZipInfo(name)
            entry.external_attr = (0o100755 if name.endswith("/csl_serve") else 0o100644) << 16
            made.writestr(entry, content, zipfile.ZIP_DEFLATED)
    return path


def sum_of(content: bytes) -> str:
    """A sum as RECORD has it."""
    return base64.urlsafe_b64encode(hashlib.sha256(content).digest()).rstrip(b"=").decode()
