#!/usr/bin/env python3
"""Makes the packages of docs/RELEASE.md of the program that the gate has passed.

    packages/build.py deb|wheel|rpackage|packages [--out DIR]

`.ci/run` notes beside the program, in the file `passed`, which program has passed the gate; a program of another sum is refused. The tests
hand in a program of their own by --program FILE, and by --unproved one that no gate has passed, which the version and the record then
say. What is made depends on the files of the repository and on the program alone: times are those of the release's date.
"""

import argparse
import base64
import gzip
import hashlib
import io
import os
import re
import shutil
import subprocess
import sys
import tarfile
import tempfile
import tomllib
import zipfile
from datetime import UTC, datetime
from pathlib import Path

TOP = Path(__file__).resolve().parent.parent
PROGRAM = TOP / "crates/quantreg/out/quantreg"
PYTHON, R = TOP / "companions/python", TOP / "companions/r"
MAINTAINER = "the quantreg developers <quantreg@example.invalid>"
SCRIPTS = ("quantreg_check.py", "quantreg_rows.py", "quantreg_table.py")
COMMANDS = {"quantreg-check": "quantreg_check", "quantreg-table": "quantreg_table"}
PAGES = ("README.md", "docs/*.md", "companions/python/README.md", "companions/r/README.md", "checker/coq/README.md")
PICTURES = ("docs/pictures/*.png",)
LINK = re.compile(r"(?<!!)\[([^\[\]]*)\]\(([^()#]+)(?:#[^()]*)?\)")
# Debian's package of each library that a program names.
DEB_LIBRARIES = {"libc.so.6": "libc6", "libm.so.6": "libc6", "libgcc_s.so.1": "libgcc-s1"}


class Refused(Exception):
    """Why no package is made, as a line."""


class Release:
    """The version and its date, from the first heading of the changes; the companions must say the same version."""

    def __init__(self):
        found = re.search(r"^### (\d+\.\d+\.\d+), (\d{4}-\d\d-\d\d)$", text_of("docs/RELEASE.md"), re.MULTILINE)
        if not found:
            raise Refused("docs/RELEASE.md has no heading of a version and its date")
        self.version, self.date = found.groups()
        self.time = datetime.fromisoformat(self.date).replace(tzinfo=UTC)
        self.project = tomllib.loads(text_of("companions/python/pyproject.toml"))["project"]
        of_r = re.search(r"^Version: (.*)$", text_of("companions/r/DESCRIPTION"), re.MULTILINE)[1]
        if not self.version == self.project["version"] == of_r:
            raise Refused(f"docs/RELEASE.md says {self.version}, companions/python/pyproject.toml {self.project['version']} and companions/r/DESCRIPTION {of_r}")

    @property
    def seconds(self):
        return int(self.time.timestamp())


class Program:
    """The program's bytes, with the record of where they come from."""

    def __init__(self, path, is_unproved):
        if not path.is_file():
            raise Refused(f"there is no program at {path}: run .ci/run, the gate, first")
        self.bytes, self.is_unproved = path.read_bytes(), is_unproved
        self.sum = hashlib.sha256(self.bytes).hexdigest()
        told = {"program": self.sum, "toolchain": "unknown", "gate": "none has passed this program"}
        if not is_unproved:
            told = noted(path.with_name("passed"))
            if told["program"] != self.sum:
                raise Refused(f"{path} isn't the program that the gate has passed: its SHA-256 sum is {self.sum}, and that one's {told['program']}")
        self.provenance = "".join(f"{key} {value}\n" for key, value in {**told, "files": commit()}.items()).encode()

    def names(self, pattern):
        """The names in the program's table of dynamic symbols that the pattern fits."""
        return {tuple(map(bytes.decode, groups)) for groups in re.findall(rb"\0" + pattern + rb"(?=\0)", self.bytes)}

    @property
    def c_library(self):
        """The version of the C library that it needs, as numbers."""
        return max((int(major), int(minor)) for major, minor in self.names(rb"GLIBC_(\d+)\.(\d+)(?:\.\d+)?"))

    @property
    def deb_depends(self):
        found = {package for name, package in DEB_LIBRARIES.items() if b"\0" + name.encode() + b"\0" in self.bytes}
        return ", ".join(f"{it} (>= {'.'.join(map(str, self.c_library))})" if it == "libc6" else it for it in sorted(found))


def text_of(path):
    return (TOP / path).read_text(encoding="utf-8")


def noted(path):
    """What the gate has noted of the program that passed it."""
    if not path.is_file():
        raise Refused(f"the gate hasn't passed this program: {path}, which .ci/run writes where it passes, isn't there")
    told = dict(line.split(" ", 1) for line in path.read_text(encoding="utf-8").splitlines() if " " in line)
    if set(told) != {"program", "toolchain", "gate"}:
        raise Refused(f"{path} is no note of the gate")
    return told


def commit():
    """The commit of the repository's files, with -dirty behind it where some are changed."""
    done = subprocess.run(["git", "-C", TOP, "describe", "--always", "--dirty", "--abbrev=40"], capture_output=True, text=True, check=False)
    return done.stdout.strip() or "unknown"


def zipped(data):
    return gzip.compress(data, 9, mtime=0)


def files_of(*patterns):
    """The files of the repository of these names, by their paths."""
    return {str(it.relative_to(TOP)): it for pattern in patterns for it in sorted(TOP.glob(pattern))}


def linked_page(name, packed):
    """A page whose links all lead to a page or a picture that is packed: of any other the text alone stays."""

    def kept(found):
        text, target = found[1], found[2]
        here = os.path.normpath(os.path.join(os.path.dirname(name), target))
        return found[0] if "://" in target or here in packed else text

    return LINK.sub(kept, text_of(name)).encode()


def deb_docs():
    """The pages of the repository with their pictures and the tables of their examples, in the folders that they have there."""
    pages, others = files_of(*PAGES), files_of(*PICTURES, "examples/*.csv")
    packed = pages.keys() | others.keys()
    return {name: linked_page(name, packed) for name in pages} | {name: it.read_bytes() for name, it in others.items()}


def deb_files(release, program):
    """Each file of the Debian package with its mode and its bytes."""
    plain = {f"usr/share/doc/quantreg/{name}": data for name, data in deb_docs().items()}
    plain |= {f"usr/share/quantreg/{name}": (TOP / "checker" / name).read_bytes() for name in SCRIPTS}
    plain |= {f"usr/share/man/man1/{it.name}.gz": zipped(it.read_bytes()) for it in sorted((TOP / "docs").glob("*.1"))}
    plain["usr/share/bash-completion/completions/quantreg"] = (TOP / "companions/bash/quantreg").read_bytes()
    plain["usr/share/doc/quantreg/provenance"] = program.provenance
    form = "Format: https://www.debian.org/doc/packaging-manuals/copyright-format/1.0/\nUpstream-Name: quantreg\n\nFiles: *\n"
    head, rest = text_of("LICENSE").split("\n\n", 2)[1:]
    lines = "".join(f" {line}\n" if line else " .\n" for line in rest.rstrip("\n").split("\n"))
    plain["usr/share/doc/quantreg/copyright"] = f"{form}Copyright: {head.removeprefix('Copyright (c) ')}\nLicense: Expat\n{lines}".encode()
    when = release.time.strftime("%a, %d %b %Y %H:%M:%S +0000")
    entry = f"quantreg ({release.version}) unstable; urgency=low\n\n  * What changed is in docs/RELEASE.md beside this file.\n\n -- {MAINTAINER}  {when}\n"
    plain["usr/share/doc/quantreg/changelog.gz"] = zipped(entry.encode())
    plain["usr/share/lintian/overrides/quantreg"] = b"# The program is packed as it was proved and compiled, byte for byte.\nquantreg: unstripped-binary-or-object [usr/bin/quantreg]\n"
    called = {"usr/bin/quantreg": program.bytes}
    for command, module in COMMANDS.items():
        called[f"usr/bin/{command}"] = f'#!/bin/sh\nexec python3 -B "$(dirname "$(readlink -f "$0")")/../share/quantreg/{module}.py" "$@"\n'.encode()
    return {name: (0o644, data) for name, data in plain.items()} | {name: (0o755, data) for name, data in called.items()}


def deb_control(release, program, files):
    version = release.version + ("~unproved" if program.is_unproved else "")
    size = -(-sum(len(data) for _, data in files.values()) // 1024)
    return version, f"""Package: quantreg
Version: {version}
Architecture: amd64
Maintainer: {MAINTAINER}
Installed-Size: {size}
Depends: {program.deb_depends}
Recommends: python3
Suggests: bash-completion
Section: math
Priority: optional
Description: exact linear quantile regression that anybody can check
 quantreg reads a CSV table, fits a formula at a quantile or over a range of
 quantiles, and prints coefficients, losses, rankscores and rank intervals as
 fractions, with no rounding. That its fit is the right one is a theorem about
 its code, proved before the program was built.
 .
 quantreg-table prints a report as decimals, and quantreg-check tests a fit
 that was written as a certificate; both are plain Python. Begin with the man
 page, by man quantreg: the program itself has no --help. The package
 quantreg.exact of R takes the program from here.
"""


def make_deb(release, program, out):
    if not shutil.which("dpkg-deb"):
        raise Refused("a Debian package needs the command dpkg-deb, of Debian's package dpkg")
    files = deb_files(release, program)
    version, control = deb_control(release, program, files)
    sums = "".join(f"{hashlib.md5(data).hexdigest()}  {name}\n" for name, (_, data) in sorted(files.items()))
    files |= {"DEBIAN/control": (0o644, control.encode()), "DEBIAN/md5sums": (0o644, sums.encode())}
    with tempfile.TemporaryDirectory() as room:
        folder = Path(room, "quantreg")
        for name, (mode, data) in files.items():
            (folder / name).parent.mkdir(parents=True, exist_ok=True)
            (folder / name).write_bytes(data)
            (folder / name).chmod(mode)
        for at, _, _ in os.walk(folder):
            os.chmod(at, 0o755)
        made = out / f"quantreg_{version}_amd64.deb"
        words = ["dpkg-deb", "--root-owner-group", "-Zxz", "--threads-max=1", "--build", folder, made]
        environment = {**os.environ, "SOURCE_DATE_EPOCH": str(release.seconds), "LC_ALL": "C"}
        done = subprocess.run(words, env=environment, capture_output=True, text=True, check=False)
    if done.returncode:
        raise Refused(f"dpkg-deb made no package: {done.stderr.strip()}")
    return made


def wheel_metadata(release, version):
    """The METADATA of the wheel, from pyproject.toml."""
    project = release.project
    lines = [f"Metadata-Version: 2.1\nName: {project['name']}\nVersion: {version}\nSummary: {project['description']}\nLicense: MIT"]
    lines += [f"Requires-Python: {project['requires-python']}", *(f"Requires-Dist: {it}" for it in project["dependencies"])]
    for extra, needs in project["optional-dependencies"].items():
        lines += [f"Provides-Extra: {extra}", *(f'Requires-Dist: {it}; extra == "{extra}"' for it in needs)]
    return "\n".join([*lines, "Description-Content-Type: text/markdown", "", text_of("companions/python/README.md")])


def make_wheel(release, program, out):
    """A wheel as PEP 427 has it. No tool of Python's makes one with a program and the same bytes each time without packages of its own."""
    version = release.version + ("+unproved" if program.is_unproved else "")
    tag = "py3-none-manylinux_{}_{}_x86_64".format(*program.c_library)
    info = f"quantreg_exact-{version}.dist-info"
    files = {f"quantreg_exact/{it.name}": it.read_bytes() for it in sorted((PYTHON / "quantreg_exact").glob("*.py"))}
    files |= {"quantreg_exact/bin/quantreg": program.bytes, "quantreg_exact/provenance.txt": program.provenance}
    files |= {name: (TOP / "checker" / name).read_bytes() for name in SCRIPTS}
    files |= {f"quantreg_exact-{version}.data/data/share/man/man1/{it.name}": it.read_bytes() for it in sorted((TOP / "docs").glob("*.1"))}
    files[f"{info}/LICENSE"] = (PYTHON / "LICENSE").read_bytes()
    files[f"{info}/METADATA"] = wheel_metadata(release, version).encode()
    files[f"{info}/WHEEL"] = f"Wheel-Version: 1.0\nGenerator: quantreg\nRoot-Is-Purelib: false\nTag: {tag}\n".encode()
    scripts = {"quantreg": "quantreg_exact.program", **COMMANDS}
    files[f"{info}/entry_points.txt"] = "".join(["[console_scripts]\n", *(f"{command} = {module}:main\n" for command, module in scripts.items())]).encode()
    digest = {name: base64.urlsafe_b64encode(hashlib.sha256(data).digest()).rstrip(b"=").decode() for name, data in files.items()}
    rows = [f"{name},sha256={digest[name]},{len(data)}\n" for name, data in files.items()]
    files[f"{info}/RECORD"] = "".join([*rows, f"{info}/RECORD,,\n"]).encode()
    made = out / f"quantreg_exact-{version}-{tag}.whl"
    with zipfile.ZipFile(made, "w") as archive:
        for name, data in files.items():
            it = zipfile.ZipInfo(name, release.time.timetuple()[:6])
            it.create_system, it.compress_type = 3, zipfile.ZIP_DEFLATED
            it.external_attr = (0o100755 if name.endswith("bin/quantreg") else 0o100644) << 16
            archive.writestr(it, data, compresslevel=9)
    return made


def make_rpackage(release, program, out):
    """A source package of R: its folder as an archive."""
    files = {"inst/provenance": program.provenance}
    for name in ("DESCRIPTION", "NAMESPACE", "LICENSE", "README.md", "R", "man", "tests"):
        paths = sorted((R / name).iterdir()) if (R / name).is_dir() else [R / name]
        files |= {str(it.relative_to(R)): it.read_bytes() for it in paths}
    # R's own way to number what is no release
    version = release.version + (".9000" if program.is_unproved else "")
    described = files["DESCRIPTION"].replace(f"Version: {release.version}\n".encode(), f"Version: {version}\n".encode())
    files["DESCRIPTION"] = described + f"Packaged: {release.date} 00:00:00 UTC; quantreg\n".encode()
    packed = io.BytesIO()
    with tarfile.open(fileobj=packed, mode="w", format=tarfile.USTAR_FORMAT) as archive:
        for name, data in sorted(files.items()):
            it = tarfile.TarInfo(f"quantreg.exact/{name}")
            it.size, it.mode, it.mtime = len(data), 0o644, release.seconds
            archive.addfile(it, io.BytesIO(data))
    made = out / f"quantreg.exact_{version}.tar.gz"
    made.write_bytes(zipped(packed.getvalue()))
    return made


MAKERS = {"deb": [make_deb], "wheel": [make_wheel], "rpackage": [make_rpackage], "packages": [make_deb, make_wheel, make_rpackage]}


def main():
    parser = argparse.ArgumentParser(description=__doc__, formatter_class=argparse.RawDescriptionHelpFormatter)
    parser.add_argument("what", choices=MAKERS)
    parser.add_argument("--out", type=Path, default=TOP / "packages/out")
    parser.add_argument("--program", type=Path, default=PROGRAM)
    parser.add_argument("--unproved", action="store_true")
    given = parser.parse_args()
    try:
        release, program = Release(), Program(given.program, given.unproved)
        given.out.mkdir(parents=True, exist_ok=True)
        made = [make(release, program, given.out) for make in MAKERS[given.what]]
    except Refused as why:
        print(f"packages: {why}", file=sys.stderr)
        return 1
    if given.what == "packages":
        sums = [f"{hashlib.sha256(it.read_bytes()).hexdigest()}  {it.name}\n" for it in made]
        (given.out / "SHA256SUMS").write_text("".join(sums), encoding="utf-8")
    for it in made:
        print(it)
    return 0


if __name__ == "__main__":
    sys.exit(main())
