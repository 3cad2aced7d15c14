"""The packages: a tarball of the installed tree, and a .deb. The same clone makes the same bytes."""
from __future__ import annotations

import gzip
import hashlib
import io
import os
import re
import shutil
import subprocess
import tarfile
import tempfile
from typing import Iterator, List, Tuple

from tools.errors import Refused
from tools.main import version
from tools.release.tree import bytes_of, install, put, said_by_git

MAINTAINER = "Vongxeli maintainers <maintainers@users.noreply.vongxeli.example>"
CONTROL = """Package: vongxeli
Version: {version}
Section: database
Priority: optional
Architecture: amd64
Maintainer: {maintainer}
Installed-Size: {size}
Depends: libc6 (>= {libc}), python3 (>= 3.8)
Conflicts: tcm
Description: metadata service and planner for Apache Cassandra clusters
 Vongxeli decides who owns which token range of a cluster, and keeps the
 log of these decisions. The program tcm is written in Rust with contracts,
 and proved. tcm-cluster plans joins, moves, leaves and replaces by the
 names of nodes, from what nodetool and cqlsh print.
"""
COPYRIGHT = """Format: https://www.debian.org/doc/packaging-manuals/copyright-format/1.0/
Upstream-Name: Vongxeli

Files: *
Copyright: 2026 Vongxeli maintainers
License: Apache-2.0
Comment:
 The program contains ports of libraries. The file NOTICE beside this one
 names them, with their copyright and their licences.

License: Apache-2.0
 On Debian systems the text of the Apache License, version 2.0, is in
 /usr/share/common-licenses/Apache-2.0.
"""
OVERRIDES = """# The program is the one that was proved, byte for byte.
vongxeli: unstripped-binary-or-object [usr/lib/vongxeli/tcm]
vongxeli: hardening-no-fortify-functions [usr/lib/vongxeli/tcm]
"""


def epoch() -> int:
    """Returns the time of the packages: SOURCE_DATE_EPOCH, or that of the last commit."""
    said = os.environ.get("SOURCE_DATE_EPOCH") or said_by_git("log", "-1", "--format=%ct") or "0"
    if not said.isdigit():
        raise Refused(f"SOURCE_DATE_EPOCH is a number of seconds, not {said}")
    return int(said)


def paths_in(folder: str) -> Iterator[str]:
    """Gives the paths in a folder, in order."""
    for here, folders, names in os.walk(folder):
        folders.sort()
        for name in sorted([*folders, *names]):
            yield os.path.relpath(os.path.join(here, name), folder)


def settle(folder: str, seconds: int) -> None:
    """Gives all files of a tree one time, and the modes that they have under any umask."""
    for path in [".", *paths_in(folder)]:
        full = os.path.join(folder, path)
        if os.path.isdir(full):
            os.chmod(full, 0o755)
        os.utime(full, (seconds, seconds), follow_symlinks=False)


def tarball(folder: str, name: str, seconds: int) -> bytes:
    """Returns a tree as a tarball, below a folder of this name."""
    def owned(it: tarfile.TarInfo) -> tarfile.TarInfo:
        it.uid = it.gid = 0
        it.uname = it.gname = "root"
        it.mtime = seconds
        return it

    made = io.BytesIO()
    with tarfile.open(fileobj=made, mode="w", format=tarfile.GNU_FORMAT) as archive:
        for path in sorted(paths_in(folder)):
            archive.add(os.path.join(folder, path), f"{name}/{path}", recursive=False, filter=owned)
    return gzip.compress(made.getvalue(), 9, mtime=0)


def least_libc() -> str:
    """Returns the least version of the C library that the program asks for."""
    asked = re.findall(rb"GLIBC_(\d+)\.(\d+)", bytes_of("dist", "tcm"))
    return ".".join(map(str, max(tuple(map(int, it)) for it in asked)))


def changelog(seconds: int) -> str:
    """Returns the changelog in Debian's form: it points to the one that people read."""
    stamp = subprocess.run(
        ["date", "-u", "-R", "-d", f"@{seconds}"], stdout=subprocess.PIPE, check=True, env={**os.environ, "LC_ALL": "C"}
    ).stdout.decode().strip()
    return f"vongxeli ({version()}) unstable; urgency=medium\n\n  * See CHANGELOG.md.\n\n -- {MAINTAINER}  {stamp}\n"


def put_debian(root: str, seconds: int) -> None:
    """Adds to a tree under root/usr what Debian asks for."""
    doc = "usr/share/doc/vongxeli"
    os.remove(os.path.join(root, doc, "LICENSE"))
    put(root, f"{doc}/copyright", COPYRIGHT.encode())
    put(root, f"{doc}/changelog.gz", gzip.compress(changelog(seconds).encode(), 9, mtime=0))
    put(root, "usr/share/lintian/overrides/vongxeli", OVERRIDES.encode())
    files = [it for it in paths_in(root) if os.path.isfile(os.path.join(root, it))]
    plain = [it for it in files if not os.path.islink(os.path.join(root, it))]
    size = sum(os.path.getsize(os.path.join(root, it)) for it in plain) // 1024 + 1
    control = CONTROL.format(version=version(), maintainer=MAINTAINER, size=size, libc=least_libc())
    sums = "".join(f"{hashlib.md5(read(root, it)).hexdigest()}  {it}\n" for it in sorted(plain))
    put(root, "DEBIAN/control", control.encode())
    put(root, "DEBIAN/md5sums", sums.encode())


def read(*path: str) -> bytes:
    """Returns the bytes of a file."""
    with open(os.path.join(*path), "rb") as it:
        return it.read()


def make_tarball(into: str, seconds: int) -> str:
    """Makes the tarball, and returns its path."""
    name = f"vongxeli-{version()}-linux-x86_64"
    with tempfile.TemporaryDirectory(prefix="package-") as folder:
        install(folder)
        settle(folder, seconds)
        put(into, f"{name}.tar.gz", tarball(folder, name, seconds))
    return os.path.join(into, f"{name}.tar.gz")


def make_deb(into: str, seconds: int) -> str:
    """Makes the .deb, and returns its path."""
    path = os.path.join(into, f"vongxeli_{version()}_amd64.deb")
    with tempfile.TemporaryDirectory(prefix="package-") as folder:
        root = os.path.join(folder, "root")
        install(os.path.join(root, "usr"), "/usr/bin/python3", "share/zsh/vendor-completions")
        put_debian(root, seconds)
        settle(root, seconds)
        words = ["dpkg-deb", "--root-owner-group", "-Zxz", "-z6", "--build", root, path]
        settings = {**os.environ, "SOURCE_DATE_EPOCH": str(seconds)}
        built = subprocess.run(words, stdout=subprocess.DEVNULL, env=settings, check=False)
    if built.returncode != 0:
        raise Refused(f"{path}: dpkg-deb ended with status {built.returncode}")
    return path


def programs_in(tar: str, deb: str) -> Iterator[Tuple[str, bytes]]:
    """Gives the program of each package that is there."""
    with tarfile.open(tar) as archive:
        name = next(it for it in archive.getnames() if it.endswith("lib/vongxeli/tcm"))
        inside = archive.extractfile(name)
        yield tar, inside.read() if inside else b""
    if deb:
        data = subprocess.run(["dpkg-deb", "--fsys-tarfile", deb], stdout=subprocess.PIPE, check=True).stdout
        with tarfile.open(fileobj=io.BytesIO(data)) as archive:
            inside = archive.extractfile("./usr/lib/vongxeli/tcm")
            yield deb, inside.read() if inside else b""


def make(into: str) -> List[str]:
    """Makes the packages in a folder, checks that the program in them is dist/tcm, and returns their paths."""
    os.makedirs(into, exist_ok=True)
    seconds = epoch()
    tar = make_tarball(into, seconds)
    deb = make_deb(into, seconds) if shutil.which("dpkg-deb") else ""
    for path, program in programs_in(tar, deb):
        if program != bytes_of("dist", "tcm"):
            raise Refused(f"{path}: the program in it isn't dist/tcm")
    return [it for it in (tar, deb) if it]
