"""The tree that is installed under a prefix: the program, bin/tcm, the planner, pages, man pages and completions."""
from __future__ import annotations

import glob
import gzip
import os
import shutil
import subprocess
import tempfile
from typing import List

from tools.errors import Refused
from tools.program import TOP
from tools.release import completion, manual

SHELL = ("help.txt", "lock.sh", "slips.sh", "told.sh")
TEXTS = ("LICENSE", "NOTICE", "README.md", "CHANGELOG.md", "SECURITY.md")


def put(prefix: str, path: str, data: bytes, mode: int = 0o644) -> None:
    """Writes a file of the tree at once: a program that runs keeps its old file."""
    to = os.path.join(prefix, path)
    os.makedirs(os.path.dirname(to), exist_ok=True)
    descriptor, partial = tempfile.mkstemp(dir=os.path.dirname(to))
    with os.fdopen(descriptor, "wb") as it:
        it.write(data)
    os.chmod(partial, mode)
    os.replace(partial, to)


def bytes_of(*path: str) -> bytes:
    """Returns the bytes of a file of the repository."""
    with open(os.path.join(TOP, *path), "rb") as it:
        return it.read()


def link(prefix: str, path: str, to: str) -> None:
    """Makes a link of the tree."""
    path = os.path.join(prefix, path)
    os.makedirs(os.path.dirname(path), exist_ok=True)
    if os.path.lexists(path):
        os.remove(path)
    os.symlink(to, path)


def check_program() -> None:
    """Checks that dist/tcm is the program of these sources."""
    if subprocess.run([os.path.join(TOP, "bin", "release"), "--fits"], check=False).returncode != 0:
        raise Refused("dist/tcm isn't the program of these sources: bin/tcm --prove, and then bin/release")


def said_by_git(*words: str) -> str:
    """Returns what git prints of this clone, nothing without git or a clone."""
    try:
        words = ("git", "-C", TOP, *words)
        ended = subprocess.run(words, stdout=subprocess.PIPE, stderr=subprocess.DEVNULL, check=False)
    except OSError:
        return ""
    return ended.stdout.decode().strip() if ended.returncode == 0 else ""


def release_text() -> str:
    """Returns what `tcm --version` prints below the version."""
    lines = [it for it in bytes_of("dist", "tcm.txt").decode().splitlines() if not it.startswith("sources ")]
    changed = "+" if said_by_git("status", "--porcelain", "--untracked-files=no") else ""
    return "\n".join([*lines, f"commit {said_by_git('rev-parse', 'HEAD') or 'unknown'}{changed}"]) + "\n"


def put_program(prefix: str) -> None:
    """Puts the program, bin/tcm and what it reads."""
    put(prefix, "lib/vongxeli/tcm", bytes_of("dist", "tcm"), 0o755)
    for name in SHELL:
        put(prefix, f"lib/vongxeli/{name}", bytes_of("bin", "lib", name))
    put(prefix, "lib/vongxeli/VERSION", bytes_of("VERSION"))
    put(prefix, "lib/vongxeli/release.txt", release_text().encode())
    put(prefix, "bin/tcm", bytes_of("bin", "tcm"), 0o755)
    link(prefix, "lib/vongxeli/bin/tcm", "../../../bin/tcm")


def put_planner(prefix: str, python: str) -> None:
    """Puts the planner, bin/collect and bin/disk, which this Python runs. Their texts name the commands that are installed."""
    shutil.rmtree(os.path.join(prefix, "lib", "vongxeli", "tools"), ignore_errors=True)
    for path in planner_files():
        put(prefix, f"lib/vongxeli/{path}", manual.with_installed_names(bytes_of(path).decode()).encode())
    for name in ("cluster", "collect", "disk"):
        script = bytes_of("bin", name).replace(b"#!/usr/bin/env python3", f"#!{python}".encode(), 1)
        put(prefix, f"lib/vongxeli/bin/{name}", script, 0o755)
        link(prefix, f"bin/tcm-{name}", f"../lib/vongxeli/bin/{name}")


def planner_files() -> List[str]:
    """Returns the modules of the planner, and what they read, without tests and without what makes packages."""
    found = glob.glob(f"{TOP}/tools/**/*", recursive=True)
    paths = (os.path.relpath(it, TOP) for it in found if os.path.isfile(it))
    left_out = ("tools/tests/", "tools/release/")
    return sorted(it for it in paths if not it.startswith(left_out) and "__pycache__" not in it)


def put_pages(prefix: str) -> None:
    """Puts the texts and the pages, as the README's links name them."""
    texts = [it for it in TEXTS if os.path.exists(os.path.join(TOP, it))]
    pages = glob.glob(f"{TOP}/docs/*.md") + glob.glob(f"{TOP}/docs/pictures/*")
    for path in [*texts, *sorted(os.path.relpath(it, TOP) for it in pages)]:
        put(prefix, f"share/doc/vongxeli/{path}", bytes_of(path))


def put_help(prefix: str, zsh: str) -> None:
    """Puts man pages and completions; `zsh` is the folder of those for zsh."""
    for name, text in manual.pages().items():
        put(prefix, f"share/man/man{name[-1]}/{name}.gz", gzip.compress(text.encode(), 9, mtime=0))
    for name in ("tcm", "tcm-cluster", "tcm-disk"):
        put(prefix, f"share/bash-completion/completions/{name}", completion.bash().encode())
    put(prefix, f"{zsh}/_tcm", completion.zsh().encode())


def install(prefix: str, python: str = "/usr/bin/env python3", zsh: str = "share/zsh/site-functions") -> None:
    """Puts the whole tree under a prefix."""
    check_program()
    put_program(prefix)
    put_planner(prefix, python)
    put_pages(prefix)
    put_help(prefix, zsh)
