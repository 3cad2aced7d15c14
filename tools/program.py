"""Runs `tcm`: `bin/tcm` beside the planner, or the program that the environment variable TCM names."""
from __future__ import annotations

import os
import subprocess
import threading
from dataclasses import dataclass
from typing import IO, List, Sequence

from tools.answers import lines_after
from tools.errors import NotReady, Refused, Unclear
from tools.on_disk import commit_words
from tools.process import tied

TOP = os.path.dirname(os.path.dirname(os.path.realpath(__file__)))


@dataclass
class Run:
    """A run that has ended."""

    status: int
    out: bytes

    @property
    def lines(self) -> List[str]:
        """What the run printed, line by line."""
        return self.out.decode("ascii", "replace").splitlines()


def program() -> str:
    """Returns the path of the program."""
    return os.environ.get("TCM") or os.path.join(TOP, "bin", "tcm")


def run(words: Sequence[str], script: bytes = b"") -> Run:
    """Runs the program to its end. Its standard error is that of the planner."""
    try:
        ended = subprocess.run([program(), *words], input=script, stdout=subprocess.PIPE)
    except OSError as why:
        raise Refused(f"{program()} can't be run: {why.strerror}") from why
    if ended.returncode == 125:
        raise NotReady(f"{program()} isn't there to answer; what it said stands above")
    return Run(ended.returncode, ended.stdout)


class Session:
    """A run of `tcm commit` that answers one line after another. A context manager: leaving it ends the run."""

    def __init__(self, words: Sequence[str] = (), locks: Sequence[int] = ()):
        """Starts `tcm commit` with these words: none, or a log file and the name of its cluster.

        The run ends with this process, however that ends, and holds the descriptors that lock the log until then.
        """
        env = {**os.environ, "TCM_LOCK_FDS": ",".join(map(str, locks))} if locks else None
        try:
            self.process = subprocess.Popen(
                [program(), *commit_words(words)],
                stdin=subprocess.PIPE,
                stdout=subprocess.PIPE,
                preexec_fn=tied(),  # pylint: disable=subprocess-popen-preexec-fn
                pass_fds=tuple(locks),
                env=env,
            )
        except OSError as why:
            raise Refused(f"{program()} can't be run: {why.strerror}") from why
        assert self.process.stdin and self.process.stdout
        self.to: IO[bytes] = self.process.stdin
        self.of: IO[bytes] = self.process.stdout

    def __enter__(self) -> Session:
        return self

    def __exit__(self, *_: object) -> None:
        self.close()

    def close(self) -> int:
        """Ends the input, and returns the status of the run."""
        for pipe in (self.to, self.of):
            try:
                pipe.close()
            except BrokenPipeError:
                pass
        return self.process.wait()

    def ask(self, line: str) -> List[str]:
        """Sends a line, and returns the lines of its answer."""
        try:
            self.to.write(line.encode("utf-8", "surrogateescape") + b"\n")
            self.to.flush()
        except BrokenPipeError:
            pass  # (the answer that is missing tells)
        return self.answer()

    def ask_all(self, lines: Sequence[str]) -> List[List[str]]:
        """Sends lines while their answers are read, and returns the answers."""
        sender = threading.Thread(target=self.send, args=(lines,))
        sender.start()
        try:
            return [self.answer() for _ in lines]
        finally:
            sender.join()

    def send(self, lines: Sequence[str]) -> None:
        """Sends lines."""
        try:
            self.to.write("".join(f"{it}\n" for it in lines).encode())
            self.to.flush()
        except BrokenPipeError:
            pass

    def answer(self) -> List[str]:
        """Reads the lines of one answer."""
        head = self.line()
        return [head, *(self.line() for _ in range(lines_after(head)))]

    def line(self) -> str:
        """Reads a line."""
        line = self.of.readline()
        if not line.endswith(b"\n"):
            status = self.close()
            why = f"tcm ended with status {status} before it answered; see docs/operators.md, After each status"
            raise NotReady(why) if status == 125 else Unclear(why)
        return line[:-1].decode("ascii", "replace")
