"""A self-locking drive behind two pipes: a client of `opalport run` with nothing but Python.

    with PipedDrive("crates/opalport/out/opalport", ["range 1 100 10 1 0 1 0"]) as drive:
        print(drive.ask("read 7 5 95 5"), drive.ask("read 7 5 95 6"))

docs/SCRIPTS.md has the lines. The program answers each line before it waits for the next one, and in one write: what was
denied has its audit line in the same write, which is shorter than a pipe takes at once. So all of an answer is there as
soon as what was read ends with a line end.
"""
import os
import subprocess

__all__ = ["PipedDrive"]


class PipedDrive:
    """The program, as a process of its own. It ends with `close`, or at the end of a `with`."""

    def __init__(self, program, ranges=(), options=()):
        self._process = subprocess.Popen([program, "run", *options], stdin=subprocess.PIPE, stdout=subprocess.PIPE,
                                         stderr=subprocess.PIPE)
        for row in ranges:
            self._send(row)

    def _send(self, line):
        self._process.stdin.write(line.encode("ascii") + b"\n")
        self._process.stdin.flush()

    def ask(self, line):
        """The lines that the program prints for a line that prints some: `ok`, `data` or `fail`, and what denied it."""
        self._send(line)
        answer = b""
        while not answer.endswith(b"\n"):
            part = os.read(self._process.stdout.fileno(), 65_536)
            if not part:
                raise EOFError(self._process.stderr.read().decode("utf-8", "replace").strip() or "the program has ended")
            answer += part
        return answer.decode("ascii").splitlines()

    def close(self):
        """Ends the script; it gives the program's status."""
        self._process.stdin.close()
        self._process.stdout.close()
        self._process.stderr.close()
        return self._process.wait()

    def __enter__(self):
        return self

    def __exit__(self, *_):
        self.close()
