"""The command, called as people do, and in one process for many calls."""
import json
import os
import subprocess
import sys
from collections import namedtuple
from pathlib import Path

ROOT = Path(__file__).resolve().parents[2]
COMMAND = str(ROOT / "cuhnavel")
PATIENCE = 120  # seconds for one call; far more than any takes

Result = namedtuple("Result", "status out err")


def call(*arguments, folder=None, more=None, **options):
    """The command in a process of its own: its status, and what it wrote. more: further words of the environment."""
    done = subprocess.run([COMMAND, *map(os.fspath, arguments)], cwd=folder, env={**os.environ, **(more or {})}, stdin=subprocess.DEVNULL,
                          capture_output=True, timeout=PATIENCE, **options)
    return Result(done.returncode, done.stdout.decode(), done.stderr.decode())


def seeded_call(seed, folder, *arguments):
    """The command with this order of hashes; ./cuhnavel itself lets no environment steer Python."""
    done = subprocess.run([sys.executable, "-B", str(ROOT / "tool" / "command.py"), *map(os.fspath, arguments)], cwd=folder,
                          env={**os.environ, "PYTHONHASHSEED": seed}, stdin=subprocess.DEVNULL, capture_output=True, timeout=PATIENCE)
    return Result(done.returncode, done.stdout.decode(), done.stderr.decode())


class Worker:
    """A process that loads the tool once, for many calls."""

    def __init__(self):
        self.process = subprocess.Popen([sys.executable, "-B", str(Path(__file__).with_name("worker.py"))], stdin=subprocess.PIPE,
                                        stdout=subprocess.PIPE, encoding="utf-8")

    def ask(self, **request):
        print(json.dumps(request), file=self.process.stdin, flush=True)
        answer = self.process.stdout.readline()
        if not answer:
            raise RuntimeError(f"the tool ended at {request}")
        return json.loads(answer)

    def call(self, *arguments):
        answer = self.ask(call=[os.fspath(a) for a in arguments])
        if answer is None:
            raise RuntimeError(f"the tool ended without an answer: {arguments}")
        return Result(*answer)

    def words(self, sheet, entries, names, kind):
        """The words of each of these entries of the sheet. names: of labels, in the old and in the new book. kind: plain or html."""
        return self.ask(words={"sheet": sheet.hex(), "entries": entries, "names": names, "kind": kind})

    def close(self):
        self.process.stdin.close()
        self.process.wait(timeout=PATIENCE)
        self.process.stdout.close()
