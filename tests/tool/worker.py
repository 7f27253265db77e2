"""Loads the tool once and does what is asked, a line for a line: calls of the command, and the words of questions. See calls.Worker."""
import io
import json
import os
import signal
import sys
import threading
from contextlib import redirect_stderr, redirect_stdout
from pathlib import Path
from types import SimpleNamespace

sys.dont_write_bytecode = True
sys.path.insert(0, str(Path(__file__).resolve().parents[2] / "tool"))
import command
import compared
import library
import page
import questions
import report
import words

STACK, DEEPEST = 256 << 20, 200_000  # questions may be nested deep
PATIENCE = 60  # seconds for one call; far more than any takes


def called(arguments):
    """A call in a process of its own, which starts as this one is: nothing is kept from call to call."""
    read_end, write_end = os.pipe()
    child = os.fork()
    if child == 0:
        signal.alarm(PATIENCE)
        with open(write_end, "w") as answer:
            threading.stack_size(STACK)
            work = threading.Thread(target=lambda: json.dump(done(arguments), answer))
            work.start()
            work.join()
            answer.flush()
        os._exit(0)
    os.close(write_end)
    with open(read_end) as answer:
        text = answer.read()
    os.waitpid(child, 0)
    return json.loads(text or "null")


def done(arguments):
    """The status of a call, and what it wrote."""
    out, err = io.StringIO(), io.StringIO()
    with redirect_stdout(out), redirect_stderr(err):
        status = command.guarded(arguments)
    return [status, out.getvalue(), err.getvalue()]


def worded(sheet, entries, names, kind):
    """names: of labels, in the old and in the new book. kind: plain text, or html as on the page."""
    old, new = ({int(k): name for k, name in side.items()} for side in names)
    speaker = words.Speaker([SimpleNamespace(label_names=side, links=[(0, k, 0) for k in side]) for side in (old, new)])
    asked = questions.read_sheet(bytes.fromhex(sheet))
    said = [speaker.question(asked[entry]) for entry in entries]
    return [words.clause_html(clause) if kind == "html" else words.plain(words.flatten(clause)) + "?" for clause in said]


sys.setrecursionlimit(DEEPEST)
library.functions()
for line in sys.stdin:
    request = json.loads(line)
    print(json.dumps(called(request["call"]) if "call" in request else worded(**request["words"])), flush=True)
