"""Cases of the suite `clients`: the words of errors, invalid arguments, and what is closed with its block, in each language.

For `told` a probe of sessions prints the words of the last error. They have to say why, and which commit and lease that took along.
"""
import os
import socket
import subprocess
import sys
import threading

from harness.program import WARNINGS, in_top, run
from suites.clients import AGAIN, ANEW, CLOSED, SILENT, Reader, connections, play, suite, try_at_once
from suites.clients_of_openings import Answering, Listening, files_in

# What each language says of each kind of error. C has the numbers in its session, and one sentence for what took a lease along or not.
PENDING, LOST = "commit 1, whose timestamp is {}", "commit 1, whose timestamp is {}, was pending: begin it again, or give it up"
PYTHON = {
    "ended": "the service ended the session", "none": "not a reply to 'now': 'hello'", "late": "no reply in time",
    "held": "the commit is not released in time", "pending": PENDING, "lost": LOST, "lease": "the lease has to be set again",
    "803": "refused 803: the clock gave no reading", "65535": "refused 65535: see docs/reference/refusals.md", "not begun": "no commit was begun",
    "bad line": "not a line: 'x", "closed": "the session is closed",
}
RUST = {**PYTHON, "ended": "the connection failed: unexpected end of file", "none": "the connection failed: invalid data",
        "late": "the connection failed: timed out", "bad line": "the line is too long or has a line feed", "closed": ""}
WORDS = {
    "Rust": RUST, "Rust tokio": RUST, "Python": PYTHON, "Python asyncio": PYTHON,
    "C": {
        "ended": "the service ended the session; if it had a lease, it has to be set again", "none": "what came is no reply",
        "late": "no reply or no release came in time", "held": "no reply or no release came in time",
        "pending": "the last commit is not known as released: call tt_session_wait", "lost": "", "lease": "",
        "803": "the clock gave no reading", "65535": "see docs/reference/refusals.md", "not begun": "Invalid argument", "bad line": "Invalid argument",
        "closed": "the session is not open",
    },
    "Java": {**PYTHON, "none": "not a reply to now", "bad line": "not a line: x", "closed": "ClosedChannelException"},
    "Go": {**PYTHON, "ended": "truetime: the connection failed: unexpected EOF", "none": 'not a reply to "now": "hello"',
           "late": "truetime: the connection failed: i/o timeout", "held": "context deadline exceeded",
           "803": "truetime: refused 803: the clock gave no reading", "65535": "truetime: refused 65535: see docs/reference/refusals.md", "not begun": "truetime: no commit was begun",
           "bad line": "truetime: the line is too long", "closed": "use of closed network connection"},
}
# What is said only of what was lost.
OF_LOSSES = {"was pending: begin it again": "lost", "; the lease has to be set again": "lease"}
# The calls of one session as in clients.py, each with the kinds of what its error tells, and the timestamp of the commit that it names.
TIMEOUT_MS = 1000
CALLS = [
    ("now", [("now", CLOSED)], "failed", ["ended"], 0),
    ("now", [ANEW, ("now", "hello\n")], "failed", ["none"], 0),
    ("now", [ANEW, ("now", SILENT)], "timed out", ["late"], 0),
    ("wait", [], "invalid", ["not begun"], 0),
    ("begin 0", [ANEW, ("commit 1 0", "waiting 1 200\n")], "200", [], 0),
    ("begin 0", [], "refused 1104 1 200", ["pending"], 200),
    ("wait", [("commit 1 0", AGAIN + "waiting 1 200\n")], "timed out", ["held"], 0),
    ("now", [("now", "now 5 15\n")], "5 15", [], 0),
    ("wait", [("commit 1 0", "refused 803\n")], "refused 803", ["803"], 0),
    ("wait", [("commit 1 0", CLOSED)], "failed 1 200", ["ended", "lost"], 200),
    ("lease 5 9", [ANEW, ("lease 5 9", "leased 5 9\n")], "leased 5 9", [], 0),
    ("now", [("now", CLOSED)], "failed lease", ["ended", "lease"], 0),
    ("lease 300 400", [ANEW, ("lease 300 400", "leased 300 400\n")], "leased 300 400", [], 0),
    ("begin 0", [("commit 1 0", "waiting 1 300\n")], "300", [], 0),
    ("wait", [("commit 1 0", "hello\n")], "failed 1 300 lease", ["lost", "lease"], 300),
    ("now", [ANEW, ("now", "refused 65535\n")], "refused 65535", ["65535"], 0),
    (f"ask {'x' * 65}", [], "invalid", ["bad line"], 0),
    ("close", [], "closed", [], 0),
    ("now", [], "failed", ["closed"], 0),
]


def play_all(listener, wrong):
    """Plays the service for one session, on one connection after the other."""
    for exchanges in connections([(call, exchanges, said) for call, exchanges, said, *_ in CALLS]):
        try:
            one, _ = listener.accept()
            with one, one.makefile("rb") as lines:
                one.settimeout(30)
                wrong += filter(None, [play(one, lines, exchanges)])
        except ConnectionError:
            continue  # the client closed it before it had read all
        except OSError as failed:
            wrong.append(str(failed))


def try_words(trial, name, words):
    """The words of each error of a session."""
    said_by, wrong = WORDS[name.partition(" by ")[0].replace("C++", "C")], []
    with socket.create_server(("127.0.0.1", 0)) as listener, Reader(words, "session") as probe:
        listener.settimeout(30)
        service = threading.Thread(target=play_all, args=(listener, wrong))
        service.start()
        trial.equal(name, probe.say(f"open tcp {listener.getsockname()[1]} {TIMEOUT_MS}"), "open")
        for call, _, wanted, kinds, stamp in CALLS:
            trial.equal(f"{name}: {call}", probe.say(call), wanted)
            told = probe.say("told") if kinds else ""
            for kind in kinds:
                meant = said_by[kind].format(stamp)
                trial.check(f"{name}: {call}", meant in told, f"{told!r} is told, and {meant!r} is wanted")
            strange = [text for text, kind in OF_LOSSES.items() if text in told and kind not in kinds]
            trial.equal(f"{name}: {call}: what is told of losses that were none", strange, [])
        service.join()
    trial.equal(f"{name}: lines", wrong, [])


@suite.case()
def words_of_errors(trial):
    """Each error says why, and names the commit and the lease that went with it, in each language."""
    try_at_once(trial, try_words)


@suite.case(programs=("cc",))
def arguments_of_c(trial):
    """What C and C++ refuse of arguments, and what clients, sessions and stampers that are not open answer."""
    _, good = next(files_in(trial.room))
    source = in_top("clients/c/test/arguments.c")
    for compiler, *flags in ("cc", "-std=c11", "-D_POSIX_C_SOURCE=200809L"), ("c++", "-std=c++17", "-x", "c++"):
        made = os.path.join(trial.room, f"arguments-{compiler}")
        subprocess.run([compiler, *WARNINGS, *flags, source, "-o", made], check=True)
        ran = run([made, good])
        trial.equal(compiler, (ran.said, ran.status), ("", 0))


# Opens each thing by `with`, and prints how many descriptors and shared mappings are there before, within and behind the blocks, and what a
# call behind its block raises.
BLOCKS = """
import asyncio, os, sys, truetime
from truetime import aio

path, port = sys.argv[1], int(sys.argv[2])

def count():
    with open("/proc/self/maps", encoding="utf-8") as maps:
        return len(os.listdir("/proc/self/fd")), maps.read().count(path)

def told(call):
    try:
        return call()
    except Exception as fault:
        return type(fault).__name__

before = count()
with truetime.Client(path, os.geteuid()) as mapped, truetime.Client(path, os.geteuid(), mapped=False) as unmapped, \\
        truetime.Session(("127.0.0.1", port)) as session:
    within = count()
    session.now(), mapped.now(), unmapped.now()
print(within[0] - before[0], within[1] - before[1], *(now - then for now, then in zip(count(), before)))
print(told(session.now), told(mapped.now), told(unmapped.now))

async def blocks():
    before = count()
    async with aio.Session(("127.0.0.1", port)) as session:
        within = count()
        await session.now()
    try:
        await session.now()
        raised = ""
    except Exception as fault:
        raised = type(fault).__name__
    await asyncio.sleep(0)
    print(within[0] - before[0], count()[0] - before[0], raised)

asyncio.run(blocks())
"""


@suite.case()
def blocks_of_python(trial):
    """What is opened for a block of `with`, or of `async with`, is closed behind it."""
    _, good = next(files_in(trial.room))
    with Listening(Answering) as service:
        environment = {**os.environ, "PYTHONPATH": in_top("clients/python"), "PYTHONDONTWRITEBYTECODE": "1"}
        ran = run([sys.executable, "-c", BLOCKS, good, str(service.server_address[1])], env=environment)
    # A mapping keeps a descriptor of its own, as one that is not mapped and a session have one.
    wanted = ["3 1 0 0", "ConnectionError Refused Refused", "1 0 ConnectionError"]
    trial.equal("blocks", (ran.said.splitlines(), ran.error), (wanted, ""))
