"""Refuses each allocation of a built program in turn, and each read and write, and says what came of it.

Each command is swept: an allocation that is refused has to give `refused 1` with status 1, or the answer without the refusal where that
growth was not needed. A read that fails has to give `refused 1604` with status 4, and a write that fails a front of the answer with status 4;
where each read and write moves one byte, the answer is as ever.

`live` runs threads, so an allocation that is refused may fall anywhere: it has to give `refused 1`, or a report with no
wrong reading, in which a session may have been told `refused 1` in place of a reading. Where the daemon's packets fail, it has
to end within seconds, whatever its clients still have to send.

The program of tests/memory_sweep makes each call that takes memory, and writes what its file `stdout` has. An allocation that is refused has to give `CALL refused 1` and then `CALL as
without` for just one call, or `CALL prepared again` where it fell before the call, or the output without the refusal
where that growth was not needed. For each call it is said which allocations of the run were refused in it.

Each sweep goes on until a run meets no refusal.

Then the services are swept, with the calls of the system that they make (sweep_of_services.py): allocations, reads and writes, sockets, files,
clocks and threads. Where they make many calls of a kind, some are tried by the seed. What is told as `SERVICE: KIND=N` can be had again with
that variable and tools/fail_calls.c; in threads, the N-th call need not be the same.
"""
import itertools
import os
import re
import subprocess
import time
from concurrent.futures import ThreadPoolExecutor

from harness.program import compile_c, in_top, read, run
from harness.suite import Suite
from suites.sweep_of_services import Counts, sweep_services

suite = Suite(__name__)

CASES = [
    ("age", ["age", "--sent", "500", "--got", "900", "--clock", "30000000900"], "answer.hex"),
    ("fuse", ["fuse"], "three.spans"),
    ("check", ["check"], "three.check"),
    ("check of a wrong certificate", ["check"], "three-wrong.check"),
    ("run", ["run"], "restart.toml"),
    ("run with a liar", ["run"], "liar-found-out.toml"),
    ("run past the drift bound", ["run"], "clock-too-slow.toml"),
    ("run of a live script", ["run"], "live.toml"),
    ("trace", ["trace"], "commit-wait.toml"),
    ("judge", ["judge"], "out-of-order.history"),
    ("judge of a bad line", ["judge"], "bad-line.history"),
    ("twin", ["twin", "--event", "11", "--side", "low"], "any-may-lie.toml"),
    ("picture", ["picture"], "commit-wait.toml"),
    ("help", ["--help"], None),
    ("help of age", ["age", "--help"], None),
    ("bad words", ["age", "--sent", "x"], None),
    ("explain", ["explain", "504"], None),
    ("no script", ["run"], "three.spans"),
]


class Refusing:
    """Runs programs with one allocation refused."""

    def __init__(self, library):
        self.library, self.counts = library, Counts()

    def run(self, words, given, refused, device="REFUSE"):
        """What was written, the status, and how many allocations there were. The device says which call is refused."""
        self.counts.begin()
        ran = run(words, given, env=dict(os.environ, LD_PRELOAD=self.library, COUNT=self.counts.path, **{device: str(refused)}))
        return ran.out, ran.status, self.counts.read()["REFUSE"]

    def each(self, words, given):
        """Each allocation's number with what `run` says where it is refused; the status is None where the program hangs. The last
        one is that of the run that meets no refusal."""
        refused = 0
        while True:
            refused += 1
            seen = self.run(words, given, refused)
            yield refused, seen
            if seen[1] is not None and seen[2] < refused:
                return


@suite.shares
def refusing(trial):
    yield Refusing(compile_c("fail_calls", trial.room, "-Wall", "-Wextra", "-shared", "-fPIC"))


def try_command(trial, words, file):
    """Refuses each allocation of a command, and each of its reads and writes."""
    words, given = [trial.program, *words], read(f"examples/{file}") if file else b""
    refuse_memory(trial, words, given)
    fail_devices(trial, words, given)


def refuse_memory(trial, words, given):
    needed = spared = last = 0
    plain = trial.shared.run(words, given, 0)[:2]
    for refused, (*answer, count) in trial.shared.each(words, given):
        last, is_met = refused, answer[1] is None or count >= refused
        if is_met and answer == [b"refused 1\n", 1]:
            needed += 1
            continue
        trial.holds(tuple(answer) == plain, f"allocation {refused} refused gives status {answer[1]} and {answer[0][:60]!r}")
        spared += is_met
    trial.note(f"{last - 1} allocations, {needed} of them needed, {spared} not; answers as without")


def fail_devices(trial, words, given):
    """Lets each read and write fail, and each move one byte."""
    answer, status, _ = trial.shared.run(words, given, 0)
    failed = {"FAIL_READ": 0, "FAIL_WRITE": 0}
    for device in failed:
        # What standard error does not take changes nothing, so a few calls in a row may; behind the last call each does.
        number = spared = 0
        while failed[device] <= 1000 and spared < 5:
            number += 1
            seen = trial.shared.run(words, given, number, device)[:2]
            if seen == (answer, status):
                spared += 1
                continue
            spared = 0
            failed[device] += 1
            is_told = seen[0] == b"refused 1604\n" if device == "FAIL_READ" else answer.startswith(seen[0])
            trial.holds(seen[1] == 4 and is_told, f"{device}={failed[device]} gives status {seen[1]} and {seen[0][:60]!r}")
    trial.holds(failed["FAIL_WRITE"] and max(failed.values()) <= 1000, f"{failed} and no end")
    is_same = trial.shared.run(words, given, 1, "SHORT")[:2] == (answer, status)
    trial.holds(is_same, "another answer where each read and write moves one byte")
    trial.note(f"{failed['FAIL_READ']} reads and {failed['FAIL_WRITE']} writes failed in turn; byte by byte as without")


def live(trial):
    """A run in threads, which is shortened."""
    given = read("examples/live.toml").replace(b"rounds = 50", b"rounds = 3").replace(b"turns = 20", b"turns = 8")
    report = re.compile(rb"readings [0-2]\nwrong 0\n\Z")
    needed = spared = last = 0
    for refused, (answer, status, _) in trial.shared.each([trial.program, "live"], given):
        last, is_told, is_report = refused, (answer, status) == (b"refused 1\n", 1), status == 0 and report.match(answer)
        trial.holds(is_told or is_report, f"allocation {refused} refused gives status {status} and {answer[:60]!r}")
        needed, spared = needed + is_told, spared + bool(is_report)
    trial.note(f"{last - 1} allocations, {needed} of them gave refused 1, {spared - 1} a report with no wrong reading")


def live_without_its_daemon(trial):
    """A run in threads ends soon after its daemon's link has failed. Each of its commits waits for 0.4 seconds, and there are 40. The
    seventh packet is the first poll of the second round of three masters."""
    commits = ", ".join('"commit %d 0"' % number for number in range(1, 41)).encode()
    given = read("examples/live.toml").replace(b"uncertainty = 1000\n", b"uncertainty = 200000000\n").replace(b'"commit 1 0"', commits)
    began = time.monotonic()
    seen = trial.shared.run([trial.program, "live"], given, "7+", "FAIL_SENDTO")[:2]
    took = time.monotonic() - began
    trial.holds(seen == (b"refused 1501\n", 4) and took <= 5, f"{seen} after {took:.1f} seconds")
    trial.note(f"it ends {took:.1f} seconds after it began")


def side_by_side(library, words, count):
    """What `Refusing.each` gives of a program that makes so many allocations in one thread; as many runs at once as there are processors."""
    def some(first):
        refusing = Refusing(library)
        return [(refused, refusing.run(words, b"", refused)) for refused in range(first, count + 2, lanes)]

    lanes = os.cpu_count()
    with ThreadPoolExecutor(lanes) as pool:
        yield from sorted(found for part in pool.map(some, range(1, lanes + 1)) for found in part)


def call_refused(plain, lines):
    """The call that met the refusal and what came of it, `None` where none did, or `False` where the output is wrong."""
    if lines == plain:
        return None
    for place, line in enumerate(plain):
        call, said = line.rsplit(" ", 1)
        kinds = [("refused", "done", [f"{call} refused 1", f"{call} as without"]), ("prepared", "begins", [line, f"{call} prepared again"])]
        for kind, word, wanted in kinds:
            if said == word and lines == plain[:place] + wanted + plain[place + 1:]:
                return call, kind
    return False


@suite.case(programs=("rt",))
def calls_that_take_memory(trial):
    """The same for the program that makes each call."""
    program, spared, last = f"{trial.room}/memory_sweep", 0, 0
    built = run([in_top("tools/build_texts"), in_top("tests/memory_sweep"), program, "-O1"], seconds=600, stderr=subprocess.STDOUT)
    trial.holds(built.status == 0, f"tests/memory_sweep is not built: status {built.status}: {built.said}")
    if built.status != 0:
        return
    output, status, count = trial.shared.run([program], b"", 0)
    plain = output.decode(errors="replace").splitlines()
    trial.holds(plain == read("tests/memory_sweep/stdout").decode().splitlines(), f"memory_sweep without a refusal writes {output[-200:]!r}")
    calls = {line.rsplit(" ", 1)[0]: {"refused": [], "prepared": []} for line in plain}
    trial.holds(status == 0 and len(plain) == 2 * len(calls) > 0, f"memory_sweep: status {status} without a refusal, and {plain[-1:]}")
    for refused, (output, status, _) in side_by_side(trial.shared.library, [program], count) if not trial.result.wrong else ():
        last, met = refused, call_refused(plain, output.decode(errors="replace").splitlines())
        trial.holds(status == 0 and met is not False, f"memory_sweep: allocation {refused} refused gives status {status} and {output[-120:]!r}")
        if met:
            calls[met[0]][met[1]].append(refused)
        spared += met is None
    for call, met in calls.items():
        places = ranges(met["refused"])
        trial.note(f"{call}: {len(met['refused'])} refusals{', of allocations ' + places if places else ''}; {len(met['prepared'])} before the call")
    # The last run met none.
    trial.note(f"memory_sweep: {last - 1} allocations, {spared - 1} of them not needed")


def ranges(numbers):
    """Numbers as text, with those side by side as one range."""
    groups = itertools.groupby(numbers, lambda number, place=itertools.count(): number - next(place))
    return " ".join("-".join(map(str, sorted({low, max([low, *rest])}))) for low, *rest in (list(group) for _, group in groups))


def services(trial):
    sweep_services(trial, trial.shared.library)


@suite.family
def all_cases():
    yield from ((name, try_command, words, file) for name, words, file in CASES)
    yield from ((call.__name__, call) for call in (live, live_without_its_daemon, services))
