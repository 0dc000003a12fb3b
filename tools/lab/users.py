"""Users of machines, and what they saw, judged while they go on."""
import array
import bisect
import collections
import dataclasses
import functools
import os
import selectors
import statistics
import subprocess
import threading
import time
import typing

from harness.processes import SECOND, Fault
from harness.program import WARNINGS, compile_c, run
from lab.hosts import Lab
from lab.services import SESSIONS, Machine

#: Numbers between the givers of stamps of two machines.
GIVERS = 100


class History:
    """Commits of all users, judged in pieces so that few are kept: a piece also has those that ended within OVERLAP before it, and of all before
    those the one of the greatest stamp. Nothing is missed as long as no commit lasts longer. What is wrong near the end of a piece may be
    counted twice."""
    OVERLAP = 30 * SECOND

    def __init__(self, program: str):
        self.program, self.kept, self.number = program, list[tuple[int, int, int, str]](), 0
        self.wrong = collections.Counter()

    def add(self, began: int, ended: int, stamp: int, giver: str) -> None:
        self.kept.append((began, ended, stamp, giver))
        self.number += 1

    def judge(self) -> None:
        """Judges the piece that ends now. More may be added meanwhile."""
        piece = list(self.kept)
        if not piece:
            return
        text = "".join(f"commit {began} {ended} {stamp} {giver}\n" for began, ended, stamp, giver in piece)
        judged = run([self.program, "judge"], text.encode(), 120)
        if judged.status not in (0, 3):
            raise Fault(f"the judge ends with status {judged.status}: {judged.said}{judged.error}")
        found = dict(line.split(" ", 1) for line in judged.said.splitlines())
        for name in ("violations", "equal_stamps"):
            self.wrong[name] += int(found.get(name, 0))
        since = max(ended for _, ended, _, _ in piece) - self.OVERLAP
        before = [commit for commit in piece if commit[1] <= since]
        self.kept[:len(piece)] = [commit for commit in piece if commit[1] > since] + sorted(before, key=lambda commit: commit[2])[-1:]


class Commits(History):
    """Commits of all users in one file, which is judged when all have ended."""

    def __init__(self, program: str, path: str):
        super().__init__(program)
        self.file = open(path, "w", encoding="ascii")

    def add(self, began: int, ended: int, stamp: int, giver: str) -> None:
        self.file.write(f"commit {began} {ended} {stamp} {giver}\n")
        self.number += 1

    def judge(self) -> None:
        """Nothing yet: all is judged at once."""
        self.file.flush()

    def close(self) -> None:
        self.file.close()


@dataclasses.dataclass
class Phase:
    """What users saw while something was done; times and widths in nanoseconds."""
    seconds: float = 0
    readings: int = 0
    commits: int = 0
    lost: int = 0
    wrong: list[str] = dataclasses.field(default_factory=list)
    wrong_readings: int = 0
    #: Stamps outside of their commit, and calls without a reply.
    wrong_commits: int = 0
    widths: array.array = dataclasses.field(default_factory=functools.partial(array.array, "Q"))
    waits: array.array = dataclasses.field(default_factory=functools.partial(array.array, "Q"))
    #: Further numbers, for the table.
    counts: collections.Counter = dataclasses.field(default_factory=collections.Counter)


class Users:
    """The users of machines, and a thread that takes what they print."""
    MOST_KEPT = 20

    def __init__(self, lab: Lab, history: History | None = None, is_excused: typing.Callable[[str, int, int], bool] = lambda *_: False):
        self.lab, self.made = lab, compile_c("users", lab.room, *WARNINGS, "-std=gnu11", "-pthread")
        self.history, self.phases = history or History(lab.program), dict[str, Phase]()
        #: Whether what is seen on a host from one time to another may be wrong: it is counted, and not told.
        self.is_excused = is_excused
        self.marks: list[tuple[int, str]] = []
        self.running: list[subprocess.Popen] = []
        self.selector, self.rest = selectors.DefaultSelector(), dict[int, bytes]()
        self.is_ended, self.lock = False, threading.Lock()
        self.thread = threading.Thread(target=self.take_all, daemon=True)
        self.thread.start()

    def begin(self, name: str) -> Phase:
        """What is seen from now on belongs to this phase."""
        with self.lock:
            self.marks.append((time.time_ns(), name))
            return self.phases.setdefault(name, Phase())

    def start(self, machine: Machine, seconds: float, sessions: int, stampers: int, pause_ms: int, program: typing.Sequence[str] = (), **how) -> None:
        """Starts users on a machine's host, by another program than that in C where one is given. There are no stampers where the clock is
        shifted, since nothing is shared there."""
        stampers = 0 if machine.host.shift_s else stampers
        first = GIVERS * (1 + machine.settings["machine"])
        words = [*(program or [self.made]), f"{seconds:.0f}", str(SESSIONS), machine.path("socket"), machine.path("shared"), str(sessions),
                 str(stampers), str(pause_ms), str(first)]
        process = machine.host.start(words, stdin=subprocess.DEVNULL, stdout=subprocess.PIPE, **how)
        self.running.append(process)
        os.set_blocking(process.stdout.fileno(), False)
        self.selector.register(process.stdout, selectors.EVENT_READ, machine.host.name)

    def take_all(self) -> None:
        while not self.is_ended:
            for key, _ in self.selector.select(0.1):
                if piece := key.fileobj.read(1 << 16):
                    *lines, self.rest[key.fd] = (self.rest.get(key.fd, b"") + piece).split(b"\n")
                    with self.lock:
                        for line in lines:
                            self.take(line.decode().split(), key.data)
                else:
                    self.selector.unregister(key.fileobj)

    def phase_at(self, moment: int) -> Phase:
        place = bisect.bisect(self.marks, (moment, "\x7f")) - 1
        return self.phases[self.marks[max(0, place)][1]]

    def take(self, words: list[str], host: str) -> None:
        """Takes a line of a user on a host."""
        if words[0] == "commit":
            began, ended, stamp = map(int, words[1:4])
            phase = self.phase_at(ended)
            phase.commits += 1
            phase.waits.append(max(0, ended - began))  # less where the true time has stepped
            self.history.add(began, ended, stamp, " ".join(words[4:]))
        elif words[0] == "seen":
            moment, readings, width, lost = map(int, words[1:])
            phase = self.phase_at(moment)
            phase.readings, phase.lost = phase.readings + readings, phase.lost + lost
            if readings:
                phase.widths.append(width)
        elif "between" in words and self.is_excused(host, int(words[-3]), int(words[-1])):
            self.phase_at(int(words[1])).counts["excused"] += 1
        else:
            phase = self.phase_at(int(words[1]))
            is_reading = words[2:4] == ["the", "reading"]
            phase.wrong_readings += is_reading
            phase.wrong_commits += not is_reading
            if len(phase.wrong) < self.MOST_KEPT:
                phase.wrong.append(f"host {host}: {' '.join(words[2:])}")

    def wait(self, seconds: float = 60) -> list[str]:
        """Waits until all users have ended, and judges all; what is wrong with their ends."""
        wrong = []
        for process in self.running:
            try:
                if status := process.wait(seconds):
                    wrong.append(f"a user ends with status {status}")
            except subprocess.TimeoutExpired:
                wrong.append(f"a user does not end within {seconds} seconds")
                process.kill()
                process.wait()
        end = time.monotonic() + 5
        while self.selector.get_map() and time.monotonic() < end:
            time.sleep(0.05)
        self.history.judge()
        return wrong

    def close(self) -> None:
        for process in self.running:
            process.kill()
            process.wait()
        self.is_ended = True
        self.thread.join()
        for process in self.running:
            process.stdout.close()
        self.selector.close()

    @property
    def wrong(self) -> list[str]:
        """What was wrong, some of each phase."""
        return [f"{name}: {what}" for name, phase in self.phases.items() for what in phase.wrong]


def milliseconds(numbers: array.array) -> str:
    """The median, as text."""
    return f"{statistics.median(numbers) / 1e6:.2f}" if numbers else "-"


def table(rows: list[tuple[str, ...]]) -> str:
    """Rows under each other, the first column to the left."""
    widths = [max(map(len, column)) for column in zip(*rows)]
    return "".join("  ".join([row[0].ljust(widths[0]), *(cell.rjust(width) for cell, width in zip(row[1:], widths[1:]))]) + "\n" for row in rows)


def rows_of(phases: dict[str, Phase], names: tuple[str, ...] = ()) -> list[tuple[str, ...]]:
    """The rows of the phases, with what was counted under these names, and one of all."""
    rows = [("phase", "seconds", "readings", "wrong", "commits", "wrong", "lost", "width, ms", "commit, ms", *names)]
    whole = Phase()
    for phase in phases.values():
        for field in ("seconds", "readings", "wrong_readings", "commits", "wrong_commits", "lost"):
            setattr(whole, field, getattr(whole, field) + getattr(phase, field))
        whole.widths += phase.widths
        whole.waits += phase.waits
        whole.counts += phase.counts
    for name, phase in {**phases, "whole run": whole}.items():
        numbers = phase.readings, phase.wrong_readings, phase.commits, phase.wrong_commits, phase.lost
        rows.append((name, f"{phase.seconds:.0f}", *(f"{number:,}" for number in numbers), milliseconds(phase.widths), milliseconds(phase.waits),
                     *(f"{phase.counts[count]:,}" for count in names)))
    return rows
