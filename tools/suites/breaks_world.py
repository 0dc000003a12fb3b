"""What the scenarios of the suite `breaks` share: masters that lie when they are told, a machine with its unit and its clients, and what a
break has to look like from outside."""
import contextlib
import os
import threading
import time

from harness.faults import FakeMaster, Spoils, honest
from harness.processes import SECOND, truetime
from harness.program import read_text, run
from harness.trial import Trial
from harness.users import commit_of, reading_of
from suites.wiring_checks import eventually

MILLISECOND = SECOND // 1000
# The status with which a machine ends that has noticed a break.
BROKEN = 3
# What sessions may be told of a machine that breaks, ends, or has not published: 801, 1822 and 1823; and 1104 where they then begin another
# commit, while that which was refused is pending.
OF_A_BREAK = {801, 1104, 1822, 1823}
# How soon the first reading of the next life has to come: a tenth of a second of it is the pause of the start. Where the host is busy, it may
# take so many times as long as the start of another machine at that time, but no two seconds, behind which clients are served in any case.
BACK_NS, PAUSE_NS, TIMES_AS_LONG, LONGEST_NS = 300 * MILLISECOND, 100 * MILLISECOND, 4, 1600 * MILLISECOND


class Breaks(Trial):
    """A scenario. Its machines that end with their input have to do so in order."""

    def finish(self):
        for node in self.nodes:
            if "--until-eof" in node.words and node.running and node.running.poll() is None:
                for what in node.ends():
                    self.wrong(what)

    def unit_of(self, node):
        """Runs a machine as its unit does: it does not end with its input, and is started again."""
        node.words.remove("--until-eof")
        node.run()
        node.wait_until_ready()
        return self.keep(Unit(node))


class Source(FakeMaster):
    """A master by this host's clock, or so far ahead of it as it is told, or silent."""

    def __init__(self):
        self.ahead, self.is_silent = 0, False
        super().__init__(Source.do)

    def do(self, poll):
        if not self.is_silent:
            self.answer(poll, self.ahead)

    def times_of(self, machine):
        """When the polls of this machine came, since 1970."""
        return [moment for moment, poll in zip(self.times, self.polls) if poll.machine == machine]


class Unit(threading.Thread):
    """Starts a machine again at once when it has ended by a break, as its unit does. It keeps when lives ended, and by which status."""

    def __init__(self, node):
        super().__init__(daemon=True)
        self.node, self.ends, self.is_closed = node, [], False
        self.start()

    def run(self):
        while True:
            status = self.node.running.wait()
            self.ends.append((time.time_ns(), status))
            if status != BROKEN or self.is_closed:
                return
            self.node.running.stdin.close()
            self.node.run()

    def close(self):
        self.is_closed = True
        while self.is_alive():
            self.node.kill()
            self.join(0.1)


class Pair:
    """A client that reads and one that commits, again and again until they are told to end, whatever becomes of the machine."""

    def __init__(self, node):
        self.readings, self.commits, self.refused, self.is_closed = [], [], [], False
        self.threads = [threading.Thread(target=self.use, args=words, daemon=True)
                        for words in ((node.address, self.read), (node.path("socket"), self.commit))]
        for thread in self.threads:
            thread.start()

    def use(self, address, act):
        while not self.is_closed:
            with contextlib.suppress(OSError):
                with truetime.Session(address, 2) as session:
                    while not self.is_closed:
                        try:
                            act(session)
                        except truetime.Refused as refused:
                            self.refused.append((time.time_ns(), refused.number))
                        time.sleep(0.001)
            time.sleep(0.002)

    def read(self, session):
        self.readings.append(reading_of(session))

    def commit(self, session):
        self.commits.append(commit_of(session))

    def wrong(self):
        return [got for got in self.readings if got.is_wrong]

    def close(self):
        self.is_closed = True
        for thread in self.threads:
            thread.join(3)


class World:
    """Masters and a machine over them whose clock can be spoiled, with its unit and its clients."""

    def __init__(self, trial, sources=3, **settings):
        self.trial, self.spoils, self.others = trial, Spoils(trial.room), 0
        self.sources = [trial.keep(Source()) for _ in range(sources)] if isinstance(sources, int) else sources
        settings = {"poll": "25ms", "wait": "50ms", "evidence": os.path.join(trial.room, "A", "evidence"), **settings}
        self.node = trial.node(self.sources, **settings)
        self.node.environment = self.spoils.environment
        self.unit, self.users = trial.unit_of(self.node), trial.keep(Pair(self.node))
        time.sleep(0.5)

    # What is told.

    def line(self, event, since=0, seconds=5):
        """The first line of this event from this time since 1970 on; it is awaited."""
        return eventually(lambda: next((line for line in self.node.said(event) if line["time"] >= since), None), seconds)

    def end(self, since):
        """When the life ended that was there at this time, and by which status."""
        return eventually(lambda: next((end for end in self.unit.ends if end[0] >= since), None), 5) or (0, None)

    def number(self, name):
        """A number of the status; None where it is not there or `NaN`."""
        value = (self.node.status_or_none() or {}).get(f"truetime_{name}")
        return value if value is None else float(value)

    def rises(self, name, above, seconds=10):
        """This number of the status comes to be above that."""
        if not eventually(lambda: (self.number(name) or 0) > above, seconds):
            yield f"{name} is {self.number(name)}, and above {above} is wanted"

    def rounds(self, since, until):
        """How many rounds began between these times."""
        return sum(since < moment <= until for moment in self.sources[0].times_of(0))

    def read_shared(self):
        """What `ttd read` says of the shared file by the spoiled clock: its answer, and whether it says `stale`."""
        ran = run([self.node.program, "read", self.node.path("shared")], env=self.spoils.environment)
        return ran.said, "stale" in ran.error

    def start_of_another(self):
        """How long a start may take now, which is measured by another machine over masters of its own."""
        took = []
        for _ in range(2):
            self.others += 1
            began, masters = time.monotonic_ns(), self.trial.scripts(*[honest] * 3)
            node = self.trial.running_node(masters, f"other-{self.others}", poll="25ms", wait="50ms")
            took.append(time.monotonic_ns() - began)
            node.kill()
        self.trial.note(f"another machine starts in {' and '.join(f'{ns / MILLISECOND:.0f}' for ns in took)} ms")
        return min(PAUSE_NS + TIMES_AS_LONG * max(took), LONGEST_NS)

    # What a break has to look like.

    def breaks(self, event, since, rounds, began=None):
        """The log tells of a break after this time and within so many rounds; the machine ends by it, and its next life is right soon. Wrong
        readings come only from when it began until it is told of."""
        line = self.line(event, since)
        if not line:
            yield f"the log says no {event}"
            return
        told, took = line["time"], self.rounds(since, line["time"])
        self.trial.note(f"{event} came in round {took}, {(told - since) / MILLISECOND:.0f} ms later")
        if took > rounds:
            yield f"{event} came in round {took}"
        yield from self.comes_back(told)
        yield from self.gives_nothing_wrong(began or since, told)

    def comes_back(self, told):
        """The life of which the log told this ends by it, and the next one is right soon."""
        ended, status = self.end(told)
        if status != BROKEN:
            yield f"it ended with status {status}"
            return
        epochs = [int(line["epoch"]) for line in self.node.said("started") if line["time"] < told]
        started = self.line("started", ended)
        if not started or int(started["epoch"]) <= max(epochs):
            yield f"after the epochs {epochs} it started {started}"
            return
        first = eventually(lambda: next((got for got in self.users.readings if got.before >= ended), None), 5)
        if not first or first.is_wrong or first.after - ended > BACK_NS and first.after - ended > self.start_of_another():
            yield f"the first reading after the end at {ended} is {first}"
        self.trial.note(f"the life ended {(ended - told) / MILLISECOND:.0f} ms after the line, and the next one reads "
                        f"{first and (first.after - ended) / MILLISECOND:.0f} ms later")

    def gives_nothing_wrong(self, began, told):
        """Wrong readings come from the one of these times to the other alone, and none at all from then on until the end of the life."""
        ended, _ = self.end(told)
        wrong = self.users.wrong()
        self.trial.note(f"{len(wrong)} of {len(self.users.readings)} readings were wrong")
        if outside := [got for got in wrong if got.after < began or got.before > told]:
            yield f"{len(outside)} readings were wrong before {began} or after {told}, the end was at {ended}, the first is {outside[0]}"
        if given := [got for got in self.users.readings if told < got.before < ended]:
            yield f"{len(given)} readings were given after it was told, the first is {given[0]}"
        if others := {number for _, number in self.users.refused} - OF_A_BREAK:
            yield f"clients were refused with {others}"

    def has_evidence(self, least, most):
        """Both files of a break are valid, and their spans do not meet where the clock went on by a time between these."""
        claims = []
        for number in (1, 2):
            path = self.node.path(f"evidence.break-{number}")
            is_there = eventually(lambda path=path: os.path.exists(path) and is_valid(self.node.program, path))
            claims.append(claim_of(path) if is_there else None)
            if not claims[-1]:
                yield f"{path} is not valid evidence"
                return
        (lo, hi), (later_lo, later_hi) = claims
        if lo >= later_lo:
            yield f"the first of the spans {claims} is the later one"
        drift = most * 200 // 1_000_000 + 1
        if lo + least - drift <= later_hi and later_lo <= hi + most + drift:
            yield f"the spans {claims} meet"

    def was_right_until(self, began):
        """No reading that came before this time was wrong."""
        if early := [got for got in self.users.wrong() if got.after < began]:
            yield f"{len(early)} readings were wrong before it, the first is {early[0]}"

    def recovers(self, since, seconds=3):
        """A right reading comes within so many seconds after this time, and all later ones are right."""
        def look():
            last = self.users.readings[-1]
            return last.before > since and not last.is_wrong and not self.node.running.poll()
        if not eventually(look, seconds):
            yield f"its last reading was {self.users.readings[-1]}, {seconds} seconds after {since}"
        yield from self.goes_on_rightly()

    def goes_on_rightly(self, seconds=0.5):
        """No life ends, and readings are right."""
        before, since = len(self.unit.ends), time.time_ns()
        time.sleep(seconds)
        later = [got for got in self.users.readings if got.before > since]
        if len(self.unit.ends) > before:
            yield f"it ended with status {self.unit.ends[-1][1]}"
        if not later or any(got.is_wrong for got in later):
            yield f"{len(later)} readings came later, {sum(got.is_wrong for got in later)} of them wrong"


def is_valid(program, path):
    """Whether the file of evidence is valid."""
    return run([program, "check"], read_text(path).encode()).answer == ("valid\n", 0)


def claim_of(path):
    """The ends of the interval that the file of evidence claims."""
    words = next(line.split() for line in read_text(path).splitlines() if line.startswith("claim "))
    return int(words[1]), int(words[2])
