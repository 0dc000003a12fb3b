"""Slews CLOCK_MONOTONIC under a machine with default settings, as an NTP daemon may, and looks what clients read.

Machine and readers see the clocks of tools/spoil_calls.c: CLOCK_MONOTONIC goes faster or slower than CLOCK_MONOTONIC_RAW. Masters answer by the
host's own clock, to some microseconds, and each reading has to hold a time between two looks at that around it.

- Sessions, and readers in C, Rust and Python, measure by the raw clock: none of their readings is wrong, and none is refused.
- Those in Java and Go measure by CLOCK_MONOTONIC: nothing is wrong while that keeps the bound that they are told. Where it does not, readings
  may be wrong until the next round has ended, and are refused with 1710 from then on, until a round in which it kept the bound.
- A machine whose clock is CLOCK_MONOTONIC gives wrong readings, which is seen.

With --long each language has 100,000 readings at each rate. The readers, in tests/slews, are called with the path of a shared file, or of a
socket. They print a line for each reading: the real-time clock before and after, the number of the refusal or 0, and the ends. Nothing can be
loaded before Go's run time, so Go's client is built with another clock there. A language whose compiler is not here is left out.
"""
import json
import os
import shutil
import subprocess
import sys
import time
import typing

from harness.faults import Spoils
from harness.processes import SECOND, Fault
from harness.program import WARNINGS, in_top, read_text, write
from harness.suite import Suite, total, wrong_in

suite = Suite(__name__, longest_s=90, again=1, quick=False, beside_s=60)
READERS, GO, JAVA = in_top("tests/slews"), in_top("clients/go/truetime"), in_top("clients/java/src/main/java/io/truetime/TrueTime.java")
#: By how many parts per million CLOCK_MONOTONIC is slewed, faster and slower, and what readers by it are told by default.
RATES, BOUND = (500, 10_000, 83_333), 1_000
BY_MONOTONIC = "Java", "Go"
#: What the host's own clock may be slewed by.
HOST = 50e-6
#: A machine polls once a second, and waits a quarter of one at most. How long a slew lasts at least, how long is looked behind it, and how
#: late a line of the log may be.
ROUND_NS, LASTS_S, BEHIND_S, LATE_NS = SECOND * 5 // 4, 3.5, 2.8, SECOND // 10
UNCERTAINTY_NS, FEW, MANY = 10_000, 2_000, 100_000
REFUSED = 1710


# Readers.

def built_c(room):
    made = os.path.join(room, "reader-c")
    subprocess.run([os.environ.get("CC", "cc"), *WARNINGS, "-O2", "-std=gnu11", "-o", made, f"{READERS}/reader.c"], check=True)
    return [made]


def built_rust(room):
    made, flags = os.path.join(room, "reader-rust"), ["--edition", "2021", "-O", "-D", "warnings"]
    library = ["--crate-type", "lib", "--crate-name", "truetime", in_top("clients/rust/src/lib.rs"), "--out-dir", room]
    subprocess.run(["rustc", *flags, *library], check=True)
    subprocess.run(["rustc", *flags, f"{READERS}/reader.rs", "--extern", f"truetime={room}/libtruetime.rlib", "-o", made], check=True)
    return [made]


def built_java(room):
    subprocess.run(["javac", "-Xlint:all", "-Werror", "-d", room, JAVA, f"{READERS}/Reader.java"], check=True)
    return ["java", "-Xshare:auto", "-cp", room, "Reader"]


def built_go(room):
    """A module of its own that stands on the client's, with another clock; nothing is fetched."""
    module, name = os.path.join(room, "reader-go"), "example.org/truetime/clients/go/truetime"
    os.mkdir(module)
    shutil.copy(f"{READERS}/reader.go", module)
    write(os.path.join(module, "go.mod"), f"module reader\n\ngo 1.19\n\nrequire {name} v0.0.0\n\nreplace {name} => {GO}\n".encode())
    other = os.path.join(module, "overlay.json")
    write(other, json.dumps({"Replace": {f"{GO}/clock_runtime.go": f"{READERS}/nanotime.go"}}).encode())
    kept = {key: os.path.join(room, key.lower()) for key in ("GOCACHE", "GOPATH")}
    fixed = {"GOFLAGS": "-mod=mod -buildvcs=false", "GOTOOLCHAIN": "local", "GOPROXY": "off", "GOSUMDB": "off", "GOWORK": "off"}
    subprocess.run(["go", "build", "-overlay", other, "-o", "reader", "."], cwd=module, env={**os.environ, **kept, **fixed}, check=True)
    return [os.path.join(module, "reader")]


@suite.shares
def languages(trial):
    """The words of each reader, and of one over a session."""
    python = [sys.executable, "-B", f"{READERS}/reader.py"]
    made = {"sessions": python, "Python": python, "C": built_c(trial.room)}
    for language, compiler, build in ("Rust", "rustc", built_rust), ("Java", "javac", built_java), ("Go", "go", built_go):
        if shutil.which(compiler):
            made[language] = build(trial.room)
        else:
            print(f"slews: {language} is left out: {compiler} is not here", flush=True)
    yield made


class Seen(typing.NamedTuple):
    """A reading, or a refusal, and the times since 1970 around it."""
    before: int
    after: int
    refused: int
    earliest: int
    latest: int

    @property
    def is_wrong(self):
        return not self.refused and (self.latest < self.before or self.earliest > self.after)


class Reader:
    """A reader that runs until it is closed, and prints into a file."""

    def __init__(self, words, path, environment):
        self.path = path
        with open(path, "wb") as file:
            self.running = subprocess.Popen(words, stdin=subprocess.DEVNULL, stdout=file, env=environment)

    def close(self):
        self.running.kill()
        self.running.wait()

    def number(self):
        """How many lines it has printed."""
        if self.running.poll() is not None:
            raise Fault(f"a reader ended with status {self.running.returncode}")
        return read_text(self.path).count("\n")

    def seen(self):
        lines = read_text(self.path).split("\n")[:-1]
        return [Seen(*map(int, line.split())) for line in lines]


class Slewed:
    """A machine whose CLOCK_MONOTONIC is slewed, and its readers."""

    def __init__(self, trial, rate, **settings):
        self.name, self.rate = f"{'faster' if rate > 0 else 'slower'} by {abs(rate)}", rate
        masters = [trial.master(source, uncertainty=UNCERTAINTY_NS) for source in range(3)]
        self.node = trial.node(masters, self.name.replace(" ", "-"), poll="1s", wait="250ms", **settings)
        self.spoils = Spoils(self.node.folder)
        self.node.environment = self.spoils.environment
        self.node.run()
        self.node.wait_until_ready()
        self.readers = {language: trial.keep(self.reader(language, words)) for language, words in trial.shared.items()}
        self.began = self.ended = 0
        self.status = dict[str, typing.Any]()

    def reader(self, language, words):
        path = self.node.path("socket" if language == "sessions" else "shared")
        return Reader([*words, path], self.node.path(f"seen-{language}"), self.spoils.environment)

    def numbers(self):
        return [reader.number() for reader in self.readers.values()]

    def begin(self):
        self.began = self.spoils.slew(self.rate)

    def end(self):
        self.status = self.node.status()
        self.ended = self.spoils.slew(0)

    def line(self, event, since):
        """When the log tells of this from this time on, or nothing."""
        return next((line["time"] for line in self.node.said(event) if line["time"] >= since), None)


def slew(machines, wanted):
    """Slews the clocks of these machines until each reader has so many readings, and looks on for a while."""
    give_up = time.monotonic() + 120
    while not all(all(one.numbers()) for one in machines) and time.monotonic() < give_up:
        time.sleep(0.05)
    before = [one.numbers() for one in machines]
    for one in machines:
        one.begin()
    time.sleep(LASTS_S)
    while any(now - then < wanted for one, thens in zip(machines, before) for now, then in zip(one.numbers(), thens)) and time.monotonic() < give_up:
        time.sleep(0.5)
    for one in machines:
        one.end()
    time.sleep(BEHIND_S)
    for reader in (reader for one in machines for reader in one.readers.values()):
        reader.close()


# What is wanted of them.

def is_right(trial, name, seen, wanted):
    """Nothing is wrong or refused."""
    wrong, refused = [one for one in seen if one.is_wrong], {one.refused for one in seen} - {0}
    trial.count(readings=len(seen))
    trial.check(name, len(seen) >= wanted, f"{len(seen)} readings, and {wanted} are wanted")
    trial.check(name, not wrong, f"{len(wrong)} of {len(seen)} readings are wrong, the first is {wrong[:1]}")
    trial.check(name, not refused, f"readings are refused with {refused}")


def is_withdrawn(trial, name, seen, one):
    """Wrong is what comes until the next round has ended, at most; then all is refused until the clock keeps its bound again."""
    told, over = one.line("slew_too_fast", one.began), one.line("slew_in_bounds", one.ended)
    trial.check(name, told and told < one.began + 2 * ROUND_NS, f"slew_too_fast came at {told}, and the clock is slewed since {one.began}")
    trial.check(name, over and over < one.ended + 2 * ROUND_NS, f"slew_in_bounds came at {over}, and the clock is not slewed since {one.ended}")
    if not told or not over:
        return
    wrong = [got for got in seen if got.is_wrong]
    trial.count(readings=len(seen), wrong=len(wrong))
    trial.note(f"{name}: {len(wrong)} of {len(seen)} readings are wrong, told {(told - one.began) / SECOND:.2f} s after it began")
    late = [got for got in wrong if not one.began <= got.after or got.before > told + LATE_NS]
    trial.check(name, not late, f"{len(late)} readings are wrong before it or later, the first is {late[:1]}")
    given = [got for got in seen if told + LATE_NS < got.before and got.after < one.ended and got.refused != REFUSED]
    trial.check(name, not given, f"{len(given)} readings are not refused with {REFUSED}, the first is {given[:1]}")
    refused = [got for got in seen if got.refused and (got.refused != REFUSED or got.after < one.began or got.before > over + LATE_NS)]
    trial.check(name, not refused, f"{len(refused)} readings are refused, the first is {refused[:1]}")
    trial.check(name, seen[-1].before > over + LATE_NS, f"there is no reading behind it: {seen[-1]}")


def is_told(trial, one):
    """The status has the rate, and whether readers by CLOCK_MONOTONIC are told nothing."""
    rate, parts = float(one.status["truetime_slewed_clock_rate_ratio"]), one.rate / 1e6
    trial.between(f"{one.name}: slewed_clock_rate_ratio", parts - HOST - abs(parts) / 50, rate, parts + HOST + abs(parts) / 50)
    trial.equal(f"{one.name}: slewed_base_withdrawn", one.status["truetime_slewed_base_withdrawn"], int(abs(one.rate) > BOUND))


def slewed_by(trial, rate, wanted):
    """Faster and slower, at once."""
    machines = [Slewed(trial, rate), Slewed(trial, -rate)]
    slew(machines, wanted)
    for one in machines:
        is_told(trial, one)
        for language, reader in one.readers.items():
            name, seen = f"{one.name}: {language}", reader.seen()
            if language in BY_MONOTONIC and rate > BOUND:
                is_withdrawn(trial, name, seen, one)
            else:
                is_right(trial, name, seen, wanted)


def case_of(rate, is_long):
    """A case of this rate."""
    def slewed(trial):
        slewed_by(trial, rate, MANY if is_long else FEW)
    slewed.__name__ = f"by_{rate}{'_for_long' if is_long else ''}"
    suite.case(long=is_long)(slewed)


for one_rate in RATES:
    case_of(one_rate, False)
    case_of(one_rate, True)


@suite.case()
def what_is_wrong_is_seen(trial):
    """By a machine whose clock is CLOCK_MONOTONIC, which readers trust."""
    one = Slewed(trial, RATES[1], clock="monotonic", on_break="warn")
    slew([one], FEW)
    for language, reader in one.readers.items():
        wrong = sum(got.is_wrong for got in reader.seen())
        trial.check(f"{one.name}: {language}", wrong, "nothing wrong is seen")
        trial.note(f"{one.name}: {language}: {wrong} readings are wrong")


@suite.last_line
def last_line(results):
    return f"{total(results, 'readings')} readings, {total(results, 'wrong')} of them wrong until it is told, {wrong_in(results)} wrong"
