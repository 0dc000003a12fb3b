"""What a case of a suite has: the program, a folder, processes of the service, and a record of what was wanted and what came."""
import collections
import contextlib
import dataclasses
import secrets
import typing

from harness.faults import POLL_S, WAIT_S, FakeMaster, Node
from harness.processes import Service
from harness.program import PROGRAM, Ran, run
from harness.refusals import strange_sentences


@dataclasses.dataclass(frozen=True)
class Options:
    """The words of the command. What is None has its own value in each suite that has a use for it."""
    program: str = PROGRAM
    #: The program that says what a stamper has to answer, or None where only what was worked out by hand is tried.
    stamps: str | None = None
    seconds: float | None = None
    seed: int | None = None
    number: int | None = None
    #: Whether cases that take long are run.
    long: bool = False
    #: When the `rt ci` began, in seconds since 1970, that proved the crates, or None where none just did.
    proved: float | None = None


@dataclasses.dataclass
class Result:
    """What came of a case."""
    suite: str
    case: str
    #: The name of each check, and what is wrong, "" where nothing is.
    checks: list[tuple[str, str]] = dataclasses.field(default_factory=list)
    counts: collections.Counter = dataclasses.field(default_factory=collections.Counter)
    seconds: float = 0.0
    #: Why it was not run, "" where it was.
    left_out: str = ""
    seed: int | None = None
    #: The last line of what it ran, where that is a program with one of its own.
    last: str = ""

    @property
    def wrong(self) -> list[str]:
        """What is wrong, a line or more each."""
        return [f"{name}: {what}" for name, what in self.checks if what]


class Trial(Service):
    """One run of a case."""
    shared: typing.Any = None

    def __init__(self, options: Options, room: str, result: Result):
        super().__init__(options.program, room)
        self.options, self.result, self.nodes = options, result, []

    # What was wanted, and what came.

    def check(self, name: str, is_right: typing.Any, what: str) -> None:
        """A check of this name; where it is not right, `what` says why."""
        self.result.checks.append((name, "" if is_right else what))

    def equal(self, name: str, got: typing.Any, wanted: typing.Any) -> None:
        self.check(name, got == wanted, f"{got!r}, and {wanted!r} is wanted")

    def between(self, name: str, low, got, high) -> None:
        self.check(name, got is not None and low <= got <= high, f"{got}, and {low} to {high} is wanted")

    def holds(self, is_right: typing.Any, what: str) -> None:
        """A check of the name of the case."""
        self.check(self.result.case, is_right, what)

    def wrong(self, what: str) -> None:
        """A check of the name of the case, which is not right."""
        self.holds(False, what)

    def count(self, **numbers: int) -> None:
        """Adds these numbers, for the last line of the suite."""
        self.result.counts.update(numbers)

    def note(self, text: str) -> None:
        """Prints what was seen."""
        print(f"{self.result.suite}: {self.result.case}: {text}\n", end="", flush=True)

    def seed(self) -> int:
        """The seed that was given, or one that is drawn; it is noted."""
        self.result.seed = secrets.randbelow(10**6) if self.options.seed is None else self.options.seed
        self.note(f"seed {self.result.seed}")
        return self.result.seed

    def finish(self) -> None:
        """What is looked at behind each case of the suite."""

    # Processes and commands.

    def keep(self, resource):
        """Closes it with the case."""
        return self.processes.enter_context(contextlib.closing(resource))

    def masters(self, number: int) -> list:
        return [self.master(source) for source in range(number)]

    def scripts(self, *acts) -> list[FakeMaster]:
        """Masters of this script. Each has its acts, one for each poll in turn, and the last one for all further ones."""
        return [self.keep(FakeMaster(*(one if isinstance(one, (list, tuple)) else [one]))) for one in acts]

    def node(self, masters, name: str = "A", **settings) -> Node:
        """A machine that is not started yet; masters are processes, fakes, addresses or tables."""
        settings = {"poll": f"{POLL_S * 1000:.0f}ms", "wait": f"{WAIT_S * 1000:.0f}ms", "workers": 4, **settings}
        self.nodes.append(self.keep(Node(self, name, 0, [getattr(master, "address", master) for master in masters], settings)))
        return self.nodes[-1]

    def running_node(self, masters, name: str = "A", **settings) -> Node:
        """A machine that has published."""
        node = self.node(masters, name, **settings)
        node.run()
        node.wait_until_ready()
        return node

    def command(self, *words: str, seconds: float = 10, **how) -> Ran:
        """Runs a command of the program. What it says of a refusal has to be the sentence of that."""
        ran = run([self.program, *words], seconds=seconds, **how)
        for line in strange_sentences(ran.error):
            self.wrong(f"{words[:1]} says {line!r}")
        return ran
