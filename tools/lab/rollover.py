"""A key is rolled over, revoked and given anew, and a host goes from open to sealed polls, as an operator does it, while somebody reads."""
import contextlib
import threading
import time
import typing

from harness.processes import truetime
from harness.users import reading_of
from lab.fleet import SETTINGS, UNCERTAINTY, Fleet, key_number
from lab.hosts import Lab
from lab.services import KeyFile, Machine, Master, Source, new_key, wait_until

PAUSE_S, RETRY_S, SETTLE_S = 0.005, 0.01, 1.0
#: No reading for so long is an outage; of a machine that is started again it may take so long.
OUTAGE_S, RESTART_S = 0.25, 2.5
#: How long a master may take to see that its file has changed, with the rounds after that.
SOON_S = 4.0
NEW, NEWER = 110, 210
OPEN_MASTERS = 3
Say = typing.Callable[[str], None]


class Watch:
    """Somebody who reads from a machine all the time: when there was no reading, and which were wrong."""

    def __init__(self, machine: Machine):
        self.machine, self.is_ended, self.wrong = machine, False, 0
        self.gaps: list[float] = []
        self.last = time.monotonic()
        self.thread = threading.Thread(target=self.run, daemon=True)
        self.thread.start()

    def run(self) -> None:
        while not self.is_ended:
            with contextlib.suppress(OSError, truetime.Refused), truetime.Session(self.machine.address, 5) as session:
                while not self.is_ended:
                    self.read(session)
                    time.sleep(PAUSE_S)
            time.sleep(RETRY_S)

    def read(self, session: truetime.Session) -> None:
        self.wrong += reading_of(session).is_wrong
        moment = time.monotonic()
        self.gaps.append(moment - self.last)
        self.last = moment

    def longest(self) -> float:
        """The longest time without a reading since the last call."""
        gaps, self.gaps = self.gaps, []
        return max([*gaps, time.monotonic() - self.last])

    def close(self) -> None:
        self.is_ended = True
        self.thread.join()


class Pace:
    """How late this process is woken, where the host is busy: so long its readers may have missed readings, too."""

    def __init__(self):
        self.is_ended, self.latest = False, 0.0
        self.thread = threading.Thread(target=self.run, daemon=True)
        self.thread.start()

    def run(self) -> None:
        while not self.is_ended:
            began = time.monotonic()
            time.sleep(PAUSE_S)
            self.latest = max(self.latest, time.monotonic() - began - PAUSE_S)

    def longest(self) -> float:
        """The most since the last call."""
        latest, self.latest = self.latest, 0.0
        return latest

    def close(self) -> None:
        self.is_ended = True
        self.thread.join()


class Steps:
    """Steps one after the other, each with the longest time without a reading of each machine."""

    def __init__(self, lab: Lab, machines: dict[str, Machine], say: Say):
        self.say, self.watches = say, {name: lab.keep(Watch(machine)) for name, machine in machines.items()}
        self.pace = lab.keep(Pace())
        self.wrong: list[str] = []

    @contextlib.contextmanager
    def step(self, what: str, restarts: str = "") -> typing.Iterator[None]:
        """A step, which starts this machine again and lets all others be read on."""
        for watch in (*self.watches.values(), self.pace):
            watch.longest()
        yield
        time.sleep(SETTLE_S)
        longest, late = {name: watch.longest() for name, watch in self.watches.items()}, self.pace.longest()
        gaps = ", ".join(f"{name} {gap * 1000:.0f}" for name, gap in longest.items())
        self.say(f"{what}: longest time without a reading, ms: {gaps}; woken late by {late * 1000:.0f}")
        for name, gap in longest.items():
            if gap > (RESTART_S if name == restarts else OUTAGE_S) + late:
                self.wrong.append(f"{what}: no reading of {name} for {gap:.2f} s, and late by {late:.2f} s")

    def end(self) -> list[str]:
        """What was wrong."""
        return self.wrong + [f"{watch.wrong} wrong readings of {name}" for name, watch in self.watches.items() if watch.wrong]


def key_in_use(machine: Machine, source: int) -> int | None:
    """The number of the key of the last packet that opened."""
    value = machine.numbers().get(f'truetime_source_key{{source="{source}"}}')
    return None if value is None else int(value)


def answers(machine: Machine, source: int) -> int:
    """How many rounds the source answered."""
    return int(machine.numbers().get(f'truetime_source_rounds_total{{source="{source}",outcome="accepted"}}') or 0)


def is_heard(machine: Machine, source: int) -> bool:
    """Whether the source answers in the next rounds."""
    before = answers(machine, source)
    time.sleep(SETTLE_S)
    return answers(machine, source) > before


def replace_key(steps: Steps, fleet: Fleet, old: int, new: int, is_revoked: bool, soon_s: float = SOON_S) -> None:
    """Machine a and master m0 go from one key to another one, each step within this time."""
    machine, master, line = fleet.machines["a"], fleet.masters[0], new_key(fleet.program, new, "a-m0")
    with steps.step(f"m0's file gets the key {new}"):
        master.keys.add(line)
        time.sleep(SOON_S / 2)
    with steps.step(f"a's file gets it, a has key = [{new}, {old}] and starts again", restarts="a"):
        machine.keys.add(line)
        machine.set_keys(0, new, old)
        machine.restart()
    with steps.step(f"m0 answers under {new}"):
        wait_until(lambda: key_in_use(machine, 0) == new, soon_s, f"no packet under the key {new}")
    with steps.step(f"a has key = {new} and starts again, and drops {old} from its file", restarts="a"):
        machine.set_keys(0, new)
        machine.restart()
        machine.keys.drop(old)
    if not is_revoked:
        with steps.step(f"m0's file drops {old}"):
            master.keys.drop(old)
            time.sleep(SOON_S / 2)
    with steps.step("m0 is heard"):
        wait_until(lambda: is_heard(machine, 0), soon_s, "m0 is not heard")


def revoke(steps: Steps, fleet: Fleet, number: int) -> None:
    """Master m0 no longer knows a key of machine a."""
    machine, master = fleet.machines["a"], fleet.masters[0]
    with steps.step(f"m0's file drops {number}, which was stolen"):
        master.keys.drop(number)
        wait_until(lambda: not is_heard(machine, 0), SOON_S, f"m0 still answers under {number}")
    with steps.step("b and c hear m0, a does not"):
        if not all(is_heard(fleet.machines[name], 0) for name in "bc") or is_heard(machine, 0):
            steps.wrong.append("a revoked key is answered, or another machine is not heard")


def roll_over(program: str, say: Say) -> list[str]:
    """All that is done with keys between hosts; what was wrong."""
    with Fleet(program) as fleet:
        fleet.start_masters()
        fleet.start_machines()
        steps = Steps(fleet, fleet.machines, say)
        replace_key(steps, fleet, key_number(0, 0), NEW, is_revoked=False)
        revoke(steps, fleet, NEW)
        replace_key(steps, fleet, NEW, NEWER, is_revoked=True)
        say(f"log of m0: {[fields.get('keys') for fields in fleet.masters[0].said('keys_read')]} keys read")
        return steps.end()


class OneHost(Lab):
    """One host, with open masters on its loopback."""

    def build(self) -> None:
        self.host("one", ["10.77.0.20"])
        self.join()

    def masters(self, port: int, keys: KeyFile | None) -> list[Master]:
        kind = "sealed" if keys else "open"
        return [self.keep(Master(self.hosts["one"], source, UNCERTAINTY, keys, listen=f"127.0.0.1:{port + source}", name=f"{kind}-{source}"))
                for source in range(OPEN_MASTERS)]


def seal_one_host(program: str, say: Say) -> list[str]:
    """A host goes from open to sealed polls; what was wrong."""
    with OneHost(program) as lab:
        before = lab.masters(5701, None)
        machine = lab.keep(Machine(lab.hosts["one"], 0, [Source(master.address) for master in before], None, **SETTINGS))
        machine.wait_until_ready()
        steps = Steps(lab, {"one": machine}, say)
        with steps.step("one host: masters with keys start beside the open ones, at other ports"):
            keys = KeyFile(f"{lab.room}/one.keys")
            for source in range(OPEN_MASTERS):
                keys.add(new_key(program, 1 + source, f"one-{source}"))
            after = lab.masters(5711, keys)
        with steps.step("one host: the machine has their addresses and keys and starts again", restarts="one"):
            machine.keys, machine.sources = keys, [Source(master.address, (1 + master.source, )) for master in after]
            machine.write_settings()
            machine.restart()
        with steps.step("one host: the open masters end"):
            for master in before:
                master.kill()
        with steps.step("one host: all are heard"):
            wait_until(lambda: all(is_heard(machine, source) for source in range(OPEN_MASTERS)), 2 * SOON_S, "not all masters are heard")
        return steps.end()


def tell_all(program: str, say: Say) -> list[str]:
    """What was wrong with any of it."""
    return roll_over(program, say) + seal_one_host(program, say)
