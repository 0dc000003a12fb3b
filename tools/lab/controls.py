"""Three faults that no fleet can bear, which show that wrong readings and commits out of order are seen."""
import time
import typing

from lab.fleet import SHIFTS_S, SOURCES, Fleet
from lab.router import Way
from lab.users import Phase, Users, table

SECONDS = 6.0
FAST_PPM, LIE_NS, DELAY_S = 20_000, 1_000_000_000, 0.02


def fast_clock(fleet: Fleet) -> Users:
    """The clock of a machine runs 2 % fast, and no master is heard."""
    fleet.start_masters()
    fleet.start_machines(on_break="warn", max_width=None)
    users = fleet.start_users(SECONDS)
    fleet.hosts["b"].clock.run_by(FAST_PPM)
    cut = Way(cut=True)
    fleet.router.set(["b"], fleet.master_hosts, cut)
    fleet.router.set(fleet.master_hosts, ["b"], cut)
    return users


def three_liars(fleet: Fleet) -> Users:
    """Three of five masters are a second ahead."""
    fleet.start_masters()
    for master in fleet.masters[:SOURCES // 2 + 1]:
        master.behave(LIE_NS)
    fleet.start_machines(on_break="warn", max_width=None)
    return fleet.start_users(SECONDS)


def forger_with_keys(fleet: Fleet) -> Users:
    """The forger has all keys: a fleet without authentication, which the program refuses to run across hosts, is no better."""
    fleet.start_masters()
    fleet.start_forger(with_keys=True)
    fleet.router.set(fleet.master_hosts, list(SHIFTS_S), Way(DELAY_S, DELAY_S))
    fleet.start_machines(on_break="warn", max_width=None)
    return fleet.start_users(SECONDS)


CONTROLS: dict[str, typing.Callable[[Fleet], Users]] = {call.__name__.replace("_", " "): call for call in (fast_clock, three_liars, forger_with_keys)}


def seen_in(program: str, control: typing.Callable[[Fleet], Users]) -> tuple[int, ...]:
    """The readings of a control and the wrong ones, its commits, the wrong ones, and those out of order."""
    with Fleet(program) as fleet:
        users = control(fleet)
        time.sleep(SECONDS)
        users.wait()
        phase: Phase = users.phases["start"]
        return phase.readings, phase.wrong_readings, phase.commits, phase.wrong_commits, users.history.wrong["violations"]


def tell_all(program: str, say: typing.Callable[[str], None]) -> bool:
    """Runs all of them: whether each was seen."""
    seen = {name: seen_in(program, control) for name, control in CONTROLS.items()}
    say("a fleet without authentication is one whose forger has all keys, since the program takes no master of another host without a key")
    rows = [(name, *(f"{number:,}" for number in numbers)) for name, numbers in seen.items()]
    say(table([("control", "readings", "wrong", "commits", "wrong", "out of order"), *rows]))
    return all(numbers[1] for numbers in seen.values()) and seen["fast clock"][-1] > 0
