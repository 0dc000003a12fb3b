"""A fleet under faults, as long as is wanted, with users and a forger all the while."""
import collections
import time
import typing

from harness.processes import Fault, Process, truetime
from lab.fleet import PHASES, Fleet
from lab.users import rows_of, table

#: How often something is done in a phase, how long a phase may be, and how often statuses are looked at.
LEAST_PAUSE_S, MOST_PAUSE_S, MOST_PHASE_S, LOOK_S, JUDGE_S = 0.3, 1.2, 20.0, 0.25, 20.0
#: How many commits a second there have to be.
FEW_COMMITS = 20


class Run:
    """A run of a fleet: what was wrong, and what was seen."""
    #: What is done again and again in each phase, what is done once as one begins, and what is counted besides.
    phases: dict[str, tuple[str, ...]] = PHASES
    once: dict[str, str] = {}
    columns: tuple[str, ...] = ("forged", "unopened")
    #: What part of the forger's packets that no machine opens have to be counted as such.
    few_unopened = 0.2
    #: By how much users outlast the run, since what is done once may take longer than its phase.
    more_s = 0.0

    def __init__(self, fleet: Fleet, seconds: float, say: typing.Callable[[str], None]):
        self.fleet, self.seconds, self.say = fleet, seconds, say
        self.wrong: list[str] = []
        self.told: set[str] = set()

    def whole(self) -> list[str]:
        """The whole run: what was wrong."""
        self.start()
        self.go_on()
        self.wrong += self.users.wait()
        self.judge_forger()
        self.tell()
        self.judge_memory()
        return self.wrong

    def start(self) -> None:
        """Starts the fleet, its users and the forger."""
        fleet = self.fleet
        fleet.start_masters()
        fleet.start_machines()
        for machine in fleet.machines.values():
            machine.use_all_workers()
        self.users = fleet.start_users(self.seconds + self.more_s)
        fleet.start_forger()

    def go_on(self) -> None:
        """Phase after phase, each the same number of times, in an order that is drawn."""
        end = time.monotonic() + self.seconds
        rounds = max(1, round(self.seconds / (len(self.phases) * MOST_PHASE_S)))
        for turn in range(rounds):
            names = list(self.phases)
            self.fleet.chance.shuffle(names)
            for place, name in enumerate(names):
                left = (rounds - turn) * len(names) - place
                self.phase(name, (end - time.monotonic()) / left)

    def phase(self, name: str, seconds: float) -> None:
        fleet, acts, phase = self.fleet, self.phases[name], self.users.begin(name)
        began, forged = time.monotonic(), fleet.forged()
        due = began
        if name in self.once:
            fleet.act([self.once[name]])
        while (now := time.monotonic()) < began + seconds:
            if acts and now >= due:
                fleet.act(acts)
                due = time.monotonic() + fleet.chance.uniform(LEAST_PAUSE_S, MOST_PAUSE_S)
            self.look(phase)
            time.sleep(LOOK_S)
        fleet.heal()
        fleet.be_honest_again()
        phase.seconds += time.monotonic() - began
        phase.counts["forged"] += fleet.forged() - forged
        self.users.history.judge()
        for what in fleet.ended():
            if what not in self.told:
                self.told.add(what)
                self.wrong.append(f"{name}: {what}")

    def look(self, phase) -> None:
        for name, more in self.fleet.unopened_more().items():
            phase.counts["unopened"] += more
            phase.counts[name] += more

    def judge_forger(self) -> None:
        """Each machine counts what it hears of the forger while it waits in a round; what comes between rounds is dropped unread."""
        forged = self.fleet.forged()
        for name in self.fleet.shifts_s:
            unopened = sum(phase.counts[name] for phase in self.users.phases.values())
            if unopened < forged / len(self.fleet.shifts_s) * self.few_unopened:
                self.wrong.append(f"machine {name} counts {unopened} packets that did not open, of {forged} that were forged for all")
        if answered := self.fleet.forger.answered.value:
            self.wrong.append(f"masters have answered {answered} polls that were not sealed")

    def tell(self) -> None:
        users = self.users
        self.say(table(rows_of({name: phase for name, phase in users.phases.items() if name != "start"}, self.columns)))
        self.say(f"done: {', '.join(f'{name} {count}' for name, count in sorted(self.fleet.did.items()))}")
        self.say(f"router: {', '.join(f'{count} {name}' for name, count in sorted(self.fleet.router.counts().items()))}")
        self.say(f"forger: {', '.join(f'{count} {name}' for name, count in self.fleet.forger.counts().items() if count)}")
        answered, dropped = map(self.fleet.sum_of_masters, ("answers", "dropped"))
        self.say(f"masters, in their last lives: {answered} polls answered, {dropped} dropped")
        for machine in self.fleet.machines.values():
            events = collections.Counter(fields["event"] for fields in machine.said())
            self.say(f"log of {machine.host.name}: {', '.join(f'{count} {event}' for event, count in sorted(events.items()))}")
        self.wrong += users.wrong
        self.judge_commits()

    def judge_commits(self) -> None:
        history = self.users.history
        self.say(f"{history.number:,} commits, {history.wrong['violations']} out of order, {history.wrong['equal_stamps']} stamps twice")
        for name, what in (("violations", "commits are out of order"), ("equal_stamps", "stamps were given twice")):
            if history.wrong[name]:
                self.wrong.append(f"{history.wrong[name]} {what}")
        if history.number < FEW_COMMITS * self.seconds:
            self.wrong.append(f"{history.number} commits are few")

    def judge_memory(self) -> None:
        """Each machine that was used, against what it has after a new start."""
        for machine in self.fleet.machines.values():
            self.judge_memory_of(machine, f"machine {machine.name}", machine.use_all_workers)

    def judge_memory_of(self, process: Process, name: str, use: typing.Callable[[], object]) -> None:
        """A process that was used, against what it has after a new start, once it was used again."""
        try:
            used = process.resources()
            process.restart()
            use()
            said, is_more = process.keeps_more(process.resources(), used)
        except (Fault, OSError, truetime.Refused) as fault:
            self.wrong.append(f"{name} after the run: {fault}")
            return
        self.say(f"{said} before that")
        if is_more:
            self.wrong.append(f"{name} keeps memory, descriptors or threads")
