"""Masters over servers of NTP as long as is wanted: what upsets the servers is drawn by a seed, and readings are judged all the while."""
import collections
import random
import statistics
import time
import typing

from harness.ntp import Says
from harness.processes import Fault
from lab.hosts import DEVICE
from lab.masters import SOURCES, Masters, NtpMaster, Strata, microseconds
from lab.users import Users, rows_of, table

#: How long a phase lasts at most, and pauses between acts.
PHASE_S, LEAST_PAUSE_S, MOST_PAUSE_S, LOOK_S = 20.0, 1.0, 4.0, 0.5
WANDER_PPM, JUMP_PPM = 2.0, 20.0
NOMINAL = {"a": 30, "b": -25, "c": -40, "d": 15, "e": -10}


class Upset(Strata):
    """The hosts of `Strata`, whose first server has a second receiver, and a chronyd beside the machine; what is done to them."""

    def start_all(self) -> None:
        self.start_servers()
        self.start_masters()
        self.reader = self.start_machine()
        self.own = self.chronyd("m", *self.server_lines("a", "b", "c"), rate=20)
        self.own.wait_until_synchronised()
        self.chance = random.Random(self.seed)
        self.did: collections.Counter[str] = collections.Counter()

    def wander(self) -> None:
        """Oscillators run a bit otherwise than before."""
        for server in self.servers:
            server.clock.run_by(NOMINAL[server.host.name] + self.chance.uniform(-WANDER_PPM, WANDER_PPM))

    def jump(self) -> None:
        """An oscillator jumps, by no more than its chronyd is told of."""
        server = self.chance.choice([server for server in self.servers if server.host.name in "abce"])
        server.clock.run_by(NOMINAL[server.host.name] + self.chance.choice((-JUMP_PPM, JUMP_PPM)))

    def lose_receiver(self) -> None:
        receiver = self.chance.choice(self.receivers.all)
        receiver.is_heard = False

    def unplug(self) -> None:
        """The wire of a host is cut."""
        host = self.hosts[self.chance.choice("abcde")]
        host.ip("link", "set", DEVICE, "down")

    def restart_server(self) -> None:
        """A server of stratum 2 or 3 begins anew, and has no time to show at first."""
        server = self.chance.choice(self.servers[2:])
        server.kill()
        time.sleep(0.2)
        server.start()

    def restart_master(self) -> None:
        self.chance.choice(self.masters).restart()

    def heal(self) -> None:
        """All wires are there, all receivers heard."""
        for receiver in self.receivers.all:
            receiver.is_heard = True
        for name in "abcde":
            self.hosts[name].set_up()

    def act(self, names: typing.Sequence[str]) -> None:
        name = self.chance.choice(names)
        self.did[name] += 1
        ACTS[name](self)


ACTS = {call.__name__: call for call in (Upset.wander, Upset.jump, Upset.lose_receiver, Upset.unplug, Upset.restart_server, Upset.restart_master,
                                         Upset.heal)}
PHASES = {"quiet": (), "oscillators": ("wander", "jump"), "receivers": ("lose_receiver", "heal"), "wires": ("unplug", "heal"),
          "starts": ("restart_server", "restart_master"), "everything": tuple(ACTS)}


class Run:
    """A run: what was wrong, and what was seen."""

    def __init__(self, lab: Upset, seconds: float, say: typing.Callable[[str], None], phases: typing.Sequence[str] = tuple(PHASES)):
        self.lab, self.seconds, self.say, self.names = lab, seconds, say, list(phases)
        self.wrong: list[str] = []
        self.seen: dict[str, list[int]] = collections.defaultdict(list)

    def whole(self) -> list[str]:
        self.lab.start_all()
        self.users: Users = self.lab.users(self.lab.reader, self.seconds)
        self.go_on()
        self.wrong += self.users.wait()
        self.tell()
        return self.wrong

    def go_on(self) -> None:
        """Phase after phase, in an order that is drawn."""
        end = time.monotonic() + self.seconds
        rounds = max(1, round(self.seconds / (len(self.names) * PHASE_S)))
        for turn in range(rounds):
            names = list(self.names)
            self.lab.chance.shuffle(names)
            for place, name in enumerate(names):
                self.phase(name, (end - time.monotonic()) / ((rounds - turn) * len(names) - place))

    def phase(self, name: str, seconds: float) -> None:
        phase, began = self.users.begin(name), time.monotonic()
        due = began
        while (now := time.monotonic()) < began + seconds:
            if PHASES[name] and now >= due:
                self.lab.act(PHASES[name])
                due = time.monotonic() + self.lab.chance.uniform(LEAST_PAUSE_S, MOST_PAUSE_S)
            self.look()
            time.sleep(LOOK_S)
        self.lab.heal()
        phase.seconds += time.monotonic() - began
        self.users.history.judge()
        self.wrong += [f"{name}: {what}" for what in self.lab.ended() if f"{name}: {what}" not in self.wrong]

    def look(self) -> None:
        """What chronyd claims on the machine's host, both ways, and what each master last said."""
        try:
            self.seen["chronyd, tracking"].append(2 * self.lab.own.root_distance_ns())
        except Fault:
            self.seen["chronyd, no answer"].append(0)
        for master in self.lab.masters:
            width = master.numbers().get("truetime_master_width_seconds")
            if width is not None:
                self.seen[f"master of {master.host.name}"].append(int(width * 10**9))

    def tell(self) -> None:
        users, history = self.users, self.users.history
        self.say(table(rows_of({name: phase for name, phase in users.phases.items() if name != "run"})))
        self.seen["a reading of the machine"] = [width for phase in users.phases.values() for width in phase.widths]
        rows = [(name, *(microseconds(call(widths)) for call in (min, statistics.median, max)))
                for name, widths in sorted(self.seen.items()) if widths]
        self.say(table([("width, us", "least", "median", "greatest"), *rows]))
        self.say(f"done: {', '.join(f'{name} {count}' for name, count in sorted(self.lab.did.items())) or 'nothing'}")
        for master in self.lab.masters:
            self.say(f"{master.name}: {told_by(master)}")
        self.say(f"{history.number:,} commits, {history.wrong['violations']} out of order, {history.wrong['equal_stamps']} stamps twice")
        self.wrong += users.wrong
        for name, what in (("violations", "commits are out of order"), ("equal_stamps", "stamps were given twice")):
            if history.wrong[name]:
                self.wrong.append(f"{history.wrong[name]} {what}")
        if not sum(phase.readings for phase in users.phases.values()):
            self.wrong.append("there were no readings")


def told_by(master: NtpMaster) -> str:
    """What its log told of, by event."""
    events = collections.Counter(line["event"] for line in master.said_all())
    return ", ".join(f"{count} {event}" for event, count in sorted(events.items()))


CONTROL_S, LIE_NS = 6.0, 10**9


def control(program: str, say: typing.Callable[[str], None]) -> bool:
    """Three of five servers are a second ahead: whether that was seen."""
    names = [f"s{number}" for number in range(SOURCES)]
    with Masters(program, [*names, "m"]) as lab:
        for place, name in enumerate(names):
            lab.fake(name, Says(ahead_ns=LIE_NS if place <= SOURCES // 2 else 0))
            lab.master("m", lab.at(name), every="500ms")
        users = lab.users(lab.machine("m", on_break="warn", max_width=None), CONTROL_S)
        users.wait()
        phase = users.phases["run"]
        say(f"control: three of five servers are a second ahead: {phase.wrong_readings:,} of {phase.readings:,} readings are wrong, "
            f"{phase.wrong_commits:,} of {phase.commits:,} commits")
        return phase.wrong_readings > 0
