"""Five masters, three machines, a forger, and what is done to them."""
import collections
import random
import typing

from lab.forger import UNOPENED, Forger
from lab.hosts import DEVICE, Host, Lab
from lab.router import Way
from lab.services import KeyFile, Machine, Master, Source, new_key
from lab.users import Users

SOURCES, LIARS = 5, 2
UNCERTAINTY = 1_000_000
#: The names of the machines' hosts, and by how many seconds their clocks are shifted.
SHIFTS_S = {"a": 0, "b": 864_000, "c": 40_000_000}
#: The clocks of machines change their rates by so much at most, which their drift allows, the default.
MOST_RATE_PPM = 180
FORGER, FORGED_A_SECOND = "x", 150
FAMILIES = {"four": (4, ), "six": (6, ), "mixed": (4, 6)}
SETTINGS = {"poll": "200ms", "wait": "100ms", "max_width": "1s"}


def key_number(machine: int, source: int) -> int:
    """The number of the key of a machine and a master: its digits are those of both, the machine's from 1 on."""
    return 10 * (machine + 1) + source


class Fleet(Lab):
    """The masters m0 to m4 at 10.77.0.10 to 14 and fd77::1:0 to 4, the machines' hosts a, b and c at 10.77.0.20 to 22 and fd77::2:0 to 2, and the
    host x of the forger."""
    shifts_s = SHIFTS_S
    #: Hosts of nothing that the fleet itself starts, and those whose clocks change their rates.
    others: dict[str, list[str]] = {FORGER: ["10.77.0.99", "fd77::99"]}
    turning: typing.Sequence[str] = tuple(SHIFTS_S)

    def __init__(self, program: str, seed: int = 1, family: str = "four"):
        super().__init__(program, seed)
        self.families, self.chance = FAMILIES[family], random.Random(seed)
        self.liars = sorted(self.chance.sample(range(SOURCES), LIARS))
        self.did: collections.Counter[str] = collections.Counter()
        self.forger: Forger | None = None
        self.seen: dict[str, tuple[int, int]] = {}
        #: What was killed, and the hosts whose devices are down.
        self.down: list[Master] = []
        self.unplugged: list[Host] = []

    def build(self) -> None:
        for source in range(SOURCES):
            self.host(f"m{source}", [f"10.77.0.{10 + source}", f"fd77::1:{source}"])
        for number, (name, shift_s) in enumerate(self.shifts_s.items()):
            self.host(name, [f"10.77.0.{20 + number}", f"fd77::2:{number}"], shift_s).add_clock()
        for name, addresses in self.others.items():
            self.host(name, addresses)
        self.join(FORGER)

    @property
    def master_hosts(self) -> list[str]:
        return [f"m{source}" for source in range(SOURCES)]

    def start_masters(self) -> None:
        """Starts the masters, each within its uncertainty, with keys for each machine."""
        self.keys = keys = [KeyFile(f"{self.room}/m{source}.keys") for source in range(SOURCES)]
        self.key_files = {name: KeyFile(f"{self.room}/{name}.keys") for name in self.shifts_s}
        for number, name in enumerate(self.shifts_s):
            for source in range(SOURCES):
                line = new_key(self.program, key_number(number, source), f"{name}-m{source}")
                keys[source].add(line)
                self.key_files[name].add(line)
        self.masters = [self.keep(self.master(source, keys[source])) for source in range(SOURCES)]
        for master in self.masters:
            master.behave(self.honest_offset())

    def master(self, source: int, keys: KeyFile) -> Master:
        return Master(self.hosts[f"m{source}"], source, UNCERTAINTY, keys, self.families[source % len(self.families)])

    def start_machines(self, **settings) -> None:
        self.machines = {}
        for number, name in enumerate(self.shifts_s):
            sources = [Source(master.address, (key_number(number, master.source), )) for master in self.masters]
            self.machines[name] = self.keep(self.machine(name, number, sources, {**SETTINGS, **settings}))
        for machine in self.machines.values():
            machine.wait_until_ready()

    def machine(self, name: str, number: int, sources: list[Source], settings: dict) -> Machine:
        return Machine(self.hosts[name], number, sources, self.key_files[name], **settings)

    def start_users(self, seconds: float, sessions: int = 3, stampers: int = 1, pause_ms: int = 10) -> Users:
        """Starts users of all machines, whose first phase is `start`."""
        users = self.keep(Users(self))
        users.begin("start")
        for machine in self.machines.values():
            users.start(machine, seconds, sessions, stampers, pause_ms)
        return users

    def start_forger(self, rate: float = FORGED_A_SECOND, with_keys: bool = False) -> None:
        addresses = [address for name in self.shifts_s for address in self.hosts[name].addresses]
        keys = {number: secret for file in self.key_files.values() for number, secret in file.secrets().items()}
        self.forger = self.keep(Forger(self.hosts[FORGER], addresses, rate, self.seed, keys if with_keys else None))

    # What is counted.

    def forged(self, kinds: typing.Iterable[str] = UNOPENED) -> int:
        """How many packets the forger has sent that no machine opens."""
        counts = self.forger.counts() if self.forger else {}
        return sum(counts.get(kind, 0) for kind in kinds)

    def sum_of_masters(self, what: str) -> int:
        """How many polls the masters have answered or dropped, by their statuses."""
        return sum(master.sum_of(f"truetime_master_{what}_total") for master in self.masters)

    def unopened_more(self) -> collections.Counter:
        """By how much the count of packets that did not open has risen since the last look, by machine. In a new life it begins at 0."""
        more = collections.Counter()
        for name, machine in self.machines.items():
            count, life = machine.sum_of("truetime_source_packets_unopened_total"), machine.sum_of("truetime_epoch")
            before = self.seen.get(name, (0, 0))
            more[name] = count - (before[0] if before[1] == life and count >= before[0] else 0)
            self.seen[name] = count, life
        return more

    def ended(self) -> typing.Iterator[str]:
        """The processes that ended on their own, and the machines that say that an assumption was broken."""
        for child, name in ((self.router.child, "router"), (self.forger and self.forger.child, "forger")):
            if child and not child.process.is_alive():
                yield f"the {name} has ended"
        for process in [*self.masters, *self.machines.values()]:
            if process.has_ended() and process not in self.down:
                yield f"{process.name} ended with status {process.running.returncode}: {process.end_of_log()[-300:]}"
        for machine in self.machines.values():
            for event in ("assumption_broken", "host_slept"):
                if machine.said(event):
                    yield f"{machine.name}: {event}: {machine.said(event)[0]}"

    # What is done.

    def honest_offset(self) -> int:
        return self.chance.randrange(-UNCERTAINTY * 4 // 5, UNCERTAINTY * 4 // 5)

    def act(self, names: typing.Sequence[str]) -> None:
        """Does one of these, drawn by the seed."""
        name = self.chance.choice(names)
        self.did[name] += 1
        getattr(self, name)()

    def some(self) -> tuple[list[str], ...]:
        """Some of the machines' hosts, and some of the masters'."""
        return tuple(self.chance.sample(names, self.chance.randrange(1, len(names) + 1)) for names in (list(self.shifts_s), self.master_hosts))

    def set_one_way(self, way: Way, back: Way | None) -> None:
        """The way from some machines to some masters, or from these to those; and back."""
        ends = list(self.some())
        self.chance.shuffle(ends)
        self.router.set(*ends, way)
        if back:
            self.router.set(*reversed(ends), back)

    def kill_machine(self) -> None:
        self.chance.choice(list(self.machines.values())).restart()

    def kill_master(self) -> None:
        """It stays down until the next one is killed; its host answers that nobody has the port."""
        self.start_again()
        self.down = [self.chance.choice(self.masters)]
        self.down[0].kill()

    def start_again(self) -> None:
        """Starts the masters that are down, but those that were started meanwhile to lie or to be honest."""
        while self.down:
            if (master := self.down.pop()).has_ended():
                master.start()

    def lie(self) -> None:
        ahead = 10 ** self.chance.randrange(4, 12)
        kinds = ["honest", f"ahead {ahead}", f"behind {ahead}", "silent", "garbage", "repeat"]
        acts = [self.chance.choice(kinds) for _ in range(self.chance.randrange(3))]
        self.masters[self.chance.choice(self.liars)].behave(self.chance.choice((-1, 1)) * self.chance.randrange(ahead), *acts)

    def be_honest(self) -> None:
        self.masters[self.chance.choice(self.liars)].behave(self.honest_offset())

    def be_honest_again(self) -> None:
        """Each master that is a liar is honest."""
        for liar in self.liars:
            if self.masters[liar].lies:
                self.masters[liar].behave(self.honest_offset())

    def delay(self) -> None:
        least = self.chance.uniform(0, 0.03)
        self.set_one_way(Way(least, least + self.chance.uniform(0, 0.03)), None)

    def lose(self) -> None:
        """Packets are lost, come twice, spoilt and in another order, both ways."""
        ways = [Way(0, *(self.chance.uniform(0, most) for most in (0.1, 0.3, 0.3, 0.3))) for _ in range(2)]
        self.set_one_way(*ways)

    def cut(self) -> None:
        self.set_one_way(Way(cut=True), self.chance.choice([None, Way(cut=True)]))

    def unplug(self) -> None:
        """The device of a machine's host is down: its packets have no way."""
        self.unplugged.append(self.hosts[self.chance.choice(list(self.shifts_s))])
        self.unplugged[-1].ip("link", "set", DEVICE, "down")

    def heal(self) -> None:
        """All packets go at once, all devices are up, and all masters run."""
        self.router.heal()
        self.start_again()
        while self.unplugged:
            self.unplugged.pop().set_up()

    def turn_clock(self) -> None:
        self.hosts[self.chance.choice(self.turning)].clock.run_by(self.chance.randrange(-MOST_RATE_PPM, MOST_RATE_PPM + 1))


ACTS = ("kill_machine", "kill_master", "lie", "be_honest", "delay", "lose", "cut", "unplug", "heal", "turn_clock")
#: What is done in each phase, again and again.
PHASES = {
    "quiet": (),
    "liars": ("lie", "lie", "be_honest"),
    "delays": ("delay", "delay", "heal"),
    "losses": ("lose", "lose", "heal"),
    "cuts": ("cut", "cut", "unplug", "heal"),
    "kills": ("kill_machine", "kill_master"),
    "clocks": ("turn_clock", ),
    "everything": ACTS,
}
