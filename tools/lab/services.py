"""Masters and machines on hosts, and the keys that they share."""
import json
import os
import secrets
import time
import typing

from harness import processes
from harness.metrics import numbers_in
from harness.processes import Fault
from harness.program import read_text, run, write
from lab.hosts import Host
from lab.pipes import Pipe

POLLS, SESSIONS = 5701, 5601
SECRET_BYTES = 32


class KeyFile:
    """A file of keys."""

    def __init__(self, path: str):
        self.path, self.lines = path, dict[int, str]()
        self.write()

    def write(self) -> None:
        """Replaces the file as a whole."""
        draft = f"{self.path}.draft"
        write(draft, "".join(f"{line}\n" for line in self.lines.values()).encode())
        os.chmod(draft, 0o600)
        os.rename(draft, self.path)

    def add(self, line: str) -> None:
        self.lines[number_of(line)] = line
        self.write()

    def drop(self, number: int) -> None:
        del self.lines[number]
        self.write()

    def secrets(self) -> dict[int, bytes]:
        """The bytes of each key by its number."""
        return {number: bytes.fromhex(line.split()[1]) for number, line in self.lines.items()}


def sum_in(numbers: dict, metric: str) -> int:
    """The sum of a metric over its labels."""
    return sum(int(value) for name, value in numbers.items() if name.partition("{")[0] == metric and value is not None)


def number_of(line: str) -> int:
    """The number of the key of a line."""
    return int(line.split()[0])


def new_key(program: str, number: int, name: str) -> str:
    """A line with a new key, as the program makes it, or made here where it makes none."""
    ran = run([program, "key", "--id", str(number), "--name", name])
    line = ran.said.strip()
    return line if ran.status == 0 and number_of(line) == number else f"{number} {secrets.token_hex(SECRET_BYTES)} {name}"


class OnHost(processes.Process):
    """A process of the program on a host, that can be killed and started again. What it prints goes to its log, or to a pipe from the next start
    on."""
    pipe: Pipe | None = None

    def __init__(self, host: Host, name: str, words: typing.Sequence[str]):
        self.host = host
        super().__init__(host.lab, name, list(words))

    def start(self) -> None:
        self.start_program(self.program)

    def start_program(self, program: str) -> None:
        pipe = self.pipe
        with open(self.log, "ab") as log:
            output = pipe.writing if pipe else log
            self.running = self.host.start([program, *self.words], stdout=output, stderr=output)


class Master(OnHost):
    """A master on a host, which answers what is sealed under a key of its file, or all where it has none."""

    def __init__(self, host: Host, source: int, uncertainty: int, keys: KeyFile | None, family: int = 4, listen: str | None = None, name: str = ""):
        self.source, self.keys, self.address, self.offset = source, keys, listen or host.at(POLLS, family), 0
        self.uncertainty, self.lies = uncertainty, False
        name = name or f"master-{host.name}"
        self.status_path = os.path.join(host.lab.room, f"{name}.status")
        self.fixed = ["master", "--source", str(source), "--listen", self.address, "--uncertainty", str(uncertainty),
                      *(["--keys", keys.path, "--status", self.status_path] if keys else [])]
        super().__init__(host, name, self.fixed)

    def behave(self, offset: int, *acts: str) -> None:
        """Starts it again, with its time off by so many nanoseconds, and with these acts."""
        self.offset, self.lies = offset, bool(acts) or abs(offset) > self.uncertainty
        self.words = [*self.fixed, f"--offset={offset}", *(word for act in acts for word in ("--act", act))]
        self.restart()

    def sum_of(self, metric: str) -> int:
        """The sum of a metric of its status over its labels."""
        return sum_in(numbers_in(read_text(self.status_path)), metric) if os.path.isfile(self.status_path) else 0


class Source(typing.NamedTuple):
    """A master as a machine's settings have it: its address, and the numbers of the keys, of which the first one seals."""
    address: str
    keys: tuple[int, ...] = ()


class Machine(OnHost, processes.Machine):
    """A machine on a host, with all files of its own in one folder, which is asked at its Unix socket from outside of the host."""

    def __init__(self, host: Host, number: int, sources: typing.Sequence[Source], keys: KeyFile | None, **settings):
        self.host, self.sources, self.keys = host, list(sources), keys
        self.folder = os.path.join(host.lab.room, host.name)
        os.makedirs(self.path("state"), exist_ok=True)
        self.address = self.path("socket")
        settings = {"machine": number, "listen": f"127.0.0.1:{SESSIONS}", **{key: self.path(key) for key in ("state", "socket", "shared", "status")},
                    **settings}
        self.settings = {key: value for key, value in settings.items() if value is not None}
        self.write_settings()
        processes.Process.__init__(self, host.lab, f"machine-{host.name}", ["serve", self.path("node.toml")])

    def write_settings(self) -> None:
        """Writes its settings with the sources of now."""
        if any(source.keys for source in self.sources):
            lines = [f"{key} = {json.dumps(value)}" for key, value in {**self.settings, "keys": self.keys.path}.items()]
            for source in self.sources:
                keys = [f"key = {json.dumps(source.keys[0] if len(source.keys) == 1 else source.keys)}"] if source.keys else []
                lines += ["", "[[master]]", f"address = {json.dumps(source.address)}", *keys]
        else:
            settings = {**self.settings, "masters": [source.address for source in self.sources]}
            lines = [f"{key} = {json.dumps(value)}" for key, value in settings.items()]
        write(self.path("node.toml"), "".join(f"{line}\n" for line in lines).encode())

    def set_keys(self, place: int, *numbers: int) -> None:
        """Its settings have these keys for the source, from the next start on."""
        self.sources[place] = self.sources[place]._replace(keys=numbers)
        self.write_settings()

    def use_all_workers(self) -> None:
        """Half of the workers serve the Unix socket: each of them serves a session."""
        self.wait_until_ready()
        sessions = [processes.truetime.Session(self.address, 5) for _ in range(processes.WORKERS // 2)]
        for session in sessions:
            session.commit()
            session.close()
        time.sleep(0.2)

    def numbers(self) -> dict:
        """The numbers of its status, or none before it wrote one."""
        return self.status() if os.path.isfile(self.path("status")) else {}

    def said(self, event: str | None = None) -> list[dict]:
        """The fields of each line of the log that tells of this event, or of any, over all lives."""
        lines = map(processes.fields_of, read_text(self.log).splitlines(keepends=True))
        return [fields for fields in lines if fields and event in (None, fields["event"])]

    def sum_of(self, metric: str) -> int:
        """The sum of a metric over its labels."""
        return sum_in(self.numbers(), metric)


def wait_until(holds: typing.Callable[[], object], seconds: float, what: str) -> float:
    """Returns once this holds: after how many seconds."""
    began = time.monotonic()
    while not holds():
        if time.monotonic() > began + seconds:
            raise Fault(f"{what} in {seconds} seconds")
        time.sleep(0.02)
    return time.monotonic() - began


