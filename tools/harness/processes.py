"""Masters and machines of the time service as processes.

All is on ports of the loopback and in a folder of the caller's, and ends with the `with` block, each process by its id.
"""
import atexit
import calendar
import contextlib
import json
import os
import random
import re
import signal
import socket
import subprocess
import sys
import time

from harness.metrics import numbers_in
from harness.program import in_top, read_text, run

sys.path.insert(0, in_top("clients/python"))
import truetime  # noqa: E402  (it stands in the repository)

WORKERS = 32
SECOND = 1_000_000_000
# How much more memory a machine may have at the end than at the beginning.
MORE_MEMORY_KIB = 4096


class Fault(Exception):
    """Why a tool cannot go on."""


# For each port that `free_port` gave, a name that the system keeps for as long as this process lives.
PORTS_TAKEN = contextlib.ExitStack()
atexit.register(PORTS_TAKEN.close)


def free_port(kind):
    """A free port, below those that the system gives to clients, so that nobody takes it while its owner is restarted. It is given to no
    other process of these tools as long as this one lives: its owner may take it later."""
    for port in random.SystemRandom().sample(range(20_000, 32_000), 100):
        with socket.socket(socket.AF_INET, kind) as door, socket.socket(socket.AF_UNIX, socket.SOCK_DGRAM) as name, contextlib.suppress(OSError):
            door.bind(("127.0.0.1", port))
            name.bind(f"\0truetime-port-{kind:d}-{port}")
            PORTS_TAKEN.enter_context(name.dup())
            return port
    raise Fault("no port is free")


def raw_ns():
    """What CLOCK_MONOTONIC_RAW shows, the clock of machines."""
    return time.clock_gettime_ns(time.CLOCK_MONOTONIC_RAW)


def nanoseconds_of(moment):
    """A time like 2026-11-26T23:41:51.123456789Z, in nanoseconds since 1970."""
    whole, fraction = re.fullmatch(r"([0-9]{4}-[0-9]{2}-[0-9]{2}T[0-9]{2}:[0-9]{2}:[0-9]{2})\.([0-9]{9})Z", moment).groups()
    return calendar.timegm(time.strptime(whole, "%Y-%m-%dT%H:%M:%S")) * SECOND + int(fraction)


def fields_of(line):
    """The fields of a line of a log, in either form, as texts, but for the time in nanoseconds since 1970. No fields for another line."""
    fields = {}
    if line.startswith("time=") and line.endswith("\n"):
        fields = {name: value.strip('"') for name, value in re.findall(r'([a-z_]+)=("[^"]*"|\S+)', line)}
    elif line.startswith('{"time":') and line.endswith("\n"):
        fields = {name: str(value) for name, value in json.loads(line).items()}
    return fields and fields | {"time": nanoseconds_of(fields["time"])}


class Service:
    """The processes of the service."""

    def __init__(self, program, room):
        self.program, self.room, self.processes = os.path.realpath(program), room, contextlib.ExitStack()

    def __enter__(self):
        signal.signal(signal.SIGTERM, lambda *_: sys.exit(128 + signal.SIGTERM))
        return self

    def __exit__(self, *_):
        self.processes.close()

    def master(self, source, offset=0, uncertainty=1_000_000, keys=None):
        """Starts a master, whose time is off by so many nanoseconds. With a file of keys it answers sealed polls alone."""
        return self.processes.enter_context(contextlib.closing(Master(self, source, offset, uncertainty, keys)))

    def machine(self, name, number, masters, **settings):
        """Starts a machine over the masters at these addresses, in the order of their sources."""
        return self.processes.enter_context(contextlib.closing(Machine(self, name, number, masters, settings)))

    def fleet(self, machines, **settings):
        """Starts a machine for each name and its masters, with these settings; the machines by their names, each with a time to show."""
        started = {name: self.machine(name, number, [getattr(master, "address", master) for master in masters], **settings)
                   for number, (name, masters) in enumerate(machines.items())}
        for machine in started.values():
            machine.wait_until_ready()
        return started

    def judge(self, history):
        """How many commits of a history of (began, ended, stamp) are out of order, as the judge says."""
        text = "".join(f"commit {began} {ended} {stamp}\n" for began, ended, stamp in history)
        judged = run([self.program, "judge"], text.encode(), 60)
        if judged.status not in (0, 3):
            raise Fault(f"the judge ends with status {judged.status}: {judged.said}{judged.error}")
        return int(judged.out.split()[3])


class Process:
    """A command that runs until it is ended, and can be started again with the same words."""
    running = None

    def __init__(self, service, name, words):
        self.name, self.program, self.words = name, service.program, words
        self.log = os.path.join(service.room, f"{name}.log")
        self.start()

    def start(self):
        with open(self.log, "ab") as log:
            self.running = subprocess.Popen([self.program, *self.words], stdin=subprocess.PIPE, stdout=log, stderr=log)

    def kill(self):
        if self.running:
            self.running.kill()
            self.running.wait()
            if self.running.stdin:
                self.running.stdin.close()

    def close(self):
        self.kill()

    def restart(self):
        self.kill()
        self.start()

    def has_ended(self):
        """Whether it ended on its own."""
        return self.running.poll() is not None

    def end_of_log(self):
        return read_text(self.log)[-2000:]

    def said(self, event):
        """The fields of each line of the log that tells of this event, over all lives."""
        return [fields for fields in map(fields_of, read_text(self.log).splitlines(keepends=True)) if fields.get("event") == event]

    def resources(self):
        """Its memory in KiB, its descriptors and its threads: the least of some looks, since a file is open while it is written."""
        looks = []
        for _ in range(10):
            looks.append(self.look_at_resources())
            time.sleep(0.03)
        return tuple(map(min, zip(*looks)))

    def keeps_more(self, before, after):
        """Both resources as text, and whether the later ones are more: descriptors, threads, or over 4 MiB of memory."""
        said = (f"{name} {first}, then {then}" for name, first, then in zip(("KiB", "descriptors", "threads"), before, after))
        return f"{self.name}: {'; '.join(said)}", after[1:] != before[1:] or after[0] > before[0] + MORE_MEMORY_KIB

    def look_at_resources(self):
        process = f"/proc/{self.running.pid}"
        with open(f"{process}/status", encoding="ascii") as file:
            values = {name: rest.split()[0] for name, _, rest in (line.partition(":") for line in file) if name in ("VmRSS", "Threads")}
        return int(values["VmRSS"]), len(os.listdir(f"{process}/fd")), int(values["Threads"])


class Master(Process):
    def __init__(self, service, source, offset, uncertainty, keys):
        self.address = f"127.0.0.1:{free_port(socket.SOCK_DGRAM)}"
        self.fixed = ["master", "--source", str(source), "--listen", self.address, "--uncertainty", str(uncertainty),
                      *(["--keys", keys] if keys else [])]
        super().__init__(service, f"master-{self.address[10:]}", [*self.fixed, f"--offset={offset}"])

    def restart_with(self, offset):
        """Starts it again at the same address, with its time off by so many nanoseconds."""
        self.words = [*self.fixed, f"--offset={offset}"]
        self.restart()


class Machine(Process):
    """A machine, with all files of its own in one folder. A setting that is None is left out. Masters are addresses, or tables."""
    #: The path of its shared file, where it has one that is waited for.
    shared: "str | None" = None

    def __init__(self, service, name, number, masters, settings):
        self.folder = os.path.join(service.room, name)
        os.mkdir(self.folder)
        os.mkdir(self.path("state"))
        self.address = ("127.0.0.1", free_port(socket.SOCK_STREAM))
        tables = [master for master in masters if isinstance(master, dict)]
        settings = {"machine": number, "masters": None if tables else masters, "listen": f"127.0.0.1:{self.address[1]}",
                    **{key: self.path(key) for key in ("state", "socket", "shared", "status")}, **settings}
        self.shared = settings["shared"] and os.path.join(self.folder, settings["shared"])
        with open(self.path("node.toml"), "w", encoding="utf-8") as file:
            file.writelines(f"{key} = {json.dumps(value)}\n" for key, value in settings.items() if value is not None)
            for table in tables:
                file.writelines(["[[master]]\n", *(f"{key} = {json.dumps(value)}\n" for key, value in table.items())])
        super().__init__(service, name, ["serve", self.path("node.toml"), "--until-eof"])

    def path(self, name):
        return os.path.join(self.folder, name)

    def wait_until_ready(self, seconds=10):
        """Returns once it has a time to show, and its shared file is there, which a thread of its own makes; a disk may stand still."""
        end = time.monotonic() + seconds
        while True:
            try:
                with truetime.Session(self.address, seconds) as session:
                    now = session.now()
                end = time.monotonic() + 1
                while self.shared and not os.path.exists(self.shared) and time.monotonic() < end:
                    time.sleep(0.005)
                return now
            except (OSError, truetime.Refused) as fault:
                if time.monotonic() > end or self.running.poll() is not None:
                    raise Fault(f"no time from machine {self.name}: {fault}\n{self.end_of_log()}") from fault
            time.sleep(0.02)

    def use_all_workers(self):
        """Lets each worker serve a session, so that all has been taken that a machine keeps. Half of them serve the Unix socket."""
        self.wait_until_ready()
        sessions = [truetime.Session(where, 5) for where in (self.address, self.path("socket")) for _ in range(WORKERS // 2)]
        for session in sessions:
            session.commit()
        for session in sessions:
            session.close()
        time.sleep(0.5)

    def client(self):
        return truetime.Client(self.path("shared"), os.geteuid())

    def status(self):
        """The numbers of its status file by their names and labels, but for that of the machine."""
        return numbers_in(read_text(self.path("status")))
