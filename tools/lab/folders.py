"""Runs hosts by a folder of their files, as they are written.

The folder holds

- `hosts`: lines `ADDRESS NAME [ALIAS]..` as in /etc/hosts, which each host has there. A name is a host with all addresses of its lines;
- `delays`, perhaps: lines `NAME NAME MILLISECONDS`, the way from the hosts of the one name to those of the other, and back; a name may have the
  signs * and ? of the shell;
- a folder for each host, of its name, which that host has as /etc/truetime: what `truetime@NAME` and `truetime-master@NAME` start from it is started,
  by the ExecStart of the units in packaging/, each with folders of its own in /run/truetime and /var/lib/truetime.

Hosts without a folder run nothing.
"""
import collections
import contextlib
import fnmatch
import glob
import itertools
import os
import re
import shlex
import shutil
import time
import tomllib
import typing

from harness.metrics import numbers_in
from harness.processes import Fault
from harness.program import in_top, read_text, run, write
from lab.hosts import Host, Lab
from lab.router import Way
from lab.services import OnHost
from lab.users import table

UNITS = {".master": "truetime-master@.service", ".toml": "truetime@.service"}
#: What a host has of this computer's /etc.
SHARED_ETC = ("passwd", "group", "ld.so.cache", "localtime")
READY_S = 20.0
#: The columns of a row, and what it says of a reading that does not hold the time.
HEAD, WRONG = ("machine", "width, ms", "right", "sources heard"), "no: wrong"
#: Goes on with its own folders in place of this computer's.
MOUNT = 'mount --bind "$0/etc" /etc && mount --bind "$0/run" /run && mount --bind "$0/lib" /var/lib && exec "$@"'


def rows_in(path: str) -> typing.Iterator[list[str]]:
    """The words of each line, without comments."""
    for line in read_text(path).splitlines():
        if words := line.partition("#")[0].split():
            yield words


def lines_of(unit: str, key: str) -> list[str]:
    """What a unit has for a key, a text for each of its lines."""
    text = read_text(in_top(f"packaging/{unit}")).replace("\\\n", " ")
    return re.findall(rf"^{key}=(.*)$", text, re.MULTILINE)


def words_of(unit: str, instance: str, variables: dict[str, str]) -> list[str]:
    """The words of the command of a unit's instance, as systemd makes them: `${X}` is a part of a word, `$X` any number of words."""
    words = []
    variables = {**dict(line.split("=", 1) for line in lines_of(unit, "Environment")), **variables}
    for word in shlex.split(lines_of(unit, "ExecStart")[0].replace("%i", instance)):
        if re.fullmatch(r"\$[A-Z_]+", word):
            words += shlex.split(variables.get(word[1:], ""))
        else:
            words.append(re.sub(r"\$\{([A-Z_]+)\}", lambda found: variables.get(found[1], ""), word))
    return words


class Site(Host):
    """A host with an /etc, a /run and a /var/lib of its own."""

    def __init__(self, lab: "Folder", name: str, addresses: list[str]):
        super().__init__(lab, name, addresses)
        self.folder = os.path.join(lab.room, name)
        for part in ("etc", "run", "lib"):
            os.makedirs(os.path.join(self.folder, part))
        for file in SHARED_ETC:
            with contextlib.suppress(FileNotFoundError):
                shutil.copy(f"/etc/{file}", self.path("etc", file))
        shutil.copy(os.path.join(lab.folder, "hosts"), self.path("etc", "hosts"))
        write(self.path("etc", "nsswitch.conf"), b"hosts: files\npasswd: files\ngroup: files\n")
        if os.path.isdir(given := os.path.join(lab.folder, name)):
            shutil.copytree(given, self.path("etc", "truetime"))
        self.enter += ["sh", "-c", MOUNT, self.folder]

    def path(self, part: str, name: str) -> str:
        return os.path.join(self.folder, part, name)

    def services(self) -> typing.Iterator["Instance"]:
        """What it starts: its masters, then its machines."""
        for end in UNITS:
            for path in sorted(glob.glob(self.path("etc", f"truetime/*{end}"))):
                yield Instance(self, os.path.basename(path).removesuffix(end), end)


class Instance(OnHost):
    """An instance of a unit."""

    def __init__(self, site: Site, name: str, end: str):
        path, variables, self.settings = site.path("etc", f"truetime/{name}{end}"), {}, {}
        if end == ".master":
            variables = dict(line.split("=", 1) for line in read_text(path).splitlines() if "=" in line and not line.startswith("#"))
        else:
            self.settings = tomllib.loads(read_text(path))
        for folder, inside in (("run", "truetime"), ("run", "truetime-master"), ("lib", "truetime")):
            os.makedirs(site.path(folder, f"{inside}/{name}"), exist_ok=True)
        words = words_of(UNITS[end], name, {key: value.strip("\"'") for key, value in variables.items()})
        # What is before the program is for signals, which no lab sends.
        super().__init__(site, f"{site.name}-{name}{end}", words[words.index("/usr/bin/ttd") + 1:])

    def inside(self, path: str) -> str:
        """Where a file is on this computer that has this path on the host."""
        for place, part in (("/etc/", "etc"), ("/run/", "run"), ("/var/lib/", "lib")):
            if path.startswith(place):
                return self.host.path(part, path.removeprefix(place))
        raise Fault(f"{self.name}: {path} is in none of /etc, /run and /var/lib")

    def reading(self) -> list[str]:
        """What its machine says to `now`, in words."""
        ran = run([*self.host.enter, self.program, "ask", self.settings["listen"], "now"], seconds=10)
        return ran.said.split()

    def numbers(self) -> dict:
        """The numbers of its status, or none where it has written none."""
        path = self.inside(self.settings["status"]) if "status" in self.settings else ""
        return numbers_in(read_text(path)) if os.path.isfile(path) else {}

    def row(self) -> tuple[str, ...]:
        """Of a machine: its name, the width of a reading, whether it is right, and the sources that were heard."""
        before = time.time_ns()
        words = self.reading()
        if words[:1] != ["now"]:
            return self.name, "-", "no: " + (" ".join(words) or self.end_of_log().strip()[-100:]), "-"
        low, high = map(int, words[1:])
        known = self.numbers().get("truetime_sources_known")
        is_right = low <= time.time_ns() and before <= high
        return self.name, f"{(high - low) / 1e6:.2f}", "yes" if is_right else WRONG, "-" if known is None else str(known)


class Folder(Lab):
    """The hosts of a folder, and what runs on them."""

    def __init__(self, program: str, folder: str, seed: int = 1):
        super().__init__(program, seed)
        self.folder = os.path.realpath(folder)

    def build(self) -> None:
        addresses = collections.defaultdict(list)
        for address, name, *_ in rows_in(os.path.join(self.folder, "hosts")):
            if name != "localhost":
                addresses[name].append(address)
        for name, its in addresses.items():
            self.hosts[name] = Site(self, name, its)
        unknown = {name for name in os.listdir(self.folder) if os.path.isdir(os.path.join(self.folder, name))} - set(self.hosts)
        if unknown:
            raise Fault(f"no line of {self.folder}/hosts names {', '.join(sorted(unknown))}")
        self.join()
        self.set_delays()

    def set_delays(self) -> None:
        path = os.path.join(self.folder, "delays")
        for one, other, milliseconds in rows_in(path) if os.path.isfile(path) else ():
            sources, targets = (fnmatch.filter(self.hosts, name) for name in (one, other))
            way = Way(float(milliseconds) / 1000, float(milliseconds) / 1000)
            for ends in itertools.permutations((sources, targets)):
                self.router.set(*ends, way)

    def start(self) -> list[Instance]:
        """Starts all, masters first; the machines."""
        services = [service for site in self.hosts.values() for service in site.services()]
        for service in services:
            self.keep(service)
        return [service for service in services if service.settings]

    def rows(self, machines: list[Instance], seconds: float = READY_S) -> list[tuple[str, ...]]:
        """A row for each machine, once all read rightly, or after so many seconds."""
        end = time.monotonic() + seconds
        while True:
            rows = [machine.row() for machine in machines]
            if all(row[2] == "yes" for row in rows) or time.monotonic() > end:
                return [HEAD, *rows]
            time.sleep(0.2)


def tell(program: str, folder: str, seconds: float, say: typing.Callable[[str], None]) -> list[str]:
    """Runs a folder so long; what was wrong."""
    with Folder(program, folder) as lab:
        machines = lab.start()
        lab.rows(machines)
        time.sleep(seconds)
        rows = lab.rows(machines)
        say(table(rows))
        return [f"{row[0]}: {row[2]}" for row in rows[1:] if row[2] != "yes"]
