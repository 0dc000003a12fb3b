"""Runs the smallest fleet of docs/OPERATING.md as it is written there: its two files stand on three hosts of databases, and its commands run on each,
with a `systemctl` that writes down what it is told."""
import os
import re
import shlex
import tempfile
import time
import typing

from harness.processes import Fault
from harness.program import run, write
from lab.chronied import Chronied
from lab.documented import blocks_in, one_block, section
from lab.folders import HEAD, WRONG, Instance
from lab.users import table

HEADING = "## The smallest fleet"
HOSTS = ("10.1.0.1", "10.1.0.2", "10.1.0.3")
#: What the oscillators of their clocks are wrong by, in parts per million; the first server that lies, and how far it is ahead then.
RATES, LIAR, AHEAD_S = (10.0, -20.0, 30.0), 1, 10.0
#: chronyd's file as Debian has it, with a receiver in place of its servers of NTP.
CONF = "refclock SOCK /run/chrony.clock.sock refid GPS poll 2 precision 1e-6 delay 1e-5\nmakestep 1 3\ndriftfile /var/lib/chrony/drift\n" \
       "confdir /etc/chrony/conf.d\n"
#: It writes down what it is told.
SYSTEMCTL = '#!/bin/sh\necho "$*" >>/etc/systemctl.log\n'
READY_S, LIES_S, LOOK_S = 60.0, 5.0, 0.1


def files() -> dict[str, str]:
    """The files, by their paths below /etc. Each stands behind its path, and there are two."""
    text = section(HEADING)
    found = {path: block for path, block in zip(re.findall(r"^.*`/etc/([\w./]+)`.*:$", text, re.MULTILINE), blocks_in(text))}
    if sorted(found) != ["chrony/conf.d/fleet.conf", "truetime/db.toml"]:
        raise Fault(f"the files of the smallest fleet are {sorted(found)}")
    return found


def commands() -> str:
    """The commands; there are three: a loop, and two of `systemctl`."""
    block = one_block(section(HEADING), "for ")
    if (found := re.findall(r"^(?:for|systemctl)\b", block, re.MULTILINE)) != ["for", "systemctl", "systemctl"]:
        raise Fault(f"the commands of the smallest fleet are {found}")
    return block


class Smallest(Chronied):
    """The hosts, which run nothing yet."""

    def __init__(self, program: str, folder: str):
        os.mkdir(folder)
        write(os.path.join(folder, "hosts"), "".join(f"{address} db-{place}\n" for place, address in enumerate(HOSTS)).encode())
        super().__init__(program, folder)

    def set_up(self, name: str) -> list[list[str]]:
        """Writes the files of a host and runs the commands there: what `systemctl` was told."""
        site = self.hosts[name]
        for path, text in files().items():
            os.makedirs(os.path.dirname(site.path("etc", path)), exist_ok=True)
            write(site.path("etc", path), text.encode())
        os.mkdir(site.path("etc", "bin"))
        write(site.path("etc", "bin/systemctl"), SYSTEMCTL.encode())
        os.chmod(site.path("etc", "bin/systemctl"), 0o755)
        ran = run([*site.enter, "bash", "-euc", f"PATH=/etc/bin:$PATH\n{commands()}"], seconds=20)
        if ran.status != 0 or ran.said + ran.error:
            raise Fault(f"{name}: the commands end with status {ran.status}: {ran.said}{ran.error}")
        with open(site.path("etc", "systemctl.log"), encoding="ascii") as log:
            return [shlex.split(line) for line in log]


def wrong_told(told: list[list[str]], services: list[Instance]) -> typing.Iterator[str]:
    """What `systemctl` was told wrongly: chronyd reads its file, all that has a file is started, and each master reaches its own server."""
    names = [service.name.removeprefix(f"{service.host.name}-").rpartition(".")[0] for service in services]
    units = [f"truetime{'' if service.settings else '-master'}@{name}" for service, name in zip(services, names)]
    if told[-2:] != [["restart", "chrony"], ["enable", "--now", *units]]:
        yield f"systemctl is told {told[-2:]}, and {units} have files"
    servers = [[word.rpartition(":")[0] for word in service.words if word.endswith(":123")] for service in services if not service.settings]
    wanted = [["set-property", unit, f"IPAddressAllow={' '.join(server)}"] for unit, server in zip(units, servers)]
    if [" ".join(words).split() for words in told[:-2]] != [" ".join(words).split() for words in wanted]:
        yield f"systemctl is told {told[:-2]}, and {wanted} is wanted"
    if len(servers) != len(HOSTS) or len(services) != len(HOSTS) + 1:
        yield f"{units} are started"


def tell(program: str, say: typing.Callable[[str], None], liars: typing.Sequence[int] = (LIAR, )) -> typing.Iterator[str]:
    """Runs it until all machines read rightly and have heard all masters, and then some seconds through which these servers lie."""
    with tempfile.TemporaryDirectory() as room, Smallest(program, os.path.join(room, "folder")) as lab:
        told = {name: lab.set_up(name) for name in lab.hosts}
        servers = [lab.start_chronyd(name, CONF, rate) for name, rate in zip(lab.hosts, RATES)]
        machines = []
        for name, site in lab.hosts.items():
            services = [lab.keep(service) for service in site.services()]
            yield from (f"{name}: {what}" for what in wrong_told(told[name], services))
            machines += [service for service in services if service.settings]
        yield from until_all_heard(machines, say)
        for liar in liars:
            servers[liar].kill()
            servers[liar].wait()
            lab.start_chronyd(f"db-{liar}", CONF, RATES[liar], AHEAD_S)
        yield from lied_to(machines, liars, say)


def until_all_heard(machines: list[Instance], say: typing.Callable[[str], None]) -> typing.Iterator[str]:
    """Waits until all machines read rightly and have heard all masters; what was wrong."""
    end, good = time.monotonic() + READY_S, ("yes", str(len(HOSTS)))
    while any(row[2:] != good for row in [machine.row() for machine in machines]) and time.monotonic() < end:
        time.sleep(0.5)
    rows = [machine.row() for machine in machines]
    say(table([HEAD, *rows]))
    yield from (f"{row[0]}: {row[2]}, {row[3]} sources heard: {machine.end_of_log()[-300:]}" for row, machine in zip(rows, machines) if row[2:] != good)


def lied_to(machines: list[Instance], liars: typing.Sequence[int], say: typing.Callable[[str], None]) -> typing.Iterator[str]:
    """What is wrong with machines while some of their servers lie: all read rightly, and call these suspects."""
    end, seen = time.monotonic() + READY_S, {machine.name: set[int]() for machine in machines}
    while any(found != set(liars) for found in seen.values()) and time.monotonic() < end:
        for machine in machines:
            if (row := machine.row())[2] == WRONG:
                yield f"{row[0]}: {row[2]}"
                return
            numbers = machine.numbers()
            seen[machine.name] = {source for source in range(len(HOSTS)) if numbers.get(f'truetime_source_suspect{{source="{source}"}}') == 1}
        time.sleep(LOOK_S)
    yield from (f"{name}: suspects are {sorted(found)}" for name, found in seen.items() if found != set(liars))
    end, rows = time.monotonic() + LIES_S, []
    while time.monotonic() < end:
        rows = [machine.row() for machine in machines]
        yield from (f"{row[0]}: {row[2]}" for row in rows if row[2] == WRONG)
        time.sleep(LOOK_S)
    say(f"server {', '.join(map(str, liars))} lies by {AHEAD_S:.0f} s\n{table([HEAD, *rows])}")
