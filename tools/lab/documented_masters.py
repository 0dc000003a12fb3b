"""Runs the files of docs/MASTERS.md as they stand there: chronyd by its files, masters by theirs, and a machine over three of these."""
import os
import tempfile
import time
import typing

from harness.program import in_top, read_text, run, write
from lab import wires
from lab.chronied import Chronied
from lab.documented import master_file, one_block
from lab.masters import RECEIVER
from lab.servers import NO_CLOCK, Chronyd, path_of
from lab.services import new_key
from lab.users import table

#: The hosts of the page: one with a receiver, one whose chronyd follows servers, one whose master asks these; and the servers.
GPS, BEHIND, ASKS, SERVERS = "10.1.0.1", "10.2.0.1", "10.3.0.1", ("192.0.2.1", "192.0.2.2", "192.0.2.3")
MACHINE = "10.1.1.1"
RATES = {"gps": 20, "behind": -20}
READY_S, LOOKS, LOOK_S = 60.0, 40, 0.1
SETTINGS = """machine = 0
listen = "127.0.0.1:5601"
faulty = 1
poll = "200ms"
wait = "100ms"
keys = "/etc/truetime/keys"
state = "/var/lib/truetime/db"
status = "/run/truetime/db/truetime.prom"
"""


def block(begins: str) -> str:
    """The one block of code of the page that begins so."""
    return one_block(read_text(in_top("docs/MASTERS.md")), begins)


class PageLab(Chronied):
    """The hosts of the page."""
    prefix = wires.PREFIX


def fill(program: str, folder: str) -> None:
    """Fills a folder of hosts, as lab.folders reads it."""
    receiver, asks = master_file(), block("SOURCE=2\nLISTEN=")
    behind = receiver.replace("SOURCE=0", "SOURCE=1").replace(GPS, BEHIND)
    names = {"gps": GPS, "behind": BEHIND, "asks": ASKS, "machine": MACHINE}
    keys = {name: "" for name in names}
    for source, name in enumerate(("gps", "behind", "asks")):
        line = new_key(program, source, name)
        keys[name] = line + "\n"
        keys["machine"] += line + "\n"
    machine = SETTINGS + "".join(f'\n[[master]]\naddress = "{address}:5701"\nkey = {source}\n' for source, address in enumerate((GPS, BEHIND, ASKS)))
    for name, file, text in (("gps", "time.master", receiver), ("behind", "time.master", behind), ("asks", "time.master", asks),
                             ("machine", "db.toml", machine)):
        os.mkdir(os.path.join(folder, name))
        write(os.path.join(folder, name, file), text.encode())
        write(os.path.join(folder, name, "keys"), keys[name].encode())
        os.chmod(os.path.join(folder, name, "keys"), 0o400)
    hosts = ["127.0.0.1 localhost", *(f"{address} {name}" for name, address in names.items()),
             *(f"{address} ntp-{place}" for place, address in enumerate(SERVERS))]
    write(os.path.join(folder, "hosts"), "".join(f"{line}\n" for line in hosts).encode())


def parse(text: str, folder: str) -> typing.Iterator[str]:
    """What chronyd finds wrong with a file, which it only reads."""
    path = os.path.join(folder, "parsed.conf")
    write(path, text.encode())
    ran = run([*NO_CLOCK, path_of("chronyd"), "-p", "-f", path])
    if ran.status != 0:
        yield f"chronyd does not read the lines {text!r}: {ran.said}{ran.error}"


def tell(program: str, say: typing.Callable[[str], None]) -> typing.Iterator[str]:
    """Runs all of it until the machine has heard all masters, and then for some seconds; what was wrong."""
    gps, behind, ptp = block("refclock SOCK"), block("server "), block("refclock PHC")
    with tempfile.TemporaryDirectory(prefix=f"{wires.PREFIX}-{os.getpid()}-") as room:
        folder = os.path.join(room, "page")
        os.mkdir(folder)
        fill(program, folder)
        yield from parse(ptp + gps.partition("\n")[2], room)
        with PageLab(program, folder) as lab:
            servers = [lab.keep(Chronyd(lab.hosts[f"ntp-{number}"], f"ntp-{number}-chronyd", [RECEIVER])) for number in range(len(SERVERS))]
            for server in servers:
                server.wait_until_synchronised()
            for name, text in (("gps", gps), ("behind", behind)):
                lab.start_chronyd(name, text, RATES[name])
            (machine, ) = lab.start()
            yield from until_all_heard(lab, machine, say)


def until_all_heard(lab: PageLab, machine, say: typing.Callable[[str], None]) -> typing.Iterator[str]:
    end, masters = time.monotonic() + READY_S, ("gps", "behind", "asks")
    while (row := machine.row())[2:] != ("yes", str(len(masters))) and time.monotonic() < end:
        time.sleep(0.5)
    rows = [machine.row() for _ in range(LOOKS) if time.sleep(LOOK_S) is None]
    say(table([("machine", "width, ms", "right", "sources heard"), row, rows[-1]]))
    if row[3] != str(len(masters)):
        yield f"{row[3]} of {len(masters)} sources are heard"
        for name in masters:
            yield f"{name}: {read_text(os.path.join(lab.room, f'{name}-time.master.log'))[-300:]}"
    yield from sorted({row[2] for row in rows if row[2] != "yes"})
    for path in ("gps", "behind", "asks"):
        if not os.path.isfile(lab.hosts[path].path("run", "truetime-master/time/status.prom")):
            yield f"{path}: its master has written no status"
