"""Runs the fleet of docs/OPERATING.md as it is written there: its commands make the keys, its files stand on the hosts, and each master is over a
chronyd of its host, by the file of docs/MASTERS.md for a host with a receiver."""
import os
import re
import time
import typing

from harness.processes import Fault
from harness.program import in_top, read_text, run, write
from lab.chronied import Chronied
from lab.folders import HEAD, WRONG
from lab.users import table

HEADING = "## Three data centres, five masters, sixty machines"
MACHINES = 60
#: How long it may take at most until all have heard all masters.
LONGEST_S = 60.0
#: The machine whose file stands in the document, and how far the numbers of the keys of two masters are apart.
SHOWN, APART = 17, 1000
#: How much further off the oscillator of each master's host is than that of the one before, in parts per million.
RATE = 5.0
#: How long a way takes from one data centre to another, in milliseconds.
WAYS = "*.dc1 *.dc2 5\n*.dc1 *.dc3 10\n*.dc2 *.dc3 10\n"


def section(heading: str = HEADING) -> str:
    """The part of OPERATING.md below this heading."""
    text = read_text(in_top("docs/OPERATING.md"))
    return text.partition(f"{heading}\n")[2].partition("\n## ")[0]


def master_file() -> str:
    """The file of a master there."""
    return one_block(section(), "SOURCE=0\n")


def chronyd_of_receiver() -> str:
    """The file of chronyd on a host with a receiver."""
    return one_block(read_text(in_top("docs/MASTERS.md")), "refclock SOCK")


def blocks_in(text: str) -> list[str]:
    """The blocks of code: lines behind four spaces."""
    return [re.sub(r"^    ", "", block, flags=re.MULTILINE).strip("\n") + "\n"
            for block in re.findall(r"(?:^(?:    .*)?\n)*(?:^    .*\n)(?:^(?:    .*)?\n)*", text, re.MULTILINE)]


def one_block(text: str, begins: str) -> str:
    """The one block of code that begins so."""
    found = [block for block in blocks_in(text) if block.startswith(begins)]
    if len(found) != 1:
        raise Fault(f"there are {len(found)} blocks that begin with {begins!r}")
    return found[0]


def make_keys(program: str, commands: str, folder: str) -> None:
    """Runs the commands with this program as `ttd`."""
    shim = f'ttd() {{ "{program}" "$@"; }}\n'
    made = run(["bash", "-euc", f"cd '{folder}'\n{shim}{commands}"], seconds=120)
    if made.status != 0:
        raise Fault(f"the commands for the keys end with status {made.status}: {made.error}")


def machine_of(shown: str, number: int, addresses: list[str]) -> str:
    """The file of a machine: that of the document, with its keys, and the tables of all masters."""
    head, tables = shown.partition("[[master]]")[::2]
    found = re.findall(r'address = "(.*):(\d+)"\nkey = (\d+)', tables)
    if found != [(address, "5701", str(SHOWN + APART * place)) for place, address in enumerate(addresses[:len(found)])] or not found:
        raise Fault(f"the tables of masters in the document are {found}")
    return head + "".join(f'[[master]]\naddress = "{address}:5701"\nkey = {number + APART * place}\n' for place, address in enumerate(addresses))


def fill(program: str, folder: str) -> int:
    """Fills a folder of hosts, as lab.folders reads it; how many masters there are."""
    text = section()
    commands, master, machine = one_block(text, "umask"), master_file(), one_block(text, "machine = 0\n")
    addresses = re.findall(r"10\.\d+\.0\.\d+", text.partition("**Keys.**")[0])
    keys = os.path.join(folder, "keys")
    os.mkdir(keys)
    make_keys(program, commands, keys)
    hosts = ["127.0.0.1 localhost"]
    for place, address in enumerate(addresses):
        name = f"master-{place}.dc{address.split('.')[1]}"
        said = master.replace("SOURCE=0", f"SOURCE={place}").replace(addresses[0], address)
        put(folder, name, f"{keys}/master-{place}.keys", "time.master", said)
        hosts.append(f"{address} {name}")
    for number in range(1, machines_of(program) + 1):
        name, centre = f"machine-{number}.dc{number % 3 + 1}", number % 3 + 1
        put(folder, name, f"{keys}/machine-{number}.keys", "db.toml", machine_of(machine, number, addresses))
        hosts.append(f"10.{centre}.1.{number} {name}")
    for number in range(machines_of(program) + 1, MACHINES + 1):
        os.remove(f"{keys}/machine-{number}.keys")
    os.rmdir(keys)
    write(os.path.join(folder, "hosts"), "".join(f"{line}\n" for line in hosts).encode())
    write(os.path.join(folder, "delays"), WAYS.encode())
    return len(addresses)


def machines_of(program: str) -> int:
    """How many machines run: those of the document, or a third of them where the program is unproved, which takes several times as long."""
    return MACHINES // 3 if program.endswith(".unproved") else MACHINES


def put(folder: str, host: str, keys: str, name: str, text: str) -> None:
    """Puts a host's two files into its folder."""
    os.mkdir(os.path.join(folder, host))
    os.rename(keys, os.path.join(folder, host, "keys"))
    os.chmod(os.path.join(folder, host, "keys"), 0o400)
    write(os.path.join(folder, host, name), text.encode())


def tell(program: str, folder: str, say: typing.Callable[[str], None]) -> list[str]:
    """Runs it until each machine has once read rightly and heard all masters; what was wrong. On a busy host its readings are too wide at times."""
    masters = fill(program, folder)
    with Chronied(program, folder) as lab:
        for place in range(masters):
            lab.start_chronyd(next(name for name in lab.hosts if name.startswith(f"master-{place}.")), chronyd_of_receiver(), RATE * place)
        machines, rows, end = lab.start(), dict[str, tuple[str, ...]](), time.monotonic() + LONGEST_S
        while (left := [one for one in machines if one.name not in rows or is_early(rows[one.name], masters)]) and time.monotonic() < end:
            rows.update((one.name, one.row()) for one in left)
        say(table([HEAD, *list(rows.values())[:3]]) + f"\nand {len(rows) - 3} more")
        if len(rows) != machines_of(program):
            return [f"{len(rows)} machines"]
        return [f"{row[0]}: {row[2]}, {row[3]} sources heard" for row in rows.values() if row[2:] != ("yes", str(masters))]


def is_early(row: tuple[str, ...], masters: int) -> bool:
    """Whether a machine that is looked at again may have more to show: one that read wrongly may not."""
    return row[2] != WRONG and row[2:] != ("yes", str(masters))
