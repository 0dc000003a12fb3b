"""A fleet goes from one version of the program to another one and back, as an operator does it, while users read, commit and stamp."""
import os
import re
import tempfile
import time
import typing

from harness import processes
from harness.program import in_top, read_text, run, write
from lab.fleet import Fleet
from lab.rollover import SOON_S, Say, Steps, answers
from lab.services import Machine, Master, wait_until
from lab.users import Users, rows_of, table

#: How long users go on: all changes have to be made by then.
USERS_S = 60.0
UNKNOWN_KEY, INVALID_ARGUMENTS = "refused 1802\n", "refused 1601\n"
NEEDED = {"machine": "0", "masters": '["127.0.0.1:1"]', "listen": '"127.0.0.1:0"', "state": '"state"'}


class Upgrade:
    """The steps of a change of versions, and how each machine's life goes on."""

    def __init__(self, fleet: Fleet, steps: Steps, users: Users):
        self.fleet, self.steps, self.users, self.began = fleet, steps, users, time.monotonic()
        self.epochs = {name: self.epoch(machine) for name, machine in fleet.machines.items()}

    @staticmethod
    def epoch(machine: Machine) -> int:
        return machine.sum_of("truetime_epoch")

    def masters(self, program: str, version: str) -> None:
        """One master after the other is started again by this program, and heard by each machine before the next."""
        for master in self.fleet.masters:
            with self.steps.step(f"{version} {master.name}"):
                self.change(master, program)
                before = self.heard(master)
                wait_until(lambda: all(now > then for now, then in zip(self.heard(master), before)), SOON_S, f"{master.name} is not heard")

    def heard(self, master: Master) -> list[int]:
        """How many rounds it answered, by machine."""
        return [answers(machine, master.source) for machine in self.fleet.machines.values()]

    def machines(self, program: str, version: str) -> None:
        """One machine after the other is started again by this program. Its epoch rises."""
        for name, machine in self.fleet.machines.items():
            with self.steps.step(f"{version} {machine.name}", restarts=name):
                self.change(machine, program)
                machine.wait_until_ready()
                wait_until(lambda: self.epoch(machine) > self.epochs[name], SOON_S, f"the epoch of {name} does not rise")
            self.epochs[name] = self.epoch(machine)

    @staticmethod
    def change(process: processes.Process, program: str) -> None:
        process.program = os.path.realpath(program)
        process.restart()

    def whole(self, old: str, new: str) -> None:
        """There and back, masters first, and machines first on the way back; a while of the old version alone before and behind that."""
        start = self.users.phases["start"]
        wait_until(lambda: start.readings and start.commits, SOON_S, "users read and commit nothing")
        for call, program, version in ((self.masters, new, "new"), (self.machines, new, "new"), (self.machines, old, "old"),
                                       (self.masters, old, "old")):
            phase, began = self.users.begin(f"{call.__name__} to {version}"), time.monotonic()
            call(program, version)
            phase.seconds = time.monotonic() - began
        self.users.begin("old again").seconds = max(0.0, self.began + USERS_S - time.monotonic())


def keys_unknown_to(program: str) -> typing.Iterator[str]:
    """The keys of docs/reference/settings.md that this program refuses as unknown, but for those of a master's table."""
    listed = read_text(in_top("docs/reference/settings.md")).partition("\nIn each table ")[0]
    with tempfile.TemporaryDirectory() as room:
        for key in re.findall(r"^\| `([a-z_]+)` \|", listed, re.MULTILINE):
            write(f"{room}/node.toml", "".join(f"{name} = {value}\n" for name, value in {**NEEDED, key: NEEDED.get(key, "1")}.items()).encode())
            if run([program, "serve", "--check", f"{room}/node.toml"]).said == UNKNOWN_KEY:
                yield key


def options_unknown_to(program: str, other: str) -> list[str]:
    """The options of `master` that the other program has, and this one has not."""
    known, wanted = (re.findall(r"^ +(?:-\w, )?(--[a-z-]+)", run([one, "master", "--help"]).said, re.MULTILINE) for one in (program, other))
    return sorted(set(wanted) - set(known))


def tell_settings(old: str, new: str, say: Say) -> list[str]:
    """What the programs do not know of one another's settings; what was wrong: an unknown one has to be refused, by its name."""
    wrong = []
    for name, program, other in ("old", old, new), ("new", new, old):
        keys, options = list(keys_unknown_to(program)), options_unknown_to(program, other)
        say(f"the {name} program refuses the keys: {', '.join(keys) or 'none'}; the options of master: {', '.join(options) or 'none'}")
        with tempfile.NamedTemporaryFile("w") as file:
            file.write("".join(f"{key} = {value}\n" for key, value in NEEDED.items()) + "not_yet = 1\n")
            file.flush()
            ran = run([program, "serve", "--check", file.name])
        if ran.answer != (UNKNOWN_KEY, 2) or f"{file.name}:5: not_yet" not in ran.error:
            wrong.append(f"the {name} program says of an unknown key: {ran.said}{ran.error}")
        ran = run([program, "master", "--source", "0", "--listen", "127.0.0.1:1", "--uncertainty", "1", "--not-yet", "1"])
        if ran.answer != (INVALID_ARGUMENTS, 2):
            wrong.append(f"the {name} program says of an unknown option: {ran.said}{ran.error}")
    return wrong


def tell_all(old: str, new: str, say: Say) -> list[str]:
    """All that is done; what was wrong."""
    wrong = tell_settings(old, new, say)
    with Fleet(old) as fleet:
        fleet.start_masters()
        fleet.start_machines()
        users = fleet.start_users(USERS_S)
        steps = Steps(fleet, fleet.machines, say)
        Upgrade(fleet, steps, users).whole(old, new)
        wrong += steps.end() + users.wait(USERS_S) + users.wrong + list(fleet.ended())
        say(table(rows_of(users.phases)))
        say(f"{users.history.number:,} commits, {users.history.wrong['violations']} out of order, {users.history.wrong['equal_stamps']} stamps twice")
        wrong += [f"{number} {what}" for what, number in users.history.wrong.items() if number]
        if not all(phase.readings and phase.commits for phase in users.phases.values()):
            wrong.append("users have ended before the changes, or were refused")
    return wrong
