"""Servers of NTP that are upset, each on hosts of its own: what becomes of the masters over them, and of readings."""
import os
import statistics
import time
import typing

from harness.ntp import Key, Says, kiss
from harness.processes import SECOND
from harness.program import write
from lab.masters import RECEIVER, Masters, NtpMaster, ahead_of_others, microseconds, until
from lab.services import Machine
from lab.users import Users

Wrong = typing.Iterator[str]
Say = typing.Callable[[str], None]

#: How often masters ask servers across a wire.
EVERY, OFTEN = "500ms", "200ms"
SOON_S = 15.0
SILENCES = {"unanswered": 2402, "refused": 2404, "stopped": 2405, "leap": 2406}
DAY_NS = 86_400 * SECOND


def wrong_of(users: Users) -> Wrong:
    """What users saw that was wrong, or that there was too little of it."""
    yield from users.wait()
    phase = users.phases["run"]
    yield from users.wrong
    if phase.readings < 100:
        yield f"{phase.readings} readings are few"
    if phase.lost:
        yield f"{phase.lost} readings and commits were lost"
    if out_of_order := users.history.wrong["violations"]:
        yield f"{out_of_order} commits are out of order"


def comes_to(master: NtpMaster, silence: int, seconds: float) -> Wrong:
    """The first server of a master comes to have this silence."""
    if wrong := until(lambda: master.of_server("silence") == silence, seconds, f"{master.name}: no silence {silence}"):
        yield f"{wrong}, but {master.of_server('silence')}: {master.end_of_log()[-300:]}"


def says(master: NtpMaster, event: str, **wanted: int) -> Wrong:
    """Its log has such a line."""
    if not any(all(line.get(name) == str(value) for name, value in wanted.items()) for line in master.said(event)):
        yield f"{master.name}: no line {event} with {wanted}: {master.end_of_log()[-300:]}"


def unsynchronised(program: str, say: Say) -> Wrong:
    """The two receivers of a server come to disagree, and it says that it is not synchronised: its master is silent, until they agree again.
    Readings go on, and are right."""
    with Masters(program, ["a", "b", "c", "m"]) as lab:
        servers = [lab.chronyd("a", RECEIVER, RECEIVER.replace("GPS", "DCF"), rate=20), lab.chronyd("b", RECEIVER), lab.chronyd("c", RECEIVER)]
        for server in servers:
            server.wait_until_synchronised()
        masters = [lab.master("m", lab.at(name), every=EVERY) for name in "abc"]
        users = lab.users(lab.machine("m"), 18)
        time.sleep(2)
        servers[0].receivers[1].ahead_s = 0.2
        yield from comes_to(masters[0], SILENCES["refused"], SOON_S)
        yield from until_silent(lab, masters[0])
        servers[0].receivers[1].ahead_s = 0
        yield from comes_to(masters[0], 0, SOON_S)
        yield from wrong_of(users)
        yield from says(masters[0], "master_silent", number=SILENCES["refused"])
        yield from says(masters[0], "master_answers")
        yield from lab.ended()
        say(f"unsynchronised: {users.phases['run'].readings} readings, {len(masters[0].said('master_silent'))} silences of its master")


def until_silent(lab: Masters, master: NtpMaster) -> Wrong:
    """It answers nothing for a second."""
    watch = lab.watch(master)
    time.sleep(1)
    watch.close()
    if seen := watch.seen[master.name].answers:
        yield f"{master.name} answers {seen} polls and has no time"


class Suspects:
    """Which sources a machine has ever suspected."""

    def __init__(self, machine: Machine):
        self.machine, self.seen = machine, set[int]()

    def look(self) -> None:
        numbers = self.machine.numbers()
        self.seen |= {source for source in range(5) if numbers.get(f'truetime_source_suspect{{source="{source}"}}')}


JUMP_PPM, JUMP_S, MARGIN_NS = 20, 32, 2_000_000
SETTLED_S = 6


def oscillator_jumps(program: str, say: Say) -> Wrong:
    """The oscillator of a chronyd jumps by 20 parts per million behind a poll, and the next is 64 s later: what it claims is wrong then. The
    master over it with a margin is right; the one without is a suspect once it is wrong by more than the width of a reading; readings are right."""
    with Masters(program, ["a", "b", "c", "m"]) as lab, ahead_of_others():
        first = [lab.chronyd(name, RECEIVER, rate=rate) for name, rate in (("a", 10), ("b", -10))]
        for server in first:
            server.wait_until_synchronised()
        jumper = lab.chronyd("c", *lab.server_lines("a", "b"), rate=30)
        jumper.wait_until_synchronised()
        plain, wide = lab.master("m", lab.at("c"), every=OFTEN), lab.master("m", lab.at("c"), every=OFTEN, margin=MARGIN_NS)
        for name in "aba":
            lab.master("m", lab.at(name), every=OFTEN)
        machine = lab.machine("m")
        time.sleep(SETTLED_S)
        users, watch, suspects = lab.users(machine, JUMP_S), lab.watch(plain, wide), Suspects(machine)
        jumper.poll_every(6)
        time.sleep(1)
        jumper.clock.run_by(30 + JUMP_PPM)
        end = time.monotonic() + JUMP_S - 1
        while time.monotonic() < end:
            suspects.look()
            time.sleep(0.2)
        watch.close()
        yield from wrong_of(users)
        seen, its_wide = (watch.seen[master.name] for master in (plain, wide))
        phase, ahead_ns = users.phases["run"], jumper.clock.ahead_ns()
        width = statistics.median(phase.widths)
        say(f"oscillator jumps: its clock is {microseconds(ahead_ns)} us ahead; without a margin {seen.wrong} of {seen.answers} answers are wrong, "
            f"by up to {microseconds(seen.worst_ns)} us, with one {its_wide.wrong} of {its_wide.answers}; suspects {sorted(suspects.seen)}; "
            f"{phase.readings:,} readings, {microseconds(width)} us wide")
        if not seen.wrong:
            yield "the jump made no answer wrong: nothing was tried"
        if its_wide.wrong or not its_wide.answers:
            yield f"with the margin {its_wide.wrong} of {its_wide.answers} answers are wrong"
        if suspects.seen - {0}:
            yield f"suspects are {sorted(suspects.seen)}"
        if seen.worst_ns > width and 0 not in suspects.seen:
            yield "the master without a margin is wrong by more than the width, and no suspect"
        yield from lab.ended()


#: Requests in 5 s at first; ntpsec bears 20 in a row.
AT_FIRST = 25


def too_often(program: str, say: Say) -> Wrong:
    """ntpsec says RATE to who asks too often: the pause doubles with each, and requests become fewer."""
    with Masters(program, ["a", "m"]) as lab:
        lab.ntpd("a", "restrict default limited kod")
        master = lab.master("m", lab.at("a"), every=OFTEN)
        if wrong := until(lambda: (master.of_server("requests_total") or 0) > AT_FIRST, 2 * SOON_S, f"{master.name}: few requests"):
            yield f"{wrong}: {master.end_of_log()[-300:]}"
            return
        time.sleep(5)
        before = master.of_server("requests_total")
        time.sleep(5)
        after = master.of_server("requests_total")
        say(f"too often: {after - before} requests in 5 s, of {AT_FIRST} at first")
        if after - before > AT_FIRST // 4:
            yield f"{after - before} requests in 5 s, where {AT_FIRST} were too many"
        if not master.of_server("kisses_total"):
            yield "no RATE is counted"
        yield from lab.ended()


def stopped(program: str, say: Say) -> Wrong:
    """A server says DENY, another one RSTR: each is asked no more, and its master is silent. A third one is asked once in 64 s, since nothing
    else is said."""
    with Masters(program, ["a", "b", "c", "m"]) as lab:
        servers, seldom = [lab.fake(name) for name in "ab"], lab.fake("c")
        masters = [lab.master("m", lab.at(name), every=EVERY) for name in "ab"]
        yield from comes_to(lab.master("m", lab.at("c")), 0, SOON_S)
        for master in masters:
            yield from comes_to(master, 0, SOON_S)
        for server, code in zip(servers, ("DENY", "RSTR")):
            server.says = kiss(code)
        for master in masters:
            yield from comes_to(master, SILENCES["stopped"], SOON_S)
        before = [len(server.requests) for server in servers]
        for server in servers:
            server.says = Says()
        time.sleep(3)
        after = [len(server.requests) for server in servers]
        say(f"stopped: {before} requests, and {after} three seconds later")
        if after != before:
            yield f"requests go on: {before}, then {after}"
        if len(seldom.requests) != 1:
            yield f"{len(seldom.requests)} requests in some seconds, where every 64 s is wanted"
        yield from lab.ended()


def leap_second(program: str, say: Say) -> Wrong:
    """A server announces a leap second, by a clock of its own that nears midnight: its master is silent from a minute before until the server
    has stepped."""
    with Masters(program, ["a", "m"]) as lab:
        server = lab.fake("a", Says(leap=1))
        master = lab.master("m", lab.at("a"), every=EVERY)
        yield from comes_to(master, 0, SOON_S)
        now = time.time_ns()
        to_midnight, began = DAY_NS - now % DAY_NS, time.monotonic()
        server.says = Says(leap=1, ahead_ns=to_midnight - 66 * SECOND)
        time.sleep(4)
        yield from comes_to(master, 0, 1)
        yield from comes_to(master, SILENCES["leap"], SOON_S)
        took = time.monotonic() - began
        say(f"leap second: silent after {took:.1f} s; 6 s are wanted, and up to a second more until that is written")
        if not 5 < took < 9:
            yield f"silent {took:.1f} s after the clock was 66 s before midnight"
        server.says = Says(leap=1, ahead_ns=to_midnight - 1 * SECOND)
        time.sleep(2)
        yield from comes_to(master, SILENCES["leap"], SOON_S)
        yield from until_silent(lab, master)
        server.says = Says(leap=0, ahead_ns=to_midnight + 5 * SECOND)
        yield from comes_to(master, 0, SOON_S)
        yield from lab.ended()


KINDS = ("sha1", "sha256")


def with_keys(program: str, say: Say) -> Wrong:
    """Masters that share a key of either kind with a chronyd answer; one that has another key under the same number is silent."""
    with Masters(program, ["a", "m"]) as lab:
        keys = [Key(number, kind, os.urandom(20)) for number, kind in enumerate(KINDS, 1)]
        others = [key._replace(secret=os.urandom(20)) for key in keys]
        for name, its_keys in (("server", keys), ("right", keys), ("wrong", others)):
            write(f"{lab.room}/{name}.keys", "".join(f"{key.line()}\n" for key in its_keys).encode())
            os.chmod(f"{lab.room}/{name}.keys", 0o600)
        lab.chronyd("a", RECEIVER, f"keyfile {lab.room}/server.keys").wait_until_synchronised()
        masters = {(name, key.kind): lab.master("m", lab.at("a"), every=EVERY, ntp_key=key.number, ntp_keys=f"{lab.room}/{name}.keys")
                   for name in ("right", "wrong") for key in keys}
        for (name, _), master in masters.items():
            yield from comes_to(master, 0 if name == "right" else SILENCES["unanswered"], SOON_S)
        time.sleep(2)
        for (name, kind), master in masters.items():
            if name == "right" and not master.of_server("replies_total"):
                yield f"no reply under the key of {kind}"
            if name == "wrong" and master.of_server("replies_total"):
                yield f"a reply under another key of {kind} was taken"
        taken = (f"{name} {kind} {master.of_server('replies_total')}" for (name, kind), master in masters.items())
        say(f"with keys: replies taken: {', '.join(taken)}")
        yield from lab.ended()


UPSETS: dict[str, typing.Callable[[str, Say], Wrong]] = {call.__name__: call for call in (
    unsynchronised, oscillator_jumps, too_often, stopped, leap_second, with_keys)}
