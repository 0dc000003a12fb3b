"""Cases of the suite `clients`: a reader whose file is replaced, as behind a restart that makes its folder anew, and one with a greatest
width of its own, in each language.

`PROBE renewals` reads lines, and answers each at once:

    open KIND PATH [MAX_WIDTH]
        opens a reader of the file at a path (`mapped`, `unmapped`), with this greatest width: `open`, or `refused N`
    now
        a reading: `EPOCH WIDTH fresh` or `EPOCH WIDTH stale`, or `refused N`
    stamp
        a timestamp by a stamper over that reader, or `refused N`
    threads COUNT
        begins to read in so many threads, again and again: `started`
    end
        ends them: `EPOCH .. seen, N torn, N refused`, with the epochs that they read, the readings that have not the width of their epoch, and
        the refusals
    rest
        runs the language's collector, where it has one, and then says `rested`
    close
        closes the reader: `closed`

The files here have no drift, and an interval as wide as their epoch, so a reading that mixes two of them is seen. Those of an even epoch are by
CLOCK_MONOTONIC_RAW, those of an odd one by CLOCK_MONOTONIC.
"""
import contextlib
import os
import re
import time
from concurrent.futures import ThreadPoolExecutor

from harness.shared_file import MONOTONIC, NO_LIMIT, RAW, boot_id, file_of
from suites.clients import Reader, clock_shows, suite
from suites.clients_of_openings import KEEPS_DESCRIPTORS
from suites.clients_of_waits import wants

#: How long a reader may leave a path alone that it has looked at, with room for a busy host.
LOOK_S = 1.05
THREADS = 4


class Files:
    """Files at one path, each in place of the one before."""

    def __init__(self, room, name):
        os.mkdir(os.path.join(room, name))
        self.path = os.path.join(room, name, "time")
        self.boot = boot_id()

    def content(self, epoch, valid_for_s=0, usable_until=NO_LIMIT):
        """A file of this epoch, which is late after so long."""
        clock, span, valid_ns = MONOTONIC if epoch % 2 else RAW, (10**9, 10**9 + epoch), int(valid_for_s * 1e9)
        now, slewed = clock_shows(clock), clock_shows(MONOTONIC)
        second = (slewed, *span, 0, slewed + valid_ns, usable_until) if clock == RAW else None
        return file_of(1, (now, *span, now + valid_ns, usable_until, epoch, 1, 0), self.boot, clock, second)

    def put(self, content, mode=0o644, owner=None):
        """Puts a file there."""
        made = self.path + ".new"
        with open(made, "wb") as file:
            file.write(content)
        os.chmod(made, mode)
        if owner is not None:
            os.chown(made, owner, -1)
        os.replace(made, self.path)

    def kept(self, process):
        """The descriptors of a process for files at the path, and its mappings of such: of those that are gone, and of the one there."""
        counts = {"gone": 0, "there": 0}
        for name in os.listdir(f"/proc/{process}/fd"):
            with contextlib.suppress(FileNotFoundError):
                target = os.readlink(f"/proc/{process}/fd/{name}")
                if target.startswith(self.path):
                    counts["there" if target == self.path else "gone"] += 1
        descriptors = dict(counts)
        with open(f"/proc/{process}/maps", encoding="utf-8") as file:
            for words in map(str.split, file):
                if len(words) > 5 and words[5].startswith(self.path):
                    counts["there" if words[5:] == [self.path] else "gone"] += 1
        return descriptors, {state: counts[state] - descriptors[state] for state in counts}


def others(files, mine):
    """What is put in place of a file, and no reader may take: what it is, and how it is put there."""
    bad = mine + 40
    yield "another boot", lambda: files.put(files.content(bad).replace(files.boot, b"x" * 36))
    yield "another format", lambda: files.put(b"TTS1" + files.content(bad)[4:])
    yield "too short", lambda: files.put(files.content(bad)[:-1])
    yield "writable by others", lambda: files.put(files.content(bad), 0o646)
    if os.geteuid() == 0:
        yield "another owner", lambda: files.put(files.content(bad), owner=65_534)
    yield "no file", lambda: os.remove(files.path)

    def link():
        with open(f"{files.path}.target", "wb") as file:
            file.write(files.content(bad))
        os.symlink(f"{files.path}.target", files.path)
    yield "a link", link


def try_one(trial, name, kind, probe, files):
    """A reader of one kind, through all that may stand at its path."""
    def said(what, line, wanted):
        wants(trial, f"{name}: {kind}: {what}", probe.say, line, wanted)

    wants(trial, name, probe.say, "rest", "rested")  # it runs
    files.put(files.content(7, 2))
    late = time.monotonic() + 2
    said("a file", f"open {kind} {files.path}", "open")
    read = [probe.say("now"), files.put(files.content(8)), probe.say("now")]
    if time.monotonic() < late - 0.1:
        trial.equal(f"{name}: {kind}: a file, and another one while it is fresh", read[::2], ["7 7 fresh"] * 2)
    else:  # the host is busy
        time.sleep(LOOK_S)
    time.sleep(max(late - time.monotonic(), 0) + 0.05)
    looked = time.monotonic()
    said("a file in place of a late one", "now", "8 8 stale")
    files.put(files.content(9))
    now = probe.say("now")
    if time.monotonic() < looked + 0.9:
        trial.equal(f"{name}: {kind}: a second look within a second", now, "8 8 stale")
    for what, put in others(files, 9):
        put()
        time.sleep(LOOK_S)
        trial.check(f"{name}: {kind}: {what}", probe.say("now") in ("8 8 stale", "9 9 stale"), "it is read")
    os.remove(files.path)
    epoch = 10
    for what, content, wanted in [
            ("nothing is published any more", lambda: files.content(10, 60, 0), "refused 801"), ("a good one", lambda: files.content(11), "11 11 stale"),
            ("one past its last reading", lambda: files.content(12, 60, 1), "refused 1708"), ("a fresh one", lambda: files.content(13, 60), "13 13 fresh")]:
        files.put(content())
        time.sleep(LOOK_S)
        said(what, "now", wanted)
        epoch += 1
    said("it stays", "now", "13 13 fresh")


def try_keeping(trial, name, kind, probe, files):
    """A reader whose file is replaced again and again, also while threads read it: nothing is kept of those that are gone."""
    files.put(files.content(20))
    wants(trial, name, probe.say, f"open {kind} {files.path}", "open")
    wants(trial, name, probe.say, "now", "20 20 stale")
    for epoch in 21, 22:
        time.sleep(LOOK_S)
        files.put(files.content(epoch))
        wants(trial, f"{name}: {kind}", probe.say, "now", f"{epoch} {epoch} stale")
    wants(trial, name, probe.say, f"threads {THREADS}", "started")
    for epoch in 23, 24, 25:
        files.put(files.content(epoch))
        time.sleep(LOOK_S + 0.15)
    seen = probe.say("end")  # one of a busy host may miss some
    trial.check(f"{name}: {kind}: readings beside it", re.fullmatch("22( 23)?( 24)? 25 seen, 0 torn, 0 refused|22 23( 24)? seen, 0 torn, 0 refused", seen), seen)
    time.sleep(LOOK_S)
    wants(trial, f"{name}: {kind}: behind that", probe.say, "now", "25 25 stale")
    is_mapped = kind == "mapped"
    wanted = ({"gone": 0, "there": int(not is_mapped or name in KEEPS_DESCRIPTORS)}, {"gone": 0, "there": int(is_mapped)})
    for epoch in 26, 27:  # on a busy host a thread may be held up in the old file, which C then closes with the next one
        for _ in range(100):  # a collector may have to come
            probe.say("rest")
            kept = files.kept(probe.probe.pid)
            if kept == wanted:
                break
            time.sleep(0.02)
        if kept == wanted or epoch == 27 or is_mapped:
            break
        files.put(files.content(epoch))
        time.sleep(LOOK_S)
        wants(trial, f"{name}: {kind}: one more", probe.say, "now", f"{epoch} {epoch} stale")
    trial.equal(f"{name}: {kind}: descriptors and mappings", kept, wanted)
    wants(trial, name, probe.say, "close", "closed")
    wants(trial, name, probe.say, "now", "refused 1701")


@suite.case()
def replaced_files(trial):
    """Files that take the place of the one that is read: which of them are opened, when, and what is left open."""
    def attempt(of):
        number, ((name, words), kind, tried) = of
        with Reader(words, "renewals") as probe:
            tried(trial, name, kind, probe, Files(trial.room, f"replaced-{number}"))

    each = [(probe, kind, tried) for probe in trial.shared for kind in ("mapped", "unmapped") for tried in (try_one, try_keeping)]
    with ThreadPoolExecutor(8) as pool:
        list(pool.map(attempt, enumerate(each)))
    trial.note(f"{len(trial.shared)} languages, each mapped and not; {len(trial.result.wrong)} wrong")


@suite.case()
def readers_through_lives(trial):
    """A machine that is killed, and whose next life makes another file: each reader goes on by that."""
    machine = trial.fleet({"A": trial.masters(3)}, poll="100ms")["A"]
    with contextlib.ExitStack() as stack:
        opened = []
        for name, words in trial.shared:
            for kind in ("mapped", "unmapped"):
                probe = stack.enter_context(Reader(words, "renewals"))
                wants(trial, name, probe.say, f"open {kind} {machine.shared}", "open")
                opened.append((f"{name}: {kind}", probe))
        for life in 2, 3:
            for name, probe in opened:
                said = probe.say("now")
                trial.check(name, said.startswith(f"{life - 1} ") and said.endswith(" fresh"), f"{said!r} in life {life - 1}")
            machine.kill()
            os.remove(machine.shared)
            machine.start()
            machine.wait_until_ready()
            give_up = time.monotonic() + 10
            for name, probe in opened:
                while not (said := probe.say("now")).startswith(f"{life} ") and time.monotonic() < give_up:
                    time.sleep(0.05)
                trial.check(name, said.startswith(f"{life} ") and said.endswith(" fresh"), f"{said!r} in life {life}")
    trial.note(f"{len(opened)} readers through 2 restarts with another file; {len(trial.result.wrong)} wrong")


# How wide a reading is, the greatest width, and what is said of it.
WIDTHS = [(10, None, "10 10 fresh"), (10, 11, "10 10 fresh"), (10, 10, "10 10 fresh"), (10, 9, "refused 1824"), (0, 0, "0 0 fresh"), (1, 0, "refused 1824"),
          (1_000_000, 1_000_000, "1000000 1000000 fresh"), (1_000_001, 1_000_000, "refused 1824")]


def try_widths(trial, name, kind, probe, files):
    """Readings that are wide enough and too wide, and stamps by them."""
    for width, most, wanted in WIDTHS:
        files.put(files.content(width, 600))
        wants(trial, f"{name}: {kind}", probe.say, f"open {kind} {files.path}" + (f" {most}" if most is not None else ""), "open")
        wants(trial, f"{name}: {kind}: {width} wide of {most}", probe.say, "now", wanted)
        said = probe.say("stamp")
        is_right = said == wanted if wanted.startswith("refused") else said.isdecimal() and int(said) >= 10**9 + width
        trial.check(f"{name}: {kind}: a stamp, {width} wide of {most}", is_right, said)
    # One that was refused has used nothing up: a later one is no lower than the reading, and above the one before.
    files.put(files.content(5, 0.05))
    wants(trial, name, probe.say, f"open {kind} {files.path} 7", "open")
    time.sleep(0.06)
    before = int(probe.say("stamp"))
    for epoch, is_refused in (8, True), (7, False):
        files.put(files.content(epoch))
        time.sleep(LOOK_S)
        said = probe.say("stamp")
        trial.check(f"{name}: {kind}: stamps by file {epoch}", said == "refused 1824" if is_refused else int(said) > before, said)


@suite.case()
def greatest_widths(trial):
    """Readers and stampers with a greatest width; those of sessions are among the conversations."""
    def attempt(of):
        number, ((name, words), kind) = of
        with Reader(words, "renewals") as probe:
            try_widths(trial, name, kind, probe, Files(trial.room, f"widths-{number}"))

    each = [(probe, kind) for probe in trial.shared for kind in ("mapped", "unmapped")]
    with ThreadPoolExecutor(8) as pool:
        list(pool.map(attempt, enumerate(each)))
    trial.note(f"{len(trial.shared)} languages, {len(WIDTHS)} widths, each mapped and not; {len(trial.result.wrong)} wrong")
