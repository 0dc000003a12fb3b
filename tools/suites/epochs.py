"""Kills a machine at each system call that touches its epoch, and starts it on epoch files that it did not write.

A master in this script answers each poll, and keeps the epoch that the poll carries. By strace the machine is killed as it makes each of its
calls on the folder of its state, from a folder that is not there and from one that is; what is killed behind a call leaves what one leaves
that is killed before the next. After each, the next start has to answer, in a greater epoch than any that a poll or a client saw, and no
stamp may come twice.

Then the file holds each prefix of its text, the text with each byte changed, other versions and chance; is a folder, or another user's; and
the draft holds each prefix of its text. A start has to read the file exactly, or to refuse it by its number and leave it as it is. Of
two machines on one file the second has to be refused. The files of chance are by the seed.
"""
import contextlib
import itertools
import os
import random
import re
import shutil
import signal
import subprocess
import time

from harness.faults import NOBODY, FakeMaster, honest
from harness.processes import truetime
from harness.program import read, read_text, run, write
from harness.suite import Suite
from harness.wire import poll_in

suite = Suite(__name__)
MOST_EPOCHS = 2**64 - 1
SPELLED = re.compile(rb"tt-epoch 1 (0|[1-9][0-9]*)\n")


class Keeper(FakeMaster):
    """An honest master, which keeps the greatest epoch that a poll carried."""

    def __init__(self):
        self.greatest = 0
        super().__init__(Keeper.keep)

    def keep(self, poll):
        self.greatest = max(self.greatest, poll_in(poll).epoch)
        honest(self, poll)


class Epochs:
    """A machine whose epoch is tried, and what was seen of it."""

    def __init__(self, trial):
        self.program, self.room, self.master = trial.program, os.path.realpath(trial.room), trial.keep(Keeper())
        node = trial.node([self.master], wait="10ms", poll="10ms", workers=2, socket=None, status=None)
        self.state, self.epoch, self.draft, self.shared = map(node.path, ("state", "state/epoch", "state/epoch.new", "shared"))
        self.address, self.settings, self.serve = node.address, node.path("node.toml"), [self.program, *node.words]
        self.umask = os.umask(0o022)
        os.umask(self.umask)
        self.trace, self.stamps, self.greatest, self.wrong = os.path.join(trial.room, "trace"), set(), 0, []

    def start(self, **how):
        """Starts the machine and ends it with its input: what it wrote, and its status."""
        return run(self.serve, **how)

    def start_to_share(self):
        """The same, where its input ends once the thread of its shared file has begun."""
        return run(["sh", "-c", 'sleep 0.3 | "$0" "$@"', *self.serve])

    def live(self, what):
        """A life with a client, who commits twice. Its epoch and its stamps have to be new."""
        used = max(self.master.greatest, self.greatest)
        with subprocess.Popen(self.serve, stdin=subprocess.PIPE, stdout=subprocess.DEVNULL, stderr=subprocess.PIPE, text=True) as life:
            try:
                stamps = self.commit_twice(life)
                if self.stamps.intersection(stamps) or stamps[0] == stamps[1]:
                    self.wrong.append(f"{what}: the stamps {stamps} come twice")
                self.stamps.update(stamps)
            except (OSError, truetime.Refused) as fault:
                self.wrong.append(f"{what}: the next start does not answer: {fault}")
            said = life.communicate(timeout=10)[1]
        started = re.search(r"event=started machine=0 epoch=(\d+)", said)
        if not started or int(started[1]) <= used:
            self.wrong.append(f"{what}: epoch {started and started[1]} after {used}")
        self.greatest = max(self.greatest, int(started[1]) if started else 0)

    def commit_twice(self, life):
        end = time.monotonic() + 5
        while True:
            try:
                with truetime.Session(self.address, 5) as session:
                    return [session.commit(), session.commit()]
            except (OSError, truetime.Refused):
                if time.monotonic() > end or life.poll() is not None:
                    raise
            time.sleep(0.005)

    def traced(self, is_there, *words):
        """Starts it by strace, with a folder of its state or without: its status, and each call that was looked at, with what it has."""
        if not is_there:
            shutil.rmtree(self.state, ignore_errors=True)
            self.master.greatest = self.greatest = 0
        status = run(["strace", "-f", "-qq", "-y", "-o", self.trace, *words, *self.serve]).status
        return status, re.findall(r"^\d+ +(\w+)\((.*)", read_text(self.trace), re.M)

    def stop_everywhere(self, is_there):
        """Kills it as it makes each call on the folder of its state, with the folder or without; how many there are, and their names."""
        status, calls = self.traced(is_there, "-e", "trace=%file,%desc")
        if status != 0:
            self.wrong.append(f"under strace it ends with status {status}")
        below, stops = re.escape(self.state), 0
        paths = {path for _, words in calls for path in re.findall(rf'["<]({below}(?:/[^">]*)?)[">]', words)}
        names = sorted({name for name, words in calls if re.search(rf'["<]{below}[/">]', words)})
        only = [word for path in sorted(paths) for word in ("-P", path)]
        for name in names:
            for number in itertools.count(1):
                status, calls = self.traced(is_there, *only, "-e", f"trace={name}", "-e", f"inject={name}:signal=KILL:when={number}")
                self.live(f"killed at {name}, {number} of them")
                if status != -signal.SIGKILL:
                    break
                stops += 1
            if status != 0 or len(calls) >= number:
                self.wrong.append(f"{len(calls)} times {name}, and it is not killed at {number}: status {status}")
        return stops, names

    def judge(self, what, text, said, status):
        """What a start did of a file of this text has to be what its text says."""
        spelled = SPELLED.fullmatch(text)
        epoch = int(spelled[1]) if spelled and int(spelled[1]) <= MOST_EPOCHS else None
        wanted, left = (0, b"", b"tt-epoch 1 %d\n" % (epoch + 1)) if epoch is not None else (2, b"refused 1813\n", text), read(self.epoch)
        if epoch == MOST_EPOCHS:
            wanted = 2, b"refused 1814\n", text
        if (status, said, left) != wanted:
            self.wrong.append(f"{what} {text[:40]!r}: status {status}, {said!r}, and then {left[:40]!r}")

    def read_texts(self, texts):
        """Starts it on files of these texts, each with a name."""
        for what, text in texts:
            write(self.epoch, text)
            self.judge(what, text, *self.start()[:2])

    def leave_drafts(self):
        """A draft of any length is no epoch."""
        for length in range(18):
            write(self.epoch, b"tt-epoch 1 41\n")
            write(self.draft, b"tt-epoch 1 9999999"[:length])
            self.judge("with a draft", b"tt-epoch 1 41\n", *self.start()[:2])

    def be_a_folder(self):
        os.remove(self.epoch)
        os.mkdir(self.epoch)
        said, status, _ = self.start()
        if status not in (2, 4) or said not in (b"refused 1811\n", b"refused 1813\n") or os.listdir(self.epoch):
            self.wrong.append(f"a folder: status {status}, {said!r}")
        os.rmdir(self.epoch)

    def be_anothers(self):
        """Files of root, for a machine of another user: one that it may read, and one that it may not."""
        os.chmod(self.room, 0o755)
        os.chown(self.state, NOBODY, NOBODY)
        shutil.copy(self.program, os.path.join(self.room, "ttd"))
        serve, self.serve = self.serve, [os.path.join(self.room, "ttd"), *self.serve[1:]]
        for name in ("lock", "epoch.new"):
            with contextlib.suppress(FileNotFoundError):
                os.remove(os.path.join(self.state, name))
        for mode, wanted in ((0o644, (0, b"", b"tt-epoch 1 42\n")), (0o600, (4, b"refused 1811\n", b"tt-epoch 1 41\n"))):
            with contextlib.suppress(FileNotFoundError):
                os.remove(self.epoch)
            write(self.epoch, b"tt-epoch 1 41\n")
            os.chmod(self.epoch, mode)
            said, status, _ = self.start(user=NOBODY, group=NOBODY, extra_groups=[])
            if (status, said, read(self.epoch)) != wanted:
                self.wrong.append(f"a file of another user of mode {mode:o}: status {status}, {said!r}, and then {read(self.epoch)!r}")
        self.serve = serve
        shutil.rmtree(self.state)

    def be_two(self):
        """The second of two machines on one folder, at another address."""
        with subprocess.Popen(self.serve, stdin=subprocess.PIPE, stdout=subprocess.DEVNULL, stderr=subprocess.DEVNULL) as first:
            self.commit_twice(first)
            before, second = read(self.epoch), os.path.join(self.room, "second.toml")
            write(second, read_text(self.settings).replace(f"127.0.0.1:{self.address[1]}", "127.0.0.1:0").encode())
            ran = run([self.program, "serve", second, "--until-eof"])
            if (ran.status, ran.out, read(self.epoch)) != (2, b"refused 1815\n", before):
                self.wrong.append(f"a second machine: status {ran.status}, {ran.out!r}")
            self.commit_twice(first)
            first.communicate(timeout=10)

    def be_loose(self):
        """The log has to say which files others may write, and nothing of them where nobody else may."""
        shutil.rmtree(self.state, ignore_errors=True)
        with contextlib.suppress(FileNotFoundError):
            os.remove(self.shared)
        wanted = {self.state: 0o700, self.epoch: 0o600, os.path.join(self.state, "lock"): 0o600, self.shared: 0o644}
        self.start_to_share()
        for path, mode in wanted.items():
            if os.stat(path).st_mode & 0o777 != mode & ~self.umask:
                self.wrong.append(f"the mode of {path} is {os.stat(path).st_mode & 0o777:o}")
        for name, path, more in [("none", self.state, 0o55), *((name, path, more) for more in (0o20, 0o2) for name, path in (
                ("state", self.state), ("epoch", self.epoch), ("shared", self.shared)))]:
            os.chmod(path, wanted[path] | more)
            found = re.findall(rb"event=(\w+)_loose\n", self.start_to_share()[2])
            if found != ([name.encode()] if name != "none" else []):
                self.wrong.append(f"the log of a start with {name} loose: {found}")
            os.chmod(path, wanted[path])


def texts(chance):
    """Texts of epoch files, good and bad, with what they are."""
    good = b"tt-epoch 1 41\n"
    for length in range(len(good) + 1):
        yield "a prefix", good[:length]
    for at, old in enumerate(good):
        for value in sorted({old ^ 1 << bit for bit in range(8)} | set(b"\0 \n09-+.a\xff") - {old}):
            yield "a changed byte", good[:at] + bytes([value]) + good[at + 1:]
    for text in (b"tt-epoch 2 41\n", b"tt-epoch 0 41\n", b"tt-epoch 1 041\n", b"tt-epoch 1 +41\n", b"tt-epoch 1 41\r\n", b"tt-epoch 1 41\n\n",
                 b"tt-epoch 1 41 \n", b"tt-epoch 1  41\n", b"TT-EPOCH 1 41\n", b"\xef\xbb\xbf" + good, good * 2, bytes(32), bytes(4096),
                 *(b"tt-epoch 1 %d\n" % number for number in (0, 2**63, MOST_EPOCHS - 1, MOST_EPOCHS, MOST_EPOCHS + 1, 10**30))):
        yield "a text", text
    for _ in range(30):
        yield "chance", chance.randbytes(chance.choice((1, 14, 31, 32, 33, 1000)))


@suite.shares
def epochs(trial):
    yield Epochs(trial)


def stops(trial, is_there):
    os.makedirs(trial.shared.state, exist_ok=True)
    trial.shared.wrong.clear()
    number, calls = trial.shared.stop_everywhere(is_there)
    trial.note(f"killed at {number} calls of {' '.join(calls)}; {len(trial.shared.stamps)} stamps so far")
    yield from trial.shared.wrong


@suite.case(programs=("strace",))
def stops_without_a_folder(trial):
    return stops(trial, False)


@suite.case(programs=("strace",))
def stops_with_a_folder(trial):
    return stops(trial, True)


def on_an_epoch(trial, act, *words):
    """An act that begins with an epoch in the file."""
    shared = trial.shared
    os.makedirs(shared.state, exist_ok=True)
    write(shared.epoch, b"tt-epoch 1 41\n")
    shared.wrong.clear()
    act(shared, *words)
    yield from shared.wrong


def files_of_all_texts(trial):
    """Files of each text."""
    all_texts = list(texts(random.Random(trial.seed())))
    trial.note(f"{len(all_texts)} texts")
    return on_an_epoch(trial, Epochs.read_texts, all_texts)


@suite.family
def all_cases():
    yield "texts", files_of_all_texts
    for name, act in (("drafts", Epochs.leave_drafts), ("folder", Epochs.be_a_folder), ("two machines", Epochs.be_two),
                      ("loose files", Epochs.be_loose)):
        yield name, on_an_epoch, act


@suite.case(root=True)
def files_of_another_user(trial):
    return on_an_epoch(trial, Epochs.be_anothers)
