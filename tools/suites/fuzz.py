"""Gives the built program inputs that are changed by chance, and looks for answers that no format has.

It goes on for 10 seconds, or as many as --seconds says. The inputs begin with those of examples/ and tests/, are changed with a dictionary of the formats' words and numbers, and are kept where they brought an answer of a new shape. They are scripts,
spans, certificates, histories, answers in hex, settings, shared files and epoch files; and, for a service that runs, session lines, the
packets of strangers and the answers of a master.

Found is a status but 0, 2, 3 and 4, an end by a signal, a line on standard output that no format has, a run of more than five seconds, a reply
that is none, a reading that does not hold a time between two looks at the real-time clock around it, and a service that ends or does not
answer. The inputs that were found are left in a folder.
"""
import collections
import contextlib
import glob
import os
import random
import re
import shutil
import socket
import tempfile
import threading
import time
import tomllib

from harness.faults import FakeMaster, answer
from harness.processes import Fault, truetime
from harness.program import in_top, read, run, write
from harness.suite import Suite, seeds, total, wrong_in
from harness.users import reading_of

suite = Suite(__name__)
LONGEST_S, LONGEST_BYTES, MOST_KEPT = 5, 20_000, 2000
NUMBERS = [0, 1, 2, 7, 8, 9, 10, 15, 16, 17, 31, 32, 33, 63, 64, 65, 127, 128, 255, 256, 4095, 4096, 65535, 65536, 99_999, 100_000, 100_001, 10**9,
           2**31 - 1, 2**32 - 1, 2**32, 2**63 - 1, 2**63, 4 * 10**18 - 1, 4 * 10**18, 4 * 10**18 + 1, 2**64 - 1, 2**64]
WORDS = ["send", "answer", "forge", "deliver", "fuse", "read", "arrive", "stamp", "queue", "release", "restart", "lease", "machine", "event", "live", "do",
         "at", "source", "worker", "packet", "publication", "clock", "lo", "hi", "session", "number", "floor", "bytes", "sources", "faulty", "workers",
         "drift", "masters", "acts", "honest", "ahead 1", "behind 1", "silent", "garbage", "repeat", "sessions", "base", "rounds", "turns", "uncertainty",
         "lease_lo", "lease_hi", "span", "claim", "left", "right", "below", "above", "commit", "now", "after", "before", "committed", "listen", "state",
         "socket", "shared", "status", "stampers", "poll", "wait", "idle", "floor_ahead", "127.0.0.1:0", "0.0.0.0:1", "1ms", "10s", "1ns", "[[machine]]\n",
         "[[event]]\n", "[live]\n", "tt-epoch 1 ", "TTP1", "TTP2", "TTS1", "TTS2", "TTS3", '"', "'", '"""', "[", "]", "{", "}", "=", ",", "#", "\n", "\r\n", " ", "\t",
         "\\u0000", "0x", "1e9", "inf", "nan", "true", "1979-05-27T07:32:00Z", "\ufeff", "é", "%n%s%x", "../", "-", "+", "--"]
REFUSED = r"refused \d+\n"
N = r"\d+"
FUSED = rf"claim {N} {N}\nleft( {N})+\nright( {N})+\n((below|above) {N} {N} {N}\n)*"
PREMISE = rf"premise (kept|broken {N} {N} (drift|false))\n"
JUDGEMENT = rf"commits {N}\nviolations {N}\n(first {N} {N}\n)?(term_violations {N}\n(first_term {N} {N}\n)?equal_stamps {N}\n(first_equal {N} {N}\n)?)?"
REPORT = "".join(rf"{word} {N}\n" for word in ("events", "refused", "fusions", "readings", "wrong", "released", "violations"))
REPLY = re.compile(rf"now {N} {N}|yes|no|(committed|waiting) {N} {N}|refused {N}")

# What each command may write, and the inputs that it begins with.
FORMATS = {
    "run": rf"{REPORT}(suspect {N} {N} {N}\n)*{PREMISE}", "trace": rf"({N} [a-z]+( \w*)* -> [A-Z][a-z]+( {N})*( wrong)?\n)*{PREMISE}",
    "picture": r"<svg [\s\S]*</svg>\n", "fuse": rf"{FUSED}suspects( none|( {N})+)\n", "check": r"valid\n", "judge": JUDGEMENT,
    "age": rf"aged {N} {N}\n", "twin": rf"([a-z]+( \w*)*\n)*reading {N} {N} truth {N}\n", "serve": r"([^\n]+\n)+", "read": rf"now {N} {N}\n", "epoch": "",
}
OPTIONS = {"age": ["--sent", "500", "--got", "900", "--clock", "30000000900"], "twin": ["--event", "10", "--side", "low"]}


class Corpus:
    """The inputs of one kind, and how one is changed."""

    def __init__(self, chance, texts, is_text=True):
        self.chance, self.texts, self.is_text, self.shapes = chance, [text for text in texts if len(text) <= LONGEST_BYTES] or [b""], is_text, set()

    def draw(self):
        """An input, changed."""
        text = self.chance.choice(self.texts)
        for _ in range(self.chance.choice((1, 1, 2, 3, 5, 10))):
            text = self.change(text)[:LONGEST_BYTES]
        return text

    def word(self):
        chance = self.chance
        if self.is_text:
            return (str(chance.choice(NUMBERS)) if chance.random() < 0.4 else chance.choice(WORDS)).encode()
        return (chance.choice(NUMBERS) % 2**64).to_bytes(8, chance.choice(("big", "little")))

    def change(self, text):
        chance = self.chance
        first, last = sorted(chance.randrange(len(text) + 1) for _ in range(2))
        part = text[first:min(last, first + chance.choice((1, 4, 40, 400)))]
        how = chance.randrange(8)
        if how == 0:
            return text[:first] + self.word() + text[first:]
        if how == 1:
            return text[:first] + text[first + len(part):]
        if how == 2:
            return text[:first] + bytes([chance.randrange(256)]) + text[first + 1:]
        if how == 3 and self.is_text:  # a number for a number
            found = list(re.finditer(rb"\d+", text))
            spot = chance.choice(found) if found else None
            return text[:spot.start()] + str(chance.choice(NUMBERS)).encode() + text[spot.end():] if spot else text
        if how == 3:
            return text[:first] + self.word() + text[first + 8:]
        if how == 4:
            other = chance.choice(self.texts)
            return text[:first] + other[chance.randrange(len(other) + 1):]
        if how == 5:
            return text[:last] + part * chance.choice((1, 1, 2, 20)) + text[last:]
        if how == 6 and self.is_text:  # whole lines change places
            lines = text.splitlines(keepends=True)
            chance.shuffle(lines)
            return b"".join(lines) if chance.random() < 0.2 else b"".join(lines[:-1])
        return text[:first] + bytes([text[first] ^ 1 << chance.randrange(8)]) + text[first + 1:] if first < len(text) else text

    def keep(self, text, shape):
        """Keeps an input whose answer has a shape that none had."""
        if shape not in self.shapes and len(self.texts) < MOST_KEPT:
            self.shapes.add(shape)
            self.texts.append(text)


def first_texts():
    """The inputs of each command that stand in the repository."""
    texts = collections.defaultdict(list)
    scripts = [read(path) for pattern in ("examples/*.toml", "tests/cases/*/script.toml") for path in sorted(glob.glob(in_top(pattern)))]
    for command in ("run", "trace", "picture", "twin"):
        texts[command] += scripts
    for command, pattern in (("fuse", "*.spans"), ("judge", "*.history"), ("age", "*.hex")):
        texts[command] += [read(path) for path in sorted(glob.glob(in_top(f"examples/{pattern}")))]
    spans = read("examples/three.spans")
    texts["check"] = [spans + b"claim 5 15\nleft 0 1\nright 1 2\nbelow 0 4 1\nabove 16 20 1\nabove 21 4000000000000000000 0\n"]
    for path in sorted(glob.glob(in_top("tests/commands/*.toml"))):
        for case in tomllib.loads(read(path).decode()).get("case", ()):
            if case["words"] and case["words"][0] in FORMATS and isinstance(case.get("input"), str):
                texts[case["words"][0]].append(case["input"].encode())
    texts["serve"] = [b'machine = 0\nlisten = "127.0.0.1:5601"\nstate = "state"\nmasters = ["127.0.0.1:5701", "127.0.0.1:5702", "127.0.0.1:5703"]\n'
                      b'faulty = 1\nworkers = 32\ndrift = 200\npoll = "1s"\nwait = "50ms"\nfloor_ahead = "1s"\nidle = "60s"\nlease_lo = 0\n'
                      b'lease_hi = 4000000000000000000\nstampers = [0, 1]\nsocket = "socket"\nshared = "shared"\nstatus = "status"\n']
    texts["epoch"] = [b"tt-epoch 1 41\n", b"tt-epoch 1 18446744073709551614\n"]
    return texts


class LyingMaster(FakeMaster):
    """Answers the polls of the machine by packets that are changed by chance, at times by an honest one."""

    def __init__(self, chance):
        self.chance, self.answered, self.corpus = chance, 0, Corpus(chance, [bytes(40)], is_text=False)
        super().__init__(LyingMaster.lie)

    def lie(self, poll):
        self.corpus.texts[0] = honest = answer(poll)
        for _ in range(20):
            self.send(self.corpus.draw()[:1400])
            self.answered += 1
        if self.chance.random() < 0.3:
            self.send(honest)


class Fuzz:
    """What is tried, and what was found."""

    def __init__(self, trial, chance):
        self.program, self.chance, self.room = trial.program, chance, trial.room
        self.counts, self.found, self.kept = collections.Counter(), [], tempfile.mkdtemp(prefix="fuzz-")
        texts = first_texts()
        self.corpora = {name: Corpus(chance, texts[name]) for name in FORMATS if name != "read"}
        self.liar = trial.keep(LyingMaster(random.Random(chance.random())))
        masters = trial.masters(2)
        self.packets = [("127.0.0.1", int(master.address.split(":")[1])) for master in masters]
        self.machine = trial.fleet({"M": [*masters, self.liar]}, poll="20ms", wait="10ms", idle="2s")["M"]
        self.processes = [*masters, self.machine]
        shared, until = self.machine.path("shared"), time.monotonic() + 10
        while not os.path.isfile(shared) and time.monotonic() < until:  # a thread of its own writes it, maybe behind the first reading
            time.sleep(0.01)
        self.corpora["read"] = Corpus(chance, [read(shared)], is_text=False)
        self.lines = Corpus(chance, [b"now\n", b"after 5\nbefore 1\n", b"commit 1 0\ncommit 1 0\n", b"commit 7 4000000000000000000\nnow\n"])
        self.polls = Corpus(chance, [bytes.fromhex("54545032010000000000000000000001000000000000000" + "1"), b"TTP1\1\0\0\0" + bytes(7) + b"\1", bytes(40)], is_text=False)
        self.epoch = os.path.join(self.room, "state/epoch")
        os.mkdir(os.path.dirname(self.epoch))
        write(os.path.join(self.room, "epoch.toml"), f'machine = 0\nmasters = ["{masters[0].address}"]\nlisten = "127.0.0.1:0"\nstate = "{self.room}/state"\n'
              'wait = "10ms"\npoll = "10ms"\nworkers = 1\n'.encode())

    def report(self, name, text, why):
        path = os.path.join(self.kept, f"{name}-{len(self.found)}")
        write(path, text)
        self.found.append(f"{name}: {why}; {path}")

    def command(self, name):
        """One run of the program."""
        corpus, given = self.corpora[name], b""
        text = corpus.draw()
        words = [self.program, name, *OPTIONS.get(name, [])]
        if name == "epoch":
            words = [self.program, "serve", os.path.join(self.room, "epoch.toml"), "--until-eof"]
        elif name in ("serve", "read"):
            words += [os.path.join(self.room, "given"), *(["--check"] if name == "serve" else [])]
        else:
            given = text
        if words[-1].endswith("given") or name in ("serve", "epoch"):
            write(self.epoch if name == "epoch" else os.path.join(self.room, "given"), text)
        ran = run(words, given, LONGEST_S)
        said, status = ran.answer
        if status is None:
            self.report(name, text, f"runs for more than {LONGEST_S} seconds")
            return
        is_answer = re.fullmatch(FORMATS[name], said) if status in (0, 3) else re.fullmatch(REFUSED, said)
        if status not in (0, 2, 3, 4) or not is_answer:
            self.report(name, text, f"status {status}, {said[-200:]!r}")
        numbers = re.sub(r"\d+", lambda number: number[0] if said.startswith("refused") else "N" * min(len(number[0]), 3), said[:2000])
        corpus.keep(text, (status, numbers, re.sub(rb"\d+", b"", ran.err[:60])))

    def session(self):
        """Lines of a session, and as many replies as there are line feeds."""
        text = self.lines.draw()
        text = text[:text.rfind(b"\n") + 1] or b"\n"
        where = self.machine.address if self.chance.random() < 0.5 else self.machine.path("socket")
        with socket.socket(socket.AF_INET if isinstance(where, tuple) else socket.AF_UNIX) as door:
            door.settimeout(LONGEST_S)
            try:
                door.connect(where)
                sender = threading.Thread(target=send_all, args=(door, text))
                sender.start()
                replies = b"".join(iter(lambda: door.recv(65536), b"")).decode(errors="replace")
                sender.join()
            except OSError as fault:
                self.report("session", text, f"{fault!r}")
                return
        lines = replies.splitlines()
        if len(lines) != text.count(b"\n") or not all(map(REPLY.fullmatch, lines)):
            self.report("session", text, f"{text.count(10)} lines, and the replies {lines[-3:]}, {len(lines)} in all")
        self.lines.keep(text, tuple(re.sub(r"\d{5,}", "N", line) for line in lines[:4]))

    def strangers(self):
        """Packets for the masters, which go on."""
        with socket.socket(socket.AF_INET, socket.SOCK_DGRAM) as door:
            for _ in range(20):
                with contextlib.suppress(OSError):
                    door.sendto(self.polls.draw()[:1400], self.chance.choice(self.packets))

    def look(self):
        """The service still runs, and its reading is right."""
        for process in self.processes:
            if process.running.poll() is not None:
                raise Fault(f"{process.name} has ended with {process.running.returncode}: {process.end_of_log()}")
        with truetime.Session(self.machine.address, LONGEST_S) as session:
            got = reading_of(session)
            if got.is_wrong:
                self.report("reading", b"", str(got))

    def go_on(self, seconds):
        end, names = time.monotonic() + seconds, [*(name for name in FORMATS), "session", "session", "strangers"]
        while time.monotonic() < end and len(self.found) < 20:
            name = self.chance.choice(names)
            self.counts[name] += 1
            getattr(self, name)() if name in ("session", "strangers") else self.command(name)
            if self.chance.random() < 0.02:
                self.look()
        self.look()


def send_all(door, text):
    with contextlib.suppress(OSError):
        door.sendall(text)
        door.shutdown(socket.SHUT_WR)


@suite.case()
def inputs(trial):
    fuzz = Fuzz(trial, random.Random(trial.seed()))
    try:
        fuzz.go_on(trial.options.seconds or 10)
    except (Fault, OSError, truetime.Refused) as fault:
        fuzz.found.append(f"the service: {fault}")
    if not fuzz.found:
        shutil.rmtree(fuzz.kept)
    trial.note(f"{', '.join(f'{name} {number}' for name, number in sorted(fuzz.counts.items()))}, answers of the lying master {fuzz.liar.answered}")
    trial.count(inputs=sum(fuzz.counts.values()), shapes=sum(len(corpus.shapes) for corpus in fuzz.corpora.values()))
    return fuzz.found


@suite.last_line
def last_line(results):
    return f"{seeds(results)}{total(results, 'inputs')} inputs, {total(results, 'shapes')} shapes of answers, {wrong_in(results)} found"
