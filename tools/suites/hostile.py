"""Gives the built program bytes and words that are cut, changed, nested or long.

Each has to be answered, with status 0 or 3, or refused by a number, with status 2 and one line `refused N`, within 15 seconds of
processor time.
"""
import functools
import os
import re
import resource
import subprocess

from harness.program import read
from harness.suite import Suite

suite = Suite(__name__, at_once=os.cpu_count() or 1)
# How much processor time an answer may take, and when a command hangs, in seconds.
MOST_S, HANGS_S = 15, 120
REFUSAL = re.compile(rb"refused [0-9]+\n\Z")
AGE = ["age", "--sent", "500", "--got", "900", "--clock", "30000000900"]
NUMBERS = [0, 10, 34, 48, 57, 93, 125, 255]


def changed(text, values):
    """The text cut at every byte, and with each byte changed to each of the values."""
    for at in range(len(text)):
        yield text[:at]
        for value in values:
            if text[at] != value:
                yield text[:at] + bytes([value]) + text[at + 1:]


def large(script):
    """Texts that are nested, long, doubled, or no text at all."""
    yield b"a = " + b"[" * 1000 + b"]" * 1000
    yield b"a = " + b"{b = " * 1000 + b"1" + b"}" * 1000
    yield b"[" + b".".join([b"a"] * 1000) + b"]"
    yield b"event = [" + b"[], " * 200000 + b"]"
    yield b"a" * 1048576
    yield b"a" * 1048577
    yield b"\n" * 1048576
    yield b"span 0 1\n" * 100000
    yield b"\xff" * 1000
    yield b"\x00" * 1000
    yield script * 2
    yield script * 300


def answer_of(words, given):
    """What a command prints, and its status; a signal ends it where it takes longer than it may."""
    with subprocess.Popen(words, stdin=subprocess.PIPE, stdout=subprocess.PIPE, stderr=subprocess.DEVNULL) as started:
        resource.prlimit(started.pid, resource.RLIMIT_CPU, (MOST_S, MOST_S))
        try:
            out, _ = started.communicate(given, HANGS_S)
        except subprocess.TimeoutExpired:
            started.kill()
            out, _ = started.communicate()
    return out, started.returncode


def try_one(trial, words, given=b""):
    """Gives the program these words and this input."""
    out, status = answer_of([trial.program, *words], given)
    is_right = status in (0, 3) or (status == 2 and REFUSAL.fullmatch(out))
    trial.holds(is_right, f"status {status} and {out[:60]!r} to {[word[:60] for word in words[:8]]} and {given[:60]!r}")
    trial.count(tried=1)


def try_texts(trial, words, texts):
    for given in texts():
        try_one(trial, words, given)
    trial.note(f"{trial.result.counts['tried']} tried")


@suite.family
def all_texts():
    script, twin = read("examples/one-liar.toml"), ["twin", "--event", "10", "--side", "low"]
    for name, words, text, values in (
            ("answers in hex", AGE, read("examples/answer.hex"), range(0, 256, 5)), ("spans", ["fuse"], read("examples/three.spans"), range(0, 256, 3)),
            ("certificates", ["check"], read("examples/three.check"), NUMBERS), ("scripts", ["run"], script, NUMBERS),
            ("histories", ["judge"], read("examples/out-of-order.history"), NUMBERS), ("scripts to trace", ["trace"], script, [48]),
            ("scripts of twins", twin, script, [48])):
        yield name, try_texts, words, functools.partial(changed, text, values)
    for words in (["run"], ["trace"], ["judge"], ["fuse"], ["check"], AGE):
        yield f"large texts to {words[0]}", try_texts, words, functools.partial(large, script)


@suite.case()
def words(trial):
    for line in (AGE, ["fuse"], ["twin", "--event", "10", "--side", "low"], ["help", "age"]):
        for place in range(len(line)):
            for text in changed(line[place].encode(), [45, 48, 61, 65, 195, 255]):
                if b"\0" not in text:
                    try_one(trial, [*line[:place], os.fsdecode(text), *line[place + 1:]])
            try_one(trial, line[:place] + line[place + 1:])
            try_one(trial, line + line[place:])
    try_one(trial, ["fuse"] * 5000)
    try_one(trial, ["a" * 100000])
    trial.note(f"{trial.result.counts['tried']} tried")
