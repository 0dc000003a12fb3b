"""Gives the built program the cases of tests/, and compares what it answers with what was worked out by hand.

Then each twin of each reading of these scripts, and of those in examples/, is made a script of its own, and `run` has to say of it that
nothing is refused, no reading is wrong and the premise is kept.

`tests/cases/NAME/` is a run: `script.toml`, and beside it answers. The status is 2 after `refused N`, 3 if the report ends with `premise
broken`, otherwise 0.

- `report`: of `ttd run`
- `trace`: of `ttd trace`, without its last line
- `twin-K-low`, `twin-K-high`: of `ttd twin --event K` on that side
- `picture`: parts of the answer of `ttd picture`, an empty line between two

`tests/commands/FILE.toml` has a table `[[case]]` for each command line:

- `what` it shows, and the `words`
- the `input` (or `input_hex`; with `times` that many times over), or the text of a `file`, which the word `FILE` names
- the `answer`, the `status` if it is not 0, and what standard error `says`

A `[[table]]` there has short inputs. They are files if `FILE` is one of the words.

- Each of its `rows` is a text between `head` and `tail`, a count of how often `repeat` stands there, or a list of further `words`. After it
  stands the number N of `refused N` (status 2; 4 for 2211), or 0 for an answer.
- Each of its `orders` is a first line and the keys after it; `lines` has of each key the right line and wrong ones. A text without a key is
  refused by 1302, one that ends with a wrong line by 1303, and one with all keys by `whole`, or not.
"""
import difflib
import glob
import os
import re
import tempfile
import tomllib

from harness.program import in_top, read, run
from harness.refusals import strange_sentences
from harness.suite import Suite, total, wrong_in

suite = Suite(__name__, at_once=os.cpu_count() or 1)


def compare(trial, words, wanted, answered):
    """Checks an answer and its status, or shows how they differ from those that are wanted."""
    lines = [text.decode(errors="replace").splitlines() for text in (wanted[0], answered[0])]
    shown = "" if wanted == answered else "\n".join(difflib.unified_diff(*lines, "wanted", "answered", lineterm="", n=1))
    trial.holds(wanted == answered, f"`ttd {' '.join(words)}` ends with status {answered[1]}, and {wanted[1]} is wanted\n{shown}")


def status_of(answer):
    """The status that belongs to an answer of `run` or `twin`."""
    if answer.startswith(b"refused ") and answer.count(b"\n") == 1:
        return 2
    return 3 if answer.splitlines()[-1].startswith(b"premise broken") else 0


def try_folder(trial, folder):
    """The answers of a run."""
    script = read(os.path.join(folder, "script.toml"))
    for file in sorted(set(os.listdir(folder)) - {"script.toml"}):
        wanted = read(os.path.join(folder, file))
        trial.count(answers=1)
        if file == "picture":
            drawn = run([trial.program, "picture"], script, 120)
            for block in wanted.rstrip(b"\n").split(b"\n\n"):
                trial.holds(block in drawn.out, f"no such part of the picture:\n{block.decode()}")
            trial.holds(drawn.status == 0, f"the picture ends with status {drawn.status}")
            continue
        if file == "trace":
            # Behind the lines of the events stands the last line of the report.
            words, status = ["trace"], 0
            wanted += run([trial.program, "run"], script, 120).out.splitlines(keepends=True)[-1]
        elif file == "report":
            words, status = ["run"], status_of(wanted)
        else:
            kind, event, side = file.split("-")
            words, status = [kind, "--event", event, "--side", side], status_of(wanted)
        compare(trial, words, (wanted, status), run([trial.program, *words], script, 120)[:2])


def run_on_file(program, words, text):
    """Runs a command with no input, and a file of this text for the word FILE."""
    with tempfile.NamedTemporaryFile() as file:
        file.write(text)
        file.flush()
        return run([program, *(file.name if word == "FILE" else word for word in words)], b"", 120)


def try_command(trial, case):
    """The answer of a command line."""
    given = bytes.fromhex(case["input_hex"]) if "input_hex" in case else case.get("input", "").encode()
    if "file" in case:
        ran = run_on_file(trial.program, case["words"], case["file"].encode())
    else:
        ran = run([trial.program, *case["words"]], given * case.get("times", 1), 120)
    # What `--check` says of the limit of descriptors is of this host.
    answered = re.sub(rb"^limit [0-9]+ [0-9]+\n", b"", ran.out, flags=re.MULTILINE), ran.status
    compare(trial, case["words"], (case["answer"].encode(), case.get("status", 0)), answered)
    trial.equal(f"{trial.result.case}: sentences", strange_sentences(ran.error), [])
    if "says" in case:
        trial.holds(case["says"].encode() in ran.err, f"standard error does not say {case['says']!r}: {ran.error}")
    trial.count(commands=1)


# The numbers of refusals after which the status is 4, since a file can't be read.
OF_DEVICES = [2211]


def rows_of(table):
    """The words and the text of each row of a table, with the number that refuses them, or 0."""
    head, tail = table.get("head", ""), table.get("tail", "")
    for row, number in table.get("rows", ()):
        further = row if isinstance(row, list) else []
        text = row if isinstance(row, str) else table["repeat"] * row if isinstance(row, int) else ""
        yield table["words"] + further, head + text + tail, number
    for first, *keys in table.get("orders", ()):
        text = f"{head}{first}\n"
        for key in keys:
            right, *wrong = table["lines"][key]
            yield table["words"], text, 1302
            yield from ((table["words"], f"{text}{line}\n", 1303) for line in wrong)
            text += f"{right}\n"
        yield table["words"], text, table.get("whole", 0)


def try_table(trial, table):
    """The refusals of a table, row by row."""
    for words, text, number in rows_of(table):
        ran = run_on_file(trial.program, words, text.encode()) if "FILE" in words else run([trial.program, *words], text.encode(), 120)
        trial.equal(f"{trial.result.case}: sentences", strange_sentences(ran.error), [])
        if number:
            is_right = ran[:2] == (f"refused {number}\n".encode(), 4 if number in OF_DEVICES else 2)
        else:
            is_right = ran.out != b"" and ran.status == status_of(ran.out) != 2
        trial.holds(is_right, f"`ttd {' '.join(words)}` of {text[-300:]!r} ends with status {ran.status}, "
                    f"and {number} is wanted\n{ran.said[:300]}")
        trial.count(rows=1)


# The keys of an event's line, behind its word and its true time.
KEYS = {
    "send": ["machine", "source", "clock"],
    "answer": ["packet", "lo", "hi"],
    "deliver": ["packet", "clock"],
    "fuse": ["machine", "clock"],
    "read": ["machine", "worker", "clock", "publication"],
}


def script_of(machines, lines):
    """The script of these machines, tables of TOML, and of the events that a twin's lines tell."""
    parts = []
    for machine in machines:
        parts += ["[[machine]]"] + [f"{key} = {machine[key]}" for key in ("sources", "faulty", "workers", "drift") if key in machine]
    for line in lines:
        word, at, *numbers = line.split(" ")
        parts += ["[[event]]", f'do = "{word}"', f"at = {at}"]
        parts += [f"{key} = {number}" for key, number in zip(KEYS[word], numbers, strict=True)]
    return "\n".join(parts).encode() + b"\n"


def try_twins(trial, path):
    """The runs of the twins that the readings of a script have."""
    text = read(path)
    script = tomllib.loads(text.decode())
    for event, told in enumerate(script.get("event", [])):
        for side in ("low", "high") if told["do"] == "read" else ():
            words = ["twin", "--event", str(event), "--side", side]
            twin = run([trial.program, *words], text, 120)
            if twin.status != 0:
                trial.holds(twin.out in (b"refused 1401\n", b"refused 1402\n"), f"{words}: {twin.out!r}")
                continue
            ran = run([trial.program, "run"], script_of(script["machine"], twin.said.splitlines()[:-1]), 120)
            is_right = ran.status == 0 and {b"refused 0", b"wrong 0", b"premise kept"} <= set(ran.out.splitlines())
            trial.holds(is_right, f"the twin of event {event}, {side}: {ran.said}")
            trial.count(twins=1)


def files(pattern):
    return sorted(glob.glob(in_top(pattern)))


@suite.family
def all_cases():
    folders = files("tests/cases/*")
    for folder in folders:
        yield os.path.basename(folder), try_folder, folder
    lists = [(os.path.basename(path), tomllib.loads(read(path).decode())) for path in files("tests/commands/*.toml")]
    for kind, attempt in (("case", try_command), ("table", try_table)):
        yield from ((f"{name}, {one['what']}", attempt, one) for name, listed in lists for one in listed.get(kind, ()))
    for path in [*(os.path.join(folder, "script.toml") for folder in folders), *files("examples/*.toml")]:
        yield f"twins of {os.path.relpath(path, in_top('')).removeprefix('tests/cases/')}", try_twins, path


@suite.whole
def runs(trial):
    trial.holds(total(trial.shared, "answers"), "there is none")


@suite.last_line
def last_line(results):
    runs = sum(result.counts["answers"] > 0 for result in results)
    return (f"{runs} runs with {total(results, 'answers')} answers, {total(results, 'commands')} commands, {total(results, 'rows')} rows, "
            f"{total(results, 'twins')} twins; {wrong_in(results)} wrong")
