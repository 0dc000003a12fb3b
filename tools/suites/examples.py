"""Runs the commands that the documents show, with the built program, and compares what it answers with what they say.

Read are the commands of README.md, docs/PROVED.md and examples/README.md with the lines below them, the tables of the last, and the picture
docs/commit-wait.svg. Then standard error has to say where an input is refused, and why. The service of README.md is run in a network of its
own, and asked as stands there; nothing of it is left, nor of any command of README.md in a clone.
"""
import os
import re
import signal
import subprocess
import time

from harness.program import TOP, in_top, read_text, run
from harness.suite import Suite
from lab.documented import blocks_in

suite = Suite(__name__, at_once=os.cpu_count() or 1)
COUNTS = ["events", "refused", "fusions", "readings", "wrong", "released", "violations"]


def shown_in(document):
    """Each command of a document with its answer; the status is that of its last program."""
    lines = read_text(document).splitlines()
    for at, line in enumerate(lines):
        if line.startswith("    $ ./ttd "):
            answer = []
            for below in lines[at + 1:]:
                if not below.startswith("    "):
                    break
                answer.append(below[4:])
            yield line[6:].replace("./ttd ", "ttd "), answer, 0


def rows_below(heading):
    """The cells of the tables in this part of examples/README.md."""
    part = read_text("examples/README.md").split(f"\n## {heading}\n")[1].split("\n## ")[0]
    for line in part.splitlines():
        if line.startswith("| `"):
            yield [cell.strip() for cell in line.strip("|").split(" | ")]


def shown_in_examples():
    """Each command of examples/README.md with its answer and its status."""
    for command, answer in [*rows_below("Spans, certificates and one answer"), *rows_below("Histories of commits")]:
        status = re.search(r"status (\d)", answer)
        yield re.match("`([^`]*)`", command)[1], re.findall("`([^`]*)`", answer), int(status[1]) if status else 0
    for file, _, counts, last in rows_below("Scripts of runs"):
        answer = [f"{name} {count}" for name, count in zip(COUNTS, counts.split(", "))] + re.findall("`([^`]*)`", last)
        yield f"ttd run < examples/{file.strip('`')}", answer, 3 if answer[-1].startswith("premise broken") else 0
    for file, trace in rows_below("Traces"):
        yield f"ttd trace < examples/{file.strip('`')}", read_text(f"examples/{trace.strip('`')}").splitlines(), 0
    for side, _, last in rows_below("Twins"):
        yield f"ttd twin --event 11 --side {side.strip('`')} < examples/any-may-lie.toml | tail -n 1", [last.strip("`")], 0
    yield "ttd twin --event 9 --side low < examples/any-may-lie.toml", ["refused 1401"], 2
    yield "ttd picture < examples/commit-wait.toml", read_text("docs/commit-wait.svg").splitlines(), 0


# Words and input, where the answer goes, and what standard error has to say.
SAID = [
    ([], "", None, ["ttd: refused 1601", "Usage:", "picture"]),
    (["aged"], "", None, ["ttd: refused 1601", "'aged'", "Usage:"]),
    (["run", "--event", "1"], "", None, ["ttd: refused 1601", "--event"]),
    (["fuse"], "claim", None, ["ttd: refused 1603"]),
    (["fuse"], "faulty 0\nspan 1 2\n", "/dev/full", ["ttd: refused 1605"]),
    (["live"], "", None, ["ttd: refused 1302"]),
    (["fuse"], "faulty 0\nspan 1 2\nspan 4 3\n", None, ["ttd: refused 1603", "line 3", "out of order"]),
    (["fuse"], "faulty 0\nspan 1 2\nspan 3\n", None, ["line 3", "span LO HI"]),
    (["judge"], "commit 1 2 3\ncommit 2 1 3\n", None, ["ttd: refused 1603", "line 2"]),
    (["run"], "machine = [{ sources = 1, faulty = 0 }]\n", None, ["ttd: refused 1302", "machine 0", "workers"]),
    (["run"], "machine = [{ sources = 1, faulty = 0, workers = 1 }]\nevents = []\n", None, ["warning", "events"]),
    (["trace"], "machine = [{ sources = 1, faulty = 0, workers = 1 }]\nevent = [{ do = \"answer\", at = 1, packet = 0, lo = 9, hi = 5 }]\n",
     None, ["ttd: refused 1303", "event 0 (answer): hi", "not below lo"]),
    (["run"], "a =\n", None, ["ttd: refused 1301", "line 1"]),
    (["check"], read_text("examples/three-wrong.check"), None, ["ttd: refused 601", "source 0 is named twice"]),
]


def try_command(trial, command, answer, status):
    """A command that a document shows."""
    ran = run(["bash", "-c", f'ttd() {{ "$TTD" "$@"; }}; {command}'], seconds=120, cwd=TOP, env={**os.environ, "TTD": trial.program},
              stderr=subprocess.DEVNULL)
    trial.holds((ran.said.splitlines(), ran.status) == (answer, status), f"it ends with status {ran.status} and answers\n{ran.said}")
    trial.count(commands=1)


def try_error(trial, words, given, target, wanted):
    """What standard error says of a refusal."""
    with open(target or os.devnull, "wb") as output:
        ran = run([trial.program, *words], given.encode(), stdout=output)
    for text in wanted:
        trial.holds(text in ran.error, f"standard error lacks {text!r}: {ran.error!r}")
    trial.count(texts=1)


def hear_interrupts():
    """A program that is started in the background may have been told to ignore them."""
    signal.signal(signal.SIGINT, signal.SIG_DFL)


@suite.case(root=True, programs=("unshare", "nsenter", "ip"))
def service(trial):
    lines = [line.split("#") for line in read_text("README.md").splitlines() if line.startswith("    ./ttd --unproved ask ")]
    env = {**os.environ, "TTD": trial.program, "TMPDIR": trial.room}
    ran = subprocess.Popen(["unshare", "-n", "sh", "-c", 'ip link set lo up && exec "$0"', in_top("examples/service/run")], env=env, text=True,
                           stdout=subprocess.PIPE, stderr=subprocess.PIPE, preexec_fn=hear_interrupts)
    for command, said in lines:
        words = ["nsenter", "-n", "-t", str(ran.pid), trial.program, *command.split()[2:]]
        for _ in range(100):
            asked = run(words)
            if asked.status == 0:
                break
            time.sleep(0.1)
        form = re.sub("[A-Z]+", "[0-9]+", said.rpartition(": " if ": " in said else " now ")[2].strip())
        trial.holds(re.fullmatch(f"(now )?{form}\n", asked.said), f"{command.strip()} answers {asked.said!r}, {asked.error}")
    started = [read_text(f"/proc/{child}/cmdline").split("\0") for child in read_text(f"/proc/{ran.pid}/task/{ran.pid}/children").split()]
    stated = re.search("three masters .*? ± ([0-9]+) ms", read_text("README.md"), re.IGNORECASE | re.DOTALL)[1]
    uncertain = [words[words.index("--uncertainty") + 1] for words in started if words[1] == "master"]
    trial.equal("uncertainties of the masters", uncertain, [f"{stated}000000"] * 3)
    ran.send_signal(signal.SIGINT)
    told, error = ran.communicate(timeout=30)
    trial.holds(len(lines) == 2 and ran.returncode == 130 and "Ctrl-C" in told, f"status {ran.returncode}: {told}{error}")
    trial.equal("left", os.listdir(trial.room), [])
    trial.count(commands=1)


# A clone of what is in the repository now, with the built program as it keeps one that is not proved.
CLONE = """
git -C "$1" ls-files -z | (cd "$1" && xargs -0 cp --parents -t "$2")
cd "$2"
git init -q
git add -A
mkdir -p crates/ttd/out
cp "$3" crates/ttd/out/ttd.unproved
"""


def told_in_readme():
    """The commands of README.md that run the program, without proofs, and its example for Python, as lines of bash."""
    text = read_text("README.md")
    found = re.findall(r"^    (?:\$ )?(\./ttd .*)$", text, re.MULTILINE) + re.findall(r"`(\./ttd [^`]*<[^`]*)`", text)
    python = re.search(r"`PYTHONPATH=\S+ python3 -B`", text)[0].strip("`")
    example = next(block for block in blocks_in(text) if block.startswith("import truetime"))
    return [line.replace("./ttd ", "./ttd --unproved ").replace("--unproved --unproved", "--unproved") for line in found] + [
        f"{python} <<'END'\n{example}END"]


@suite.case(root=True, programs=("git", "unshare", "nsenter", "ip"))
def leaves_nothing(trial):
    """What README.md tells to run leaves no file in a clone, but in its folders `out`; nor does the service once it is ended."""
    clone, commands = os.path.join(trial.room, "clone"), told_in_readme()
    os.mkdir(clone)
    trial.equal("clone", run(["sh", "-ec", CLONE, "sh", TOP, clone, os.path.abspath(trial.program)], seconds=60).answer, ("", 0))
    env = {**os.environ, "TMPDIR": trial.room, "PYTHONDONTWRITEBYTECODE": ""}
    with subprocess.Popen(["unshare", "-n", "sh", "-c", "ip link set lo up && exec examples/service/run"], env=env, cwd=clone,
                          stdout=subprocess.DEVNULL, stderr=subprocess.DEVNULL, preexec_fn=hear_interrupts) as service:
        inside = ["nsenter", "-n", "-t", str(service.pid), "bash", "-c"]
        for _ in range(100):
            if run([*inside, next(line for line in commands if " now" in line)], cwd=clone).status == 0:
                break
            time.sleep(0.1)
        for command in commands:
            ran = run([*inside, command], seconds=30, cwd=clone, env=env)
            trial.check(command, ran.status == 0, f"status {ran.status}: {ran.said[-300:]}{ran.error[-300:]}")
        service.send_signal(signal.SIGINT)
    found = run(["git", "-C", clone, "status", "--porcelain", "--ignored"]).said.splitlines()
    trial.equal("files that are left", [line for line in found if not line.startswith("A ") and not line.endswith("/out/")], [])
    trial.check("commands", len(commands) >= 8, f"{len(commands)} are found")


@suite.family
def all_cases():
    for command, answer, status in [*shown_in("README.md"), *shown_in("docs/PROVED.md"), *shown_in("examples/README.md"), *shown_in_examples()]:
        yield command, try_command, command, answer, status
    for words, *rest in SAID:
        yield f"standard error of ttd {' '.join(words)}".strip(), try_error, words, *rest


@suite.last_line
def last_line(results):
    told = []
    for kind, what in (("commands", "commands of the documents"), ("texts", "texts on standard error"), ("pages", "looks at the reference pages")):
        of_kind = [result for result in results if result.counts[kind]]
        told.append(f"{len(of_kind)} {what}, {sum(len(result.wrong) for result in of_kind)} wrong")
    return "; ".join(told)
