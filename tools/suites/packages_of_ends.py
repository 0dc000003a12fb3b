"""How what packaging/run starts ends: by signals, by the end of that script, and by itself; also where the script is process 1."""
import contextlib
import os
import re
import signal
import subprocess
import time

from harness.faults import honest
from harness.program import in_top, read_text, run, write
from suites.packages import suite
from suites.wiring_checks import eventually

SCRIPT = in_top("packaging/run")
# What a host may add to the second in which a machine ends in order, beside the time for which some process waits for a processor. Its last
# line may be lost where that is most of the time: then it is tried again, so often at most, within so many seconds.
BUSY_S, TRIES, ALL_S = 0.5, 4, 60
# The limits of descriptors, soft and hard, with which the script is started, with no signal ignored.
SOFT, HARD = 1024, 4096
BEFORE = ["prlimit", f"--nofile={SOFT}:{HARD}", "env", "--default-signal"]


def again_and_again(script):
    """Both signals, one behind the other."""
    for number in (signal.SIGTERM, signal.SIGINT, signal.SIGINT, signal.SIGTERM):
        if script.poll() is None:
            script.send_signal(number)
        time.sleep(0.005)


# How an end is asked for, by the process of the script, and the status of that then.
ENDS = {
    "SIGTERM": (lambda script: script.send_signal(signal.SIGTERM), 0),
    "SIGINT": (lambda script: script.send_signal(signal.SIGINT), 0),
    "both": (again_and_again, 0),
    "SIGTERM to the group": (lambda script: os.killpg(script.pid, signal.SIGTERM), 0),
    "SIGINT to the group": (lambda script: os.killpg(script.pid, signal.SIGINT), 0),
    "the end of the script": (lambda script: script.kill(), -signal.SIGKILL),
}


def children_of(process):
    return list(map(int, read_text(f"/proc/{process}/task/{process}/children").split()))


def program_below(program, process):
    """The number of the process that runs this program, below this one or in its place; nothing where none is."""
    return next((number for number in (process, *children_of(process)) if os.readlink(f"/proc/{number}/exe") == program), None)


def in_session(session):
    """The processes of a session."""
    found = []
    for name in filter(str.isdigit, os.listdir("/proc")):
        try:
            fields = read_text(f"/proc/{name}/stat").rpartition(")")[2].split()
        except OSError:
            continue
        if fields[3] == str(session) and fields[0] != "Z":
            found.append(int(name))
    return found


def ignores(process):
    """The signals that a process ignores, of those that the script speaks of."""
    found = int(re.search(r"^SigIgn:\s*(\S+)$", read_text(f"/proc/{process}/status"), re.MULTILINE)[1], 16)
    return {number.name for number in (signal.SIGTERM, signal.SIGINT, signal.SIGXFSZ) if found >> number - 1 & 1}


def limits(process):
    """The limits of descriptors of a process, soft and hard."""
    found = re.search(r"^Max open files +(\d+) +(\d+)", read_text(f"/proc/{process}/limits"), re.MULTILINE)
    return int(found[1]), int(found[2])


def ends_of_pipe(process, pipe):
    """How many descriptors a process has of a pipe."""
    return sum(os.readlink(f"/proc/{process}/fd/{name}") == pipe for name in os.listdir(f"/proc/{process}/fd"))


class Below:
    """A machine below a script, whose end is seen."""

    def __init__(self, trial, name):
        self.node = trial.node(trial.scripts(*[honest] * 3), name)
        self.node.words.remove("--until-eof")
        self.name, self.tmp, self.running = self.node.program, self.node.path("tmp"), None
        os.mkdir(self.tmp)

    def run(self, *before):
        """Starts it behind these words, until it gives the time."""
        self.node.run([*BEFORE, f"TMPDIR={self.tmp}", *before], stdin=subprocess.DEVNULL, start_new_session=True)
        self.running = self.node.running
        self.node.wait_until_ready(30)

    def times_ended(self):
        """How often it ended in order, by its log."""
        return len(self.node.said("ended")) if os.path.exists(self.node.log) else 0


class Pretended(Below):
    """A program in the place of a machine, that ends with its input."""
    TEXT = """#!/bin/sh
>HERE/ready
read -r _
echo ended >>HERE/log
"""

    def __init__(self, trial, name):
        folder = os.path.join(trial.room, name)
        self.name, self.tmp, self.folder, self.running, self.program = os.path.realpath("/bin/sh"), f"{folder}/tmp", folder, None, f"{folder}/ttd"
        os.makedirs(self.tmp)
        write(self.program, self.TEXT.replace("HERE", folder).encode())
        os.chmod(self.program, 0o755)

    def run(self, *before):
        with contextlib.suppress(FileNotFoundError):
            os.remove(f"{self.folder}/ready")
        self.running = subprocess.Popen([*BEFORE, f"TMPDIR={self.tmp}", *before, self.program, "serve", "a"], stdin=subprocess.DEVNULL,
                                        stderr=subprocess.DEVNULL, start_new_session=True)
        eventually(lambda: os.path.exists(f"{self.folder}/ready"), 30)

    def times_ended(self):
        return len(read_text(f"{self.folder}/log").split()) if os.path.exists(f"{self.folder}/log") else 0


def wrong_start(machine, program):
    """What is wrong with a program that runs below the script: its signals, its limits, and who holds its input."""
    if (found := ignores(program)) != {"SIGTERM", "SIGINT", "SIGXFSZ"}:
        yield f"ignored are {sorted(found)}"
    if (found := limits(program)) != (HARD, HARD):
        yield f"descriptors: {found}"
    pipe, script = os.readlink(f"/proc/{program}/fd/0"), machine.running.pid
    found = {number: ends_of_pipe(number, pipe) for number in in_session(script)}
    if not pipe.startswith("pipe:") or found != {script: 1, program: 1}:
        yield f"ends of its input: {found} of {pipe}, script {script}, program {program}"
    if found := os.listdir(machine.tmp):
        yield f"files are left: {found}"


def stalled_s():
    """For how long some process has waited for a processor so far, in seconds; nothing where the kernel does not say."""
    try:
        return int(re.search(r"^some .* total=(\d+)$", read_text("/proc/pressure/cpu"), re.MULTILINE)[1]) / 1e6
    except (OSError, TypeError):
        return 0


def end_of(session, act):
    """Does what ends a session: in how many seconds that comes, without those of a busy host, and which of its processes are left."""
    began, stalled = time.monotonic(), stalled_s()
    act()
    while True:
        passed, left = time.monotonic() - began, in_session(session)
        seconds = passed - (stalled_s() - stalled)
        if not left or seconds > 4 or passed > 12:
            return max(0, seconds), left
        time.sleep(0.02)


def by_a_calm_host(call):
    """What a call says is wrong, once the host was not busy, or nothing is."""
    end = time.monotonic() + ALL_S
    for _ in range(TRIES):
        began, stalled = time.monotonic(), stalled_s()
        wrong = list(call())
        if not wrong or time.monotonic() > end or stalled_s() - stalled < (time.monotonic() - began) / 2:
            break
    return wrong


def wrong_end(machine, script, how):
    """What is wrong with a machine below this script that is ended so."""
    act, wanted = ENDS[how]
    before = machine.times_ended()
    machine.run(script)
    running = machine.running
    yield from wrong_start(machine, next(number for number in children_of(running.pid) if os.readlink(f"/proc/{number}/exe") == machine.name))
    seconds, left = end_of(running.pid, lambda: act(running))
    for number in left:
        os.kill(number, signal.SIGKILL)
    if left:
        yield f"{left} are left behind {seconds:.1f} s"
    elif seconds > 1 + BUSY_S:
        yield f"it takes {seconds:.1f} s"
    elif (lines := machine.times_ended() - before) != 1:
        yield f"ended {lines} times, by its log"
    if (status := running.wait()) != wanted:
        yield f"status {status}"


@suite.family
def by_signals():
    """A machine ends in order within a second of either signal and of the end of the script, and nothing of it is left."""
    def ends(trial, how):
        machine = Below(trial, "A")
        yield from by_a_calm_host(lambda: wrong_end(machine, SCRIPT, how))
        trial.holds(True, "")

    for how in ENDS:
        yield f"ends_by_{how.replace(' ', '_')}", ends, how


def wrong_ends(trial, script, how):
    """What is wrong with a program in the place of a machine below this script, that is ended so."""
    return wrong_end(Pretended(trial, f"{os.path.basename(script)}-program"), script, how)


# What a program does in the place of ttd, and the status of the script, with no signal and by SIGTERM once the program runs.
PROGRAMS = {
    "exit 0": (0, None), "exit 2": (2, None), "exit 3": (3, None), "exit 127": (127, None), "kill -KILL $$": (137, None), "kill -HUP $$": (129, None),
    "cat; exit 0": (None, 0), "cat; exit 3": (None, 3), "cat; sleep 0.3; exit 5": (None, 5), "cat; exit 127": (None, 143), "cat; kill -KILL $$": (None, 137),
}


def wrong_statuses(trial, script, *programs):
    """What is wrong with the status of the script, for these programs, and with the words that they get."""
    for number, does in enumerate(programs):
        alone, told = PROGRAMS[does]
        folder = os.path.join(trial.room, f"{os.path.basename(script)}-{number}")
        os.mkdir(folder)
        program = os.path.join(folder, "ttd")
        write(program, f'#!/bin/sh\necho "$*" >{folder}/words.new; mv {folder}/words.new {folder}/words; {does}\n'.encode())
        os.chmod(program, 0o755)
        with subprocess.Popen([*BEFORE, script, program, "serve", "a b"], stdin=subprocess.PIPE, stderr=subprocess.DEVNULL) as process:
            if not eventually(lambda: os.path.exists(f"{folder}/words")):
                yield f"{does}: it does not begin"
            if told is not None:
                time.sleep(0.1)
                if process.poll() is not None:
                    yield f"{does}: it ends without a signal"
                process.send_signal(signal.SIGTERM)
            try:
                status = process.wait(5)
            except subprocess.TimeoutExpired:
                process.kill()
                status = "none"
        if status != (alone if told is None else told):
            yield f"{does}: status {status}"
        if (words := read_text(f"{folder}/words")) != "serve a b --until-eof\n":
            yield f"{does}: words {words!r}"


@suite.case()
def statuses(trial):
    """The script ends with the status of the program, also where that ends behind a signal, and says how it is called."""
    yield from wrong_statuses(trial, SCRIPT, *PROGRAMS)
    for words in ([], ["ttd"]):
        ran = run([SCRIPT, *words])
        trial.equal(f"words {words}", (ran.said, ran.status, ran.error), ("", 2, "usage: run PROGRAM COMMAND [ARGUMENT..]\n"))
    ran = run([SCRIPT, f"{trial.room}/nothing", "serve", "a"])
    trial.check("a program that is not there", ran.status == 127 and "nothing" in ran.error, f"status {ran.status}: {ran.error}")
    trial.equal("another command", run([SCRIPT, trial.program, "read", "-"], b"now\n").answer, trial.command("read", "-").answer)


# The statuses of one start after the other, and for how long the script of a unit sleeps before it ends, in seconds.
STARTS = [(4, [1]), (4, [2]), (4, [4]), (2, []), (0, []), (3, []), (1, []), (4, [8]), (4, [16]), (4, [32]), (4, [60]), (4, [60])]


class Failing:
    """A program in the place of a machine in a unit, which ends at once, and a `sleep` that writes down what it is told and goes on so long."""
    TTD, SLEEP = "#!/bin/sh\nexit $(cat HERE/status)\n", '#!/bin/sh\necho "$1" >>HERE/slept\nexec FOR\n'

    def __init__(self, trial, script, lasts="true"):
        self.here = os.path.join(trial.room, f"{os.path.basename(script)}-{lasts[:5]}")
        self.script, self.pause, self.slept = script, f"{self.here}/run/pause", f"{self.here}/slept"
        os.makedirs(f"{self.here}/run")
        for name, text in (("ttd", self.TTD), ("sleep", self.SLEEP.replace("FOR", lasts))):
            write(f"{self.here}/{name}", text.replace("HERE", self.here).encode())
            os.chmod(f"{self.here}/{name}", 0o755)
        self.env = {**os.environ, "PATH": f"{self.here}:{os.environ['PATH']}", "RUNTIME_DIRECTORY": f"{self.here}/run"}

    def begin(self, status, command="serve", **env):
        """Starts it, to end with this status."""
        write(f"{self.here}/status", str(status).encode())
        write(self.slept, b"")
        environment = {key: value for key, value in {**self.env, **env}.items() if value is not None}
        return subprocess.Popen([*BEFORE, self.script, f"{self.here}/ttd", command, "a"], env=environment, stdin=subprocess.DEVNULL,
                                stderr=subprocess.PIPE, start_new_session=True)

    def end(self, status, command="serve", **env):
        """The status and the pauses of a start to its end, and what it said."""
        with self.begin(status, command, **env) as process:
            said = process.communicate(timeout=10)[1].decode()
        return process.returncode, list(map(int, read_text(self.slept).split())), said


def wrong_pauses(trial, script, *_):
    """What is wrong with the pauses of the script of a unit, by STARTS, and then with a file of the last one that says nothing."""
    failing = Failing(trial, script)
    for status, wanted in STARTS:
        if (found := failing.end(status)) != (status, wanted, "".join(f"<4>run: the next start is in {pause} s\n" for pause in wanted)):
            yield f"status {status}, {wanted}: {found}"
    for text in "", "x y\n", "7\n":
        write(failing.pause, text.encode())
        if (found := failing.end(4)[:2]) != (4, [1]):
            yield f"behind {text!r}: {found}"
    for what, command, env in ("another command", "master", {}), ("no unit", "serve", {"RUNTIME_DIRECTORY": None}):
        if (found := failing.end(4, command, **env)) != (4, [], ""):
            yield f"{what}: {found}"


def wrong_end_of_pause(trial, script, *_):
    """What is wrong with the end of a pause by a signal. The file then names the script, which packaging/await looks for."""
    failing = Failing(trial, script, "/bin/sleep 60")
    for number in signal.SIGTERM, signal.SIGINT:
        with failing.begin(4) as process:
            eventually(lambda: read_text(failing.slept))
            if (found := read_text(failing.pause).split()[:1]) != [str(process.pid)]:
                yield f"the file names {found} in place of {process.pid}"
            seconds, left = end_of(process.pid, lambda process=process, number=number: process.send_signal(number))
            for one in left:
                os.kill(one, signal.SIGKILL)
        if left or seconds > BUSY_S or process.returncode != 0:
            yield f"{number.name}: status {process.returncode} behind {seconds:.1f} s, and {left} are left"


@suite.case()
def pauses(trial):
    """The script of a unit sleeps longer with each start that a device refuses, up to a minute, and ends at once at a signal."""
    yield from wrong_pauses(trial, SCRIPT)
    yield from by_a_calm_host(lambda: wrong_end_of_pause(trial, SCRIPT))
    trial.holds(True, "")


# Scripts that are wrong: what stands in place of what, which check sees it, and what that says.
WRONG = {
    "kills the program": ("end() { exec 4>&-; }", 'end() { kill -KILL "$ttd"; }', wrong_ends, "SIGTERM", "ended 0 times"),
    "tells the program nothing": ("end() { exec 4>&-; }", "end() { :; }", wrong_ends, "SIGTERM", "are left"),
    "ends with status 0": ('exit "$status"', "exit 0", wrong_statuses, "exit 3", "exit 3: status 0"),
    "ends with status 0, behind a signal": ('exit "$status"', "exit 0", wrong_statuses, "cat; exit 3", "cat; exit 3: status 0"),
    "does not wait behind a signal": ('    [ -n "$told" ]\n', "    false\n", wrong_statuses, "cat; sleep 0.3; exit 5", "status 143"),
    "hears SIGTERM alone": ("end' INT TERM\n", "end' TERM\n", wrong_ends, "SIGINT", "status -2"),
    "leaves the soft limit": ('ulimit -S -n "$(ulimit -H -n)"\n', "", wrong_ends, "SIGTERM", f"descriptors: ({SOFT}, {HARD})"),
    "leaves SIGXFSZ": ("trap '' XFSZ\n", "", wrong_ends, "SIGTERM", "ignored are ['SIGINT', 'SIGTERM']"),
    "leaves SIGTERM": ("ignored='INT TERM'", "ignored=INT", wrong_ends, "SIGTERM to the group", "ignored are ['SIGINT', 'SIGXFSZ']"),
    "gives the other end away": ("<&3 3<&- 4>&- &", "<&3 3<&- &", wrong_ends, "the end of the script", "are left"),
    "sleeps as long each time": ("2 * last", "last", wrong_pauses, "", "status 4, [2]: (4, [1]"),
    "sleeps for hours": ("last < 30 ? 2 * last : 60", "2 * last", wrong_pauses, "", "status 4, [60]: (4, [64]"),
    "sleeps with each status": ('"$2 $status ${RUNTIME_DIRECTORY:+unit}" != "serve 4', '"$2 4 ${RUNTIME_DIRECTORY:+unit}" != "serve 4', wrong_pauses,
                                "", "status 2, []"),
    "sleeps outside of units": ("${RUNTIME_DIRECTORY:+unit}", "unit", wrong_pauses, "", "no unit"),
    "believes its file": ("    case $last in *[!0-9]*) last=0 ;; esac\n", "", wrong_pauses, "", "behind 'x y"),
    "sleeps on behind a signal": ('|| wait "$sleeper"\n', '|| wait "$sleeper"; wait "$sleeper"\n', wrong_end_of_pause, "", "are left"),
    "leaves who sleeps": ('{ kill "$sleeper"; status=0; }', "status=0", wrong_end_of_pause, "", "are left"),
    "names nobody": ('echo "$$ $pause"', 'echo "0 $pause"', wrong_end_of_pause, "", "the file names ['0']"),
    "holds both ends": ("\nexec 3<&-\n", "\n", wrong_ends, "SIGTERM", "ends of its input"),
    "holds the input by another process": ("exec 4>/proc/self/fd/3\n", "exec 4>/proc/self/fd/3\nsleep 60 3<&- &\n", wrong_ends, "the end of the script",
                                           "are left"),
}


@suite.family
def wrong_scripts():
    """Each of these scripts is seen to be wrong."""
    def seen(trial, old, new, check, which, says):
        text, script = read_text(SCRIPT), os.path.join(trial.room, "script")
        trial.equal("places", text.count(old), 1)
        write(script, text.replace(old, new).encode())
        os.chmod(script, 0o755)
        found = list(check(trial, script, which))
        trial.holds(any(says in what for what in found), f"it is not seen: {found}")

    for name, row in WRONG.items():
        yield f"one_that_{name.replace(' ', '_').replace(',', '')}", seen, *row


@suite.case()
def other_commands(trial):
    """A master takes the place of the script, with the limits and without SIGXFSZ, and any signal ends it."""
    for number in (signal.SIGTERM, signal.SIGINT, signal.SIGKILL):
        master = trial.master(0)
        master.kill()
        with subprocess.Popen([*BEFORE, SCRIPT, trial.program, *master.words], stdin=subprocess.DEVNULL, stderr=subprocess.PIPE) as process:
            trial.check("log of a master", b"event=master_started" in process.stderr.readline(), "it does not begin")
            trial.equal("program of a master", program_below(trial.program, process.pid), process.pid)
            trial.equal("signals that a master ignores", ignores(process.pid), {"SIGXFSZ"})
            trial.equal("descriptors of a master", limits(process.pid), (HARD, HARD))
            process.send_signal(number)
            trial.equal(f"a master, {number.name}", process.wait(5), -number)


# As process 1.
SPACES = ["unshare", "--pid", "--mount-proc", "--fork"]


def as_first(process):
    """The process that a call of `unshare` runs as process 1."""
    for number in children_of(process):
        if re.search(r"^NSpid:\s.*\s1$", read_text(f"/proc/{number}/status"), re.MULTILINE):
            return number
    return None


# The status of a machine and of a master whose process 1 gets the signal; where it is killed, `unshare` has one of its own.
ENDS_OF_FIRST = {signal.SIGTERM: ({0}, {143}), signal.SIGINT: ({0}, {143}), signal.SIGKILL: ({1, 137, -signal.SIGKILL}, ) * 2}


def wrong_end_of_first(outer, number, wanted):
    """What is wrong with the end of a process 1 that gets this signal, and of all below it."""
    first = eventually(lambda: as_first(outer.pid))
    seconds, left = end_of(outer.pid, lambda: os.kill(first, number))
    if left:
        os.kill(first, signal.SIGKILL)
    if (status := outer.wait()) not in wanted or left or seconds > 1 + BUSY_S:
        yield f"{number.name}: status {status} behind {seconds:.1f} s, and {left} are left"


def wrong_machine(machine, number):
    before = machine.times_ended()
    machine.run(*SPACES, SCRIPT)
    program = eventually(lambda: program_below(machine.name, as_first(machine.running.pid)))
    if (found := (ignores(program), limits(program))) != ({"SIGTERM", "SIGINT", "SIGXFSZ"}, (HARD, HARD)):
        yield f"a machine ignores {found[0]}, and has the limits {found[1]}"
    yield from (f"a machine, {what}" for what in wrong_end_of_first(machine.running, number, ENDS_OF_FIRST[number][0]))
    if (lines := machine.times_ended() - before) != int(number != signal.SIGKILL):
        yield f"a machine, {number.name}: ended {lines} times, by its log"


def wrong_master(trial, words, number):
    with subprocess.Popen([*BEFORE, *SPACES, SCRIPT, trial.program, *words], stdin=subprocess.DEVNULL, stderr=subprocess.PIPE,
                          start_new_session=True) as process:
        if b"event=master_started" not in process.stderr.readline():
            yield "a master does not begin"
        yield from (f"a master, {what}" for what in wrong_end_of_first(process, number, ENDS_OF_FIRST[number][1]))


@suite.case(root=True, programs=("unshare", ))
def process_one(trial):
    """As process 1 of its own namespace, as in a container: a machine ends in order within a second, a master at once. Without the script
    neither hears a signal."""
    machine = Below(trial, "A")
    for number in ENDS_OF_FIRST:
        yield from by_a_calm_host(lambda number=number: wrong_machine(machine, number))
    master = trial.master(0)
    master.kill()
    for number in ENDS_OF_FIRST:
        yield from by_a_calm_host(lambda number=number: wrong_master(trial, master.words, number))
    with subprocess.Popen([*BEFORE, *SPACES, trial.program, *master.words], stdin=subprocess.DEVNULL, stderr=subprocess.PIPE) as process:
        process.stderr.readline()
        os.kill(as_first(process.pid), signal.SIGTERM)
        time.sleep(0.5)
        trial.check("a master that is process 1 itself", process.poll() is None, "SIGTERM ends it: the script is no longer wanted")
        os.kill(as_first(process.pid), signal.SIGKILL)
