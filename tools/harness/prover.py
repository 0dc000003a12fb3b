"""The prover of the kit: how it is called on a crate of this repository, what a call took, and how many calls fit side by side."""
import contextlib
import functools
import os
import re
import shutil
import signal
import subprocess
import threading
import typing
from concurrent.futures import FIRST_COMPLETED, ThreadPoolExecutor, wait

from harness.processes import Fault
from harness.program import in_top

PARTS = ("src", "specs", "proofs")
# How long a check may take, so that a prover that hangs ends: three times the longest that was seen, on a slow machine.
LONGEST_CPU_S, LONGEST_S = 2_700, 3_600


@functools.cache
def kit() -> str:
    """The folder of the kit whose `rt` is on the path, or "" where there is none."""
    rt = shutil.which("rt")
    return os.path.dirname(os.path.dirname(os.path.realpath(rt))) if rt else ""


def missing_kit() -> str:
    """Why nothing can be proved here, or nothing."""
    return "" if kit() else "it wants rt"


def rattle() -> str:
    return f"{kit()}/bin/rattle"


@functools.cache
def kit_line() -> str:
    """What names the kit, and what tells whether its prover was replaced."""
    said = subprocess.run(["rt", "version"], capture_output=True, text=True, check=False).stdout.strip()
    found = os.stat(rattle())
    return f"{said} {found.st_size} {found.st_mtime_ns}"


@functools.cache
def check_help() -> str:
    said = subprocess.run([rattle(), "check", "--help"], capture_output=True, text=True, errors="replace", check=False)
    return said.stdout + said.stderr


def takes(flag: str) -> bool:
    """Whether a check of this kit takes this flag."""
    return bool(re.search(rf"^\s+{flag}\b", check_help(), re.MULTILINE))


# The crates, as crates.txt has them.

@functools.cache
def graph() -> dict[str, list[str]]:
    """Each crate, with what it stands on: crates, and libraries of the kit."""
    found = {}
    with open(in_top("crates.txt"), encoding="utf-8") as file:
        for line in file:
            head, _, rest = line.partition("#")[0].partition(":")
            if head.split():
                found[head.split()[0]] = rest.split()
    return found


def folder_of(crate: str) -> str:
    return in_top(f"crates/{crate}")


@functools.cache
def below(crate: str) -> tuple[str, ...]:
    """The crates that it stands on, each behind those that it stands on itself."""
    found: dict[str, None] = {}
    for name in graph()[crate]:
        if name in graph():
            found |= dict.fromkeys([*below(name), name])
    return tuple(found)


def files_of(folder: str) -> list[str]:
    """The files that a check of the crate in this folder reads."""
    return sorted(os.path.join(at, name) for part in PARTS for at, _, names in os.walk(f"{folder}/{part}") for name in names)


def has_tests(crate: str) -> bool:
    """Whether a file of the crate has a test."""
    for path in files_of(folder_of(crate)):
        with open(path, encoding="utf-8") as file:
            if path.endswith(".rt") and "\n#[test]" in file.read():
                return True
    return False


def rlib(crate: str) -> str:
    """Where `rt ci` and `rt lib` leave the library of a crate."""
    return f"{folder_of(crate)}/out/rlib/{crate}.rlib"


def of_kit(crate: str) -> list[str]:
    return ["std", *(name for name in graph()[crate] if name not in graph())]


def root_of(folder: str) -> str:
    return "src/main.rt" if os.path.isfile(f"{folder}/src/main.rt") else "src/lib.rt"


def words(crate: str, folder: str, over_sources: bool = False) -> list[str]:
    """The call that checks the crate whose text is in this folder, over the built libraries below it, or over their text."""
    call = [rattle(), "check", "--crate-name", crate, root_of(folder)]
    names = dict.fromkeys(of_kit(crate))
    if over_sources:
        names |= dict.fromkeys(["core", *(name for lower in below(crate) for name in of_kit(lower))])
    for name in names:
        call += ["--extern", f"{name}={kit()}/rlibs/{name}.rlib"]
    call += ["-L", f"dependency={kit()}/rlibs"]
    for lower in below(crate):
        if over_sources:
            uses = dict.fromkeys(["core", "std", *graph()[lower]])
            call += ["--lib", f"{lower}:{','.join(uses)}={folder_of(lower)}/src/lib.rt"]
        else:
            call += ["--extern", f"{lower}={rlib(lower)}"] if lower in graph()[crate] else []
            call += ["-L", f"dependency={os.path.dirname(rlib(lower))}"]
    call += ["--antt-project", f"{kit()}/rattle/logic/antt-project.json", "--logic-built", f"{kit()}/logic_built"]
    return call + ["--jobs", "1"] + (["--links", f"{crate}="] if takes("--links") else [])


# One call.

class Ran(typing.NamedTuple):
    """What a call wrote, its status (below 0 the signal that ended it, None where it took too long), and its processor seconds."""
    said: str
    status: int | None
    cpu_s: float


RUNNING: set[int] = set()
STOPPED = threading.Event()


def end(group: int) -> None:
    """Ends a call, with all that it started."""
    with contextlib.suppress(OSError):
        os.killpg(group, signal.SIGKILL)


def end_all() -> None:
    """Ends all calls that run, and lets none begin."""
    STOPPED.set()
    for group in [*RUNNING]:
        end(group)


def run(call: list[str], folder: str, on_line: typing.Callable[[str, int], None] | None = None) -> Ran:
    """Runs a call in a folder, and ends it where it takes too long. `on_line` is given each line, and the process."""
    if STOPPED.is_set():
        raise Fault("it was stopped")
    guarded = ["sh", "-c", f'ulimit -S -t {LONGEST_CPU_S}; ulimit -c 0; exec "$@"', "sh", *call]
    how = {"stdin": subprocess.DEVNULL, "stdout": subprocess.PIPE, "stderr": subprocess.STDOUT}
    with subprocess.Popen(guarded, cwd=folder, text=True, errors="replace", start_new_session=True, **how) as process:
        RUNNING.add(process.pid)
        late = threading.Event()
        timer = threading.Timer(LONGEST_S, lambda: (late.set(), end(process.pid)))
        timer.start()
        try:
            lines = []
            for line in process.stdout:
                lines.append(line)
                if on_line:
                    on_line(line, process.pid)
            _, status, usage = os.wait4(process.pid, 0)
        finally:
            timer.cancel()
            RUNNING.discard(process.pid)
            end(process.pid)
        process.returncode = os.waitstatus_to_exitcode(status)
    is_late = late.is_set() or process.returncode == -signal.SIGXCPU
    return Ran("".join(lines), None if is_late else process.returncode, usage.ru_utime + usage.ru_stime)


# Several calls side by side.

def number_in(path: str, pattern: str) -> int | None:
    with contextlib.suppress(OSError):
        with open(path, encoding="utf-8") as file:
            if found := re.search(pattern, file.read()):
                return int(found[1])
    return None


def lanes() -> int:
    """How many calls may run at once: RT_JOBS, or the processors, fewer by the quota of the control group."""
    if fixed():
        return fixed()
    most = len(os.sched_getaffinity(0))
    quota, period = (number_in("/sys/fs/cgroup/cpu.max", pattern) for pattern in (r"^(\d+)", r" (\d+)"))
    return max(1, min(most, quota // period)) if quota and period else most


def fixed() -> int:
    """The number in RT_JOBS, which sets memory aside as in `rt ci`, or 0."""
    number = os.environ.get("RT_JOBS", "")
    return int(number) if number.isdigit() else 0


def free() -> int:
    """The free memory in bytes, under the limit of the control group too."""
    found = [1024 * (number_in("/proc/meminfo", r"MemAvailable:\s+(\d+)") or 0)]
    limit, held = number_in("/sys/fs/cgroup/memory.max", r"^(\d+)"), number_in("/sys/fs/cgroup/memory.stat", r"anon (\d+)")
    if limit and held is not None:
        found.append(limit - held)
    return min(found)


@functools.cache
def lines_of(crate: str, ending: str) -> int:
    found = 0
    for path in files_of(folder_of(crate)):
        if path.endswith(ending):
            with open(path, "rb") as file:
                found += file.read().count(b"\n")
    return found


def need(crate: str) -> int:
    """The memory that a check of the crate from nothing may take, in bytes, as `rt ci` reckons it."""
    named = {name for lower in (crate, *below(crate)) for name in of_kit(lower)} - {"std"}
    kept = [f"{kit()}/rlibs/{name}.rlib/toolchain/checked.a" for name in named]
    loaded = min(5 * sum(os.path.getsize(path) for path in kept if os.path.isfile(path)), 2_500_000_000)
    lower = 80_000 * sum(lines_of(name, ".rt") for name in below(crate))
    return 1_000_000_000 + 1_000_000 * lines_of(crate, ".rt") + 200_000 * lines_of(crate, ".antt") + lower + loaded


class Task(typing.NamedTuple):
    """A call of this program, the memory that it takes, and how long it lasts beside the others."""
    call: typing.Callable[[], typing.Any]
    needs: float
    weight: float


def side_by_side(tasks: list[Task]) -> typing.Iterator[typing.Any]:
    """Runs tasks, the longest first, as many at once as processors and memory hold; what each gave, as they end."""
    left, running, room = sorted(tasks, key=lambda task: -task.weight), {}, 0.85 * free()
    with ThreadPoolExecutor(lanes()) as pool:
        try:
            while left or running:
                for task in [*left]:
                    held = sum(other.needs for other in running.values())
                    if len(running) < lanes() and (fixed() or not running or held + task.needs <= room):
                        left.remove(task)
                        running[pool.submit(task.call)] = task
                for ended in wait(running, return_when=FIRST_COMPLETED).done:
                    del running[ended]
                    yield ended.result()
        except BaseException:
            left.clear()
            end_all()
            raise
