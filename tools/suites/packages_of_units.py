"""The units of the packages, in a copy of this host's root: when a machine counts as started, what looks after it, and what a reload does."""
import contextlib
import os
import re
import signal
import statistics
import subprocess
import threading
import time

from harness.processes import Fault
from harness.program import read_text, write
from suites.packages import TRIES, UNITS, USER, Host, host_of, running, suite, words_of
from suites.wiring_checks import eventually

SETTINGS, STATUS, EPOCH = "etc/truetime/a.toml", "run/truetime/a/status.prom", "var/lib/truetime/a/epoch"
SHARED = "run/truetime/a/time"
TIMER, WATCH = "truetime-watch@a.timer", ("ExecCondition", "ExecStart")
ASK = ["ttd", "ask", "127.0.0.1:5601", "now", "--retry", "0"]
# The triggers are those of other packages, and take long.
INSTALL = ["--no-triggers", "-i"]
RELOADS = 20
# What a busy host may add to a second.
BUSY_S = 1
# Lines of a file, each in the place of one of the example, for which a start ends with status 2.
BAD = {"machine = 9": "refused 1804", "machin = 0": "refused 1802", "machine = ": "refused 1801", "": "refused 1803",
       "machine = 0\nfaulty = 2": "refused 1806", "machine = 0\nkeys = \"/run/truetime/a/time\"": "refused 1817"}
GOOD = "machine = 0"
# The same of what a start finds, with the lines of the file of keys.
KEYS = "run/truetime/a/keys"
BAD_KEYS = {"7 short\n": "refused 2215", f"7 {'ab' * 32}\n7 {'cd' * 32}\n": "refused 2216", f"8 {'ab' * 32}\n": "refused 1827"}
# Reads again and again until its input ends: by a session, or by stamps over the shared file. Prints what is wrong, and the longest time
# without a reading whenever a session is there again, or the stamps are of another life.
CLIENT = """
import pwd, select, sys, time, truetime

def pause():
    if select.select([sys.stdin], [], [], 0.0005)[0]:
        sys.exit()

def readings():
    if sys.argv[1] == "session":
        with truetime.Session(("127.0.0.1", 5601), 5) as session:
            while True:
                yield session.now()
    last = 0
    with truetime.Client("/run/truetime/a/time", pwd.getpwnam("truetime").pw_uid) as client:
        stamper = truetime.Stamper(client)
        while True:
            given = stamper.stamp()
            if given.stamp_ns <= last:
                print("wrong: a stamp behind", last, given, flush=True)
            last = given.stamp_ns
            yield given

gap, last, life = 0, time.monotonic_ns(), None
while True:
    before = time.time_ns()
    try:
        for now in readings():
            moment, after = time.monotonic_ns(), time.time_ns()
            if now.latest_ns < before or now.earliest_ns > after:
                print("wrong:", now, before, after, flush=True)
            gap, last = max(gap, moment - last), moment
            if life != getattr(now, "epoch", 0):
                print("gap", gap if life is not None else 0, flush=True)
                gap, life = 0, getattr(now, "epoch", 0)
            pause()
            before = time.time_ns()
    except (OSError, truetime.Refused) as fault:
        if sys.argv[1] != "session":
            print("wrong:", repr(fault), flush=True)
        life = -1
        pause()
"""


def program_of(process):
    """The number of the process that is the program: this one, or one that it started; nothing where none is."""
    with contextlib.suppress(OSError):
        for number in (process, *map(int, read_text(f"/proc/{process}/task/{process}/children").split())):
            if os.readlink(f"/proc/{number}/exe").endswith(("/usr/bin/ttd", "/usr/bin/ttd (deleted)")):
                return number
    return None


class Unit:
    """An instance of an installed unit, whose commands are run as systemd runs them, without its sandbox."""
    main: subprocess.Popen | None = None

    def __init__(self, host, unit, instance="a"):
        self.host, self.instance, self.text = host, instance, read_text(f"{host.root}/{UNITS}/{unit}")
        self.user = USER if "\nUser=truetime\n" in self.text else []

    def commands(self, key):
        """The words of each command of a key."""
        for prefix, line in re.findall(rf"^{key}=([-+]*)(.*)$", self.text, re.MULTILINE):
            environment = [f"MAINPID={self.main.pid}"] if self.main else []
            yield [*environment, *([] if "+" in prefix else self.user), *words_of(line.replace("%i", self.instance))]

    def run(self, key):
        """Runs the commands of a key until one fails: what came of each."""
        ran = []
        for words in self.commands(key):
            ran.append(self.host.do(*words))
            if ran[-1].status != 0:
                break
        return ran

    @property
    def program(self):
        """The number of the process that is the program, below that of ExecStart or in its place; nothing where none is."""
        return program_of(self.main.pid) if self.main else None

    def begin(self):
        """Runs ExecStart, until the program runs."""
        self.main = None
        self.main = subprocess.Popen([*self.host.inside, *next(self.commands("ExecStart"))], stdin=subprocess.DEVNULL,
                                     stdout=subprocess.DEVNULL, stderr=subprocess.DEVNULL)
        eventually(lambda: self.main.poll() is not None or self.program)
        threading.Thread(target=self.main.wait, daemon=True).start()

    def start(self):
        """Starts it: what came of the last command of ExecStartPost."""
        self.begin()
        return self.run("ExecStartPost")[-1]

    def close(self):
        """Stops it."""
        if self.main:
            program = self.program
            self.main.send_signal(signal.SIGTERM)
            if program:
                os.kill(program, signal.SIGCONT)
            self.main.wait()

    def told(self, *keys):
        """Runs the commands of these keys until one fails: what came of the last one, and what systemctl was told."""
        log = f"{self.host.root}/systemctl.log"
        write(log, b"")
        for key in keys:
            ran = self.run(key)[-1]
            if ran.status != 0:
                break
        return ran, read_text(log).splitlines()

    def reload(self):
        """What came of the last command of ExecReload, and what systemctl was told. A restart is made."""
        ran, told = self.told("ExecReload")
        if told:
            self.close()
            self.start()
        return ran, told


def masters_on(host, stack):
    """Starts the three masters of the example of settings."""
    for source in range(3):
        stack.enter_context(running([*host.inside, *USER, "ttd", "master", "--source", str(source), "--listen", f"127.0.0.1:570{source + 1}",
                                     "--uncertainty", "1000000"]))


def put(host, line, *more):
    """The example of settings, with another line in place of its first one, and more."""
    text = read_text("packaging/node.toml").replace(GOOD, line).replace("\nlisten = ", "\n".join(["", *more, "listen = "]))
    write(f"{host.root}/{SETTINGS}", text.encode())


def put_without(host, key):
    """The example of settings without this one."""
    write(f"{host.root}/{SETTINGS}", re.sub(f"\n{key} = .*", "", read_text("packaging/node.toml")).encode())


def put_keys(host, lines):
    """The example of settings with masters whose polls are sealed under the key 7, and these lines in their file of keys."""
    text = read_text("packaging/node.toml")
    masters = re.search(r'^masters = \["(.*?)".*$', text, re.MULTILINE)
    text = text.replace(masters[0], f'keys = "/{KEYS}"') + f'[[master]]\naddress = "{masters[1]}"\nkey = 7\n'
    write(f"{host.root}/{SETTINGS}", text.encode())
    write(f"{host.root}/{KEYS}", lines.encode())
    host.do("chown", "truetime:truetime", f"/{KEYS}")
    host.do("chmod", "0600", f"/{KEYS}")


def installed(trial):
    """A host with the packages, the example of settings, and the folders of its machine; nothing where none can be made here."""
    if not (host := host_of(trial)):
        return None
    host.dpkg(trial, "install", *INSTALL, *host.bring(f"{trial.shared}/now"))
    put(host, GOOD)
    for folder, mode in (os.path.dirname(EPOCH), "0700"), (os.path.dirname(STATUS), "0755"):
        host.do("install", "-d", "-o", "truetime", "-g", "truetime", "-m", mode, f"/{folder}")
    return host


def age(host, seconds):
    """Status, shared file and last start are so old."""
    for path in (STATUS, SHARED, EPOCH):
        with contextlib.suppress(FileNotFoundError):
            os.utime(f"{host.root}/{path}", (time.time() - seconds, ) * 2)


def is_old(host, path):
    """Whether a file was not written for a minute."""
    return os.stat(f"{host.root}/{path}").st_mtime < time.time() - 60


@suite.case(root=True, programs=TRIES)
def ready(trial):
    """ExecStartPost ends once the machine gives the time, or the machine has ended."""
    if not (host := installed(trial)):
        return
    machine = trial.keep(Unit(host, "truetime@.service"))
    machine.begin()
    ended = []
    waiting = threading.Thread(target=lambda: ended.append(machine.run("ExecStartPost")[-1]))
    waiting.start()
    time.sleep(2.5)
    trial.equal("without masters", ended, [])
    with contextlib.ExitStack() as stack:
        masters_on(host, stack)
        waiting.join(20)
        trial.equal("with masters", [(*ran.answer, ran.error) for ran in ended], [("", 0, "")])
        trial.equal("asked then", host.do(*ASK).status, 0)
        machine.close()
        put(host, "machine = 9")
        began = time.monotonic()
        trial.equal("of a machine that has ended", (machine.start().status, machine.main.wait()), (1, 2))
        trial.between("seconds until that is told", 0, time.monotonic() - began, 5)
        write(f"{host.root}/{SETTINGS}", read_text(f"{host.root}/{SETTINGS}").replace("machine = 9", GOOD).replace(":5601", ":0").encode())
        last = machine.start()
        trial.equal("where the system chooses the port", (*last.answer, last.error), ("", 0, ""))
    trial.equal("a machine goes on whatever ExecStartPost says", re.findall("^ExecStartPost=(.)", machine.text, re.MULTILINE), ["-"])


@suite.case(root=True, programs=TRIES)
def watched(trial):
    """What the timer starts restarts a machine that stands still, and no other one."""
    if not (host := installed(trial)):
        return
    machine, watch = trial.keep(Unit(host, "truetime@.service")), Unit(host, "truetime-watch@.service")
    restart = ["try-restart truetime@a.service"]
    with contextlib.ExitStack() as stack:
        masters_on(host, stack)
        machine.start()
        eventually(lambda: host.exists(STATUS))
        age(host, 100)
        eventually(lambda: os.stat(f"{host.root}/{STATUS}").st_mtime > time.time() - 5)
        trial.equal("a machine that runs", watch.told(*WATCH)[1], [])
        host.do("mkdir", "-p", f"/{STATUS}.new/kept")
        time.sleep(2)
        age(host, 100)
        time.sleep(2)
        trial.equal("one whose status can't be written", (is_old(host, STATUS), is_old(host, SHARED), watch.told(*WATCH)[1]), (True, False, []))
        machine.close()
        put_without(host, "shared")
        os.remove(f"{host.root}/{SHARED}")
        machine.start()
        age(host, 100)
        trial.equal("the same without a shared file", (is_old(host, STATUS), watch.told(*WATCH)[1]), (True, []))
        host.do("rm", "-r", f"/{STATUS}.new")
        put(host, GOOD)
        machine.close()
        machine.start()
        os.kill(machine.program, signal.SIGSTOP)
        time.sleep(0.1)
        for seconds, wanted in (0, []), (63, []), (67, restart):  # ten rounds of half a second, and a minute
            age(host, seconds)
            ran, told = watch.told(*WATCH)
            trial.equal(f"one that stands still for {seconds} s", (ran.status, told), (0 if wanted else 1, wanted))
        put(host, GOOD, 'poll = "60s"')
        for seconds, wanted in (0, []), (660, []), (667, restart):
            age(host, seconds)
            trial.equal(f"a poll each minute, and no status for {seconds} s", watch.told(*WATCH)[1], wanted)
        os.utime(f"{host.root}/{EPOCH}")
        trial.equal("one that has just started", watch.told(*WATCH)[1], [])
    put(host, "machine = 9")
    ran, told = watch.told(*WATCH)
    trial.equal("settings that are refused", (ran.status, told), (2, []))
    put_without(host, "status")
    trial.equal("settings without a status", (watch.told(*WATCH)[0].status, watch.told(*WATCH)[1]), (1, []))


class Clients:
    """A session and a stamper in a host, as long as a block lasts; then `gaps` has the times without a reading of each, in milliseconds, and
    `wrong` what was wrong."""

    def __init__(self, host):
        self.gaps, self.wrong = {}, []
        self.running = {name: subprocess.Popen([*host.inside, "python3", "-c", CLIENT, name], stdin=subprocess.PIPE, stdout=subprocess.PIPE,
                                               text=True) for name in ("session", "stamper")}

    def __enter__(self):
        return self

    def __exit__(self, *_):
        time.sleep(0.5)
        for name, process in self.running.items():
            lines = process.communicate(timeout=20)[0].splitlines()
            self.gaps[name] = [int(line.split()[1]) / 1e6 for line in lines if line.startswith("gap")][1:]
            self.wrong += [f"{name}: {line}" for line in lines if not line.startswith("gap")]


def try_clients(trial, clients, reloads):
    """What clients saw of so many reloads; it is noted."""
    trial.equal("wrong readings and stamps, and stamps that were refused", clients.wrong, [])
    for name, gaps in clients.gaps.items():
        trial.equal(f"lives that the {name} saw", len(gaps), reloads)
    if all(len(gaps) == reloads for gaps in clients.gaps.values()):
        trial.note(f"{reloads} reloads: without a reading for, median and most, "
                   + ", ".join(f"a {name} {statistics.median(gaps):.0f} and {max(gaps):.0f} ms" for name, gaps in clients.gaps.items()))


@suite.case(root=True, programs=TRIES)
def reloaded(trial):
    """ExecReload restarts a machine whose file is good, and leaves one whose file is bad. Clients come back, and stampers go on."""
    if not (host := installed(trial)):
        return
    machine = trial.keep(Unit(host, "truetime@.service"))
    with contextlib.ExitStack() as stack:
        masters_on(host, stack)
        trial.equal("start", machine.start().answer, ("", 0))
        with Clients(host) as clients:
            time.sleep(0.5)
            for line, refusal in BAD.items():
                before = machine.main
                put(host, line)
                ran, told = machine.reload()
                trial.equal(f"{line!r}", (ran.said.strip(), ran.status, told, machine.main is before), (refusal, 2, [], True))
                trial.equal(f"{line!r}: asked then", host.do(*ASK).status, 0)
            for lines, refusal in BAD_KEYS.items():
                before = machine.main
                put_keys(host, lines)
                ran, told = machine.reload()
                trial.equal(f"{lines!r}", (ran.said.strip(), ran.status, told, machine.main is before), (refusal, 2, [], True))
            trial.equal("keys: asked then", host.do(*ASK).status, 0)
            for turn in range(RELOADS):
                put(host, GOOD, f"workers = {4 + turn % 2}")
                trial.equal("told", machine.reload()[1], ["--no-block restart truetime@a.service"])
        trial.equal("epoch", read_text(f"{host.root}/{EPOCH}"), f"tt-epoch 1 {1 + RELOADS}\n")
        status = eventually(lambda: "truetime_workers{machine=\"0\"} 5\n" in read_text(f"{host.root}/{STATUS}"))
        trial.check("settings", status, "the last life has others")
    try_clients(trial, clients, RELOADS)


# By systemd.

class Booted(Host):
    """A copy of this host's root whose process 1 is systemd, in namespaces of its own, with a group of its own."""
    MOUNTS = """
        mount --make-rprivate /
        mount -t tmpfs none "$1"
        mkdir "$1/upper" "$1/work" "$1/root"
        mount -t overlay none -o "lowerdir=/,upperdir=$1/upper,workdir=$1/work" "$1/root"
        cd "$1/root"
        mount -t proc proc proc
        mount -t sysfs -o ro sysfs sys
        mount -t cgroup2 cgroup2 sys/fs/cgroup
        for folder in run tmp dev; do mount -t tmpfs -o mode=755 tmpfs $folder; done
        chmod 1777 tmp
        mkdir dev/pts dev/shm .old
        mount -t devpts -o newinstance,ptmxmode=0666 devpts dev/pts
        ln -s pts/ptmx dev/ptmx
        for name in null zero full random urandom tty; do : >dev/$name; mount --bind /dev/$name dev/$name; done
        rm -rf usr/sbin/policy-rc.d etc/truetime var/lib/truetime etc/systemd/system/*.wants
        printf '[Unit]\\nDefaultDependencies=no\\nWants=systemd-journald.service\\n' >etc/systemd/system/only.target
        ip link set lo up
        pivot_root . .old
        umount -l .old
        exec env -i container=trial PATH=/usr/sbin:/usr/bin:/sbin:/bin /lib/systemd/systemd --system --unit=only.target --log-target=null
    """
    SPACES = ["--mount", "--net", "--pid", "--uts", "--ipc", "--cgroup"]

    def __init__(self, room):
        self.top, self.group = f"{room}/host", self.make_group()
        os.mkdir(self.top)
        enter_group = f'echo $$ >"{self.group}/cgroup.procs"; exec "$@"'
        self.holder = subprocess.Popen(["sh", "-c", enter_group, "sh", "unshare", *self.SPACES, "--fork", "--kill-child", "sh", "-ec", self.MOUNTS,
                                        "sh", self.top], stdin=subprocess.DEVNULL, stdout=subprocess.PIPE, stderr=subprocess.PIPE)
        first = eventually(lambda: read_text(f"/proc/{self.holder.pid}/task/{self.holder.pid}/children").split())
        self.root = f"/proc/{first[0] if first else 0}/root"
        self.enter = ["nsenter", f"--target={first[0] if first else 0}", *self.SPACES, "--root", "--wd"]
        self.inside = [*self.enter, *self.CLEAN]
        if not eventually(lambda: self.do("systemctl", "is-system-running").said == "running\n", 10):
            self.close()
            raise Fault("systemd does not start here")

    @staticmethod
    def make_group():
        """A group of its own for the processes of that systemd."""
        found = re.search(r"^\S+ (\S+) cgroup2 ", read_text("/proc/mounts"), re.MULTILINE)
        if not found or not os.path.exists("/lib/systemd/systemd"):
            raise Fault("there is no systemd, or no group of version 2")
        group = f"{found[1]}/truetime-{os.getpid()}"
        os.mkdir(group)
        return group

    def close(self):
        super().close()
        for folder, _, _ in os.walk(self.group, topdown=False):
            eventually(lambda folder=folder: os.rmdir(folder) is None)

    def systemctl(self, *words):
        """What systemctl says, and the status that it ends with."""
        ran = self.do("systemctl", *words)
        return ran.said.strip(), ran.status

    def process(self, unit="truetime@a"):
        """The number there of the process that a unit starts."""
        return self.systemctl("show", "-P", "MainPID", unit)[0]

    def program(self, unit="truetime@a"):
        """The number there of the process that is the program, below that one or in its place."""
        main = self.process(unit)
        return self.do("cat", f"/proc/{main}/task/{main}/children").said.strip() or main


def booted(trial):
    """A host with systemd and the packages, whose masters run, or nothing; that is noted."""
    try:
        host = trial.keep(Booted(trial.room))
    except (Fault, OSError) as fault:
        trial.note(f"left out: {fault}")
        return None
    ran = host.do("dpkg", *INSTALL, *host.bring(f"{trial.shared}/now"))
    trial.check("install", ran.status == 0, f"status {ran.status}\n{ran.said[-1500:]}{ran.error[-1500:]}")
    put(host, GOOD)
    for source in range(3):
        text = read_text("packaging/time.master").replace("SOURCE=0", f"SOURCE={source}").replace(":5701", f":570{source + 1}")
        text = text.replace("TIME=--ntp 127.0.0.1:123", "UNCERTAINTY=1000000")  # no chronyd answers there
        write(f"{host.root}/etc/truetime/m{source}.master", text.replace("/time/", f"/m{source}/").encode())
    host.systemctl("daemon-reload")
    trial.equal("masters", host.systemctl("start", *(f"truetime-master@m{source}" for source in range(3))), ("", 0))
    return host


@suite.case(root=True, programs=TRIES)
def by_systemd(trial):
    """The units as they are installed, with their sandboxes, by a systemd that runs as process 1 of namespaces of its own."""
    if not (host := booted(trial)):
        return
    trial.equal("start", host.systemctl("start", "truetime@a"), ("", 0))
    trial.equal("asked then", host.do(*ASK).status, 0)
    trial.check("status of a master", eventually(lambda: host.exists("run/truetime-master/m2/status.prom")), "none is written")
    trial.equal("timer", host.systemctl("is-active", TIMER)[0], "active")
    try_owners(trial, host)
    try_sandbox(trial, host)
    with Clients(host) as clients:
        time.sleep(0.5)
        trial.equal("reloads", {host.systemctl("reload", "truetime@a") for _ in range(RELOADS)}, {("", 0)})
    try_clients(trial, clients, RELOADS)
    trial.equal("timer behind reloads", host.systemctl("is-active", TIMER)[0], "active")
    before = host.process()
    put(host, "machine = 9")
    trial.equal("reload of a bad file", (host.systemctl("reload", "truetime@a")[1], host.process()), (1, before))
    put(host, GOOD)
    try_standing(trial, host)
    for which in (host.program, host.process):
        before = host.process()
        host.do("kill", "-KILL", which())
        trial.check("killed", eventually(lambda: host.process() not in (before, "0") and host.do(*ASK).status == 0), "it is not started again")
    try_masters(trial, host)
    try_stops(trial, host)
    age(host, 100)
    trial.equal("watch, stopped", host.systemctl("start", "truetime-watch@a"), ("", 0))
    trial.equal("stopped", host.systemctl("is-active", "truetime@a")[0], "inactive")
    trial.equal("timer, stopped", host.systemctl("is-active", TIMER)[0], "inactive")
    try_bad_files(trial, host)


FULL = """
mkdir -p /var/lib/truetime/a
mount -t tmpfs -o size=64k,mode=700 none /var/lib/truetime/a
chown truetime: /var/lib/truetime/a
head -c 70000 /dev/zero >/var/lib/truetime/a/full || :
"""


@suite.case(root=True, programs=TRIES)
def full_disk(trial):
    """A machine whose disk is full is started less and less often, is not up meanwhile, and is at once where somebody makes room and restarts it. A
    purge leaves the mount point, empty. A master comes to reach a server that is allowed it, as the smallest fleet of OPERATING says."""
    if not (host := booted(trial)):
        return
    trial.equal("set-property", host.systemctl("set-property", "truetime-master@ntp1", "IPAddressAllow=10.1.0.2"), ("", 0))
    allowed = host.systemctl("show", "-P", "IPAddressAllow", "truetime-master@ntp1")[0].split()
    trial.equal("allowed", sorted(allowed), ["10.1.0.2/32", "127.0.0.0/8", "::1/128"])
    trial.equal("full", host.do("sh", "-ec", FULL).status, 0)
    trial.equal("start", host.systemctl("start", "truetime@a")[1], 1)
    time.sleep(10)
    shown = dict(line.split("=", 1) for line in host.systemctl("show", "-p", "ActiveState", "-p", "NRestarts", "truetime@a")[0].split())
    trial.equal("state", shown["ActiveState"], "activating")
    trial.between("starts again in ten seconds", 2, int(shown["NRestarts"]), 3)
    os.remove(f"{host.root}/var/lib/truetime/a/full")
    trial.equal("restart", (host.systemctl("restart", "truetime@a"), host.do(*ASK).status), (("", 0), 0))
    trial.equal("purge", host.do("dpkg", "-P", "truetime").status, 0)
    trial.equal("behind the purge", host.do("find", "/var/lib/truetime", "-mindepth", "1").said, "/var/lib/truetime/a\n")


# What lies where a machine and its masters run: kind and mode, owner and group.
OWNERS = {
    "/etc/truetime": "drwxr-xr-x root root", "/var/lib/truetime": "drwxr-xr-x root root", "/run/truetime": "drwxr-xr-x root root",
    "/run/truetime-master": "drwxr-xr-x root root", "/run/truetime/a": "drwxr-xr-x truetime truetime",
    "/var/lib/truetime/a": "drwx------ truetime truetime",
    **{f"/var/lib/truetime/a/{name}": "-rw------- truetime truetime" for name in ("epoch", "lock")},
    **{f"/run/truetime/a/{name}": "-rw-r--r-- truetime truetime" for name in ("time", "status.prom", "evidence")},
    "/run/truetime/a/time.lock": "-rw------- truetime truetime", "/run/truetime/a/socket": "srwxr-xr-x truetime truetime",
    **{f"/run/truetime-master/m{source}": "drwxr-xr-x truetime truetime" for source in range(3)},
    **{f"/run/truetime-master/m{source}/status.prom": "-rw-r--r-- truetime truetime" for source in range(3)},
}


def try_owners(trial, host):
    """Whose the files, folders and sockets of a machine and of its masters are, and who else may do what with them. There is no other one."""
    folders = [path for path in OWNERS if path.endswith(("/truetime", "/truetime-master"))]
    trial.check("evidence", eventually(lambda: host.exists("run/truetime/a/evidence")), "none is written")
    found = host.do("find", *folders, "-printf", "%M %u %g %p\n").said.splitlines()
    # A file is written beside the one that it replaces.
    found = {path: rest for rest, _, path in (line.rpartition(" ") for line in found) if not path.endswith((".new", ".toml", ".master"))}
    trial.equal("owners and modes", sorted((found.items() ^ OWNERS.items())), [])
    said = host.do("journalctl", "--no-pager", "-o", "cat", "-u", "truetime@a").said
    trial.check("log", "event=" in said, f"the journal has no line of the machine: {said[:300]!r}")
    trial.equal("log: what others can write", re.findall(r"event=(\w+_loose)", said), [])


def try_sandbox(trial, host):
    """What the kernel lets the processes of the units do."""
    for unit, limit in ("truetime@a", "16384"), ("truetime-master@m0", None):
        process = host.program(unit)
        status = dict(line.split(":\t", 1) for line in host.do("cat", f"/proc/{process}/status").said.splitlines() if ":\t" in line)
        user = host.do("id", "-u", "truetime").said.strip()
        trial.equal(f"{unit}: user", set(status.get("Uid", "").split()), {user})
        trial.equal(f"{unit}: umask, new privileges, filter of calls", [status.get(key) for key in ("Umask", "NoNewPrivs", "Seccomp")], ["0022", "1", "2"])
        trial.equal(f"{unit}: capabilities", {int(status.get(key, "1"), 16) for key in ("CapInh", "CapPrm", "CapEff", "CapBnd", "CapAmb")}, {0})
        found = re.search(r"^Max open files +(\d+) +(\d+)", host.do("cat", f"/proc/{process}/limits").said, re.MULTILINE)
        ignored = int(status.get("SigIgn", "0"), 16)
        trial.equal(f"{unit}: signals that it ignores", [bool(ignored >> number - 1 & 1) for number in (signal.SIGXFSZ, signal.SIGTERM, signal.SIGINT)],
                    [True, *[unit == "truetime@a"] * 2])
        trial.check(f"{unit}: descriptors", found and limit in (None, found[1]) and limit in (None, found[2]), f"{found and found[0]}")


def try_stops(trial, host):
    """A machine that is stopped ends in order within a second, and a master at once; no process of theirs is left."""
    trial.equal("signals of the unit", host.systemctl("show", "-P", "KillMode", "truetime@a")[0], "mixed")
    for unit in "truetime-master@m2", "truetime@a":
        host.do("journalctl", "--sync")
        before, began = host.do("journalctl", "--no-pager", "-o", "cat", "-u", unit).said, time.monotonic()
        trial.equal(f"stop {unit}", host.systemctl("stop", unit), ("", 0))
        trial.between(f"stop {unit}: seconds", 0, time.monotonic() - began, 1 + BUSY_S)
        host.do("journalctl", "--sync")
        said = host.do("journalctl", "--no-pager", "-o", "cat", "-u", unit).said.removeprefix(before)
        trial.equal(f"stop {unit}: ended", said.count("event=ended"), int(unit == "truetime@a"))
        # A unit that failed is kept, with why.
        trial.equal(f"stop {unit}: result", host.systemctl("show", "-P", "Result", unit)[0], "success")


def try_masters(trial, host):
    """A master that is killed is started again, and the machine goes on meanwhile."""
    master = "truetime-master@m0"
    before, machine = host.process(master), host.process()
    host.do("kill", "-KILL", before)
    trial.check("a master that is killed", eventually(lambda: host.process(master) not in (before, "0")), "it is not started again")
    trial.equal("the machine of a master that is killed", (host.process(), host.do(*ASK).status), (machine, 0))


def try_bad_files(trial, host):
    """What ends with status 2 is not started again: the file stays as it is."""
    put(host, "machine = 9")
    text = read_text(f"{host.root}/etc/truetime/m0.master")
    write(f"{host.root}/etc/truetime/m0.master", text.replace("SOURCE=0", "SOURCE=-1").encode())
    for unit in "truetime@a", "truetime-master@m0":
        host.systemctl("stop", unit)
        host.systemctl("start", unit)
        is_failed = eventually(lambda unit=unit: host.systemctl("is-active", unit)[0] == "failed")
        shown = sorted(host.systemctl("show", "-p", "ExecMainStatus", "-p", "NRestarts", unit)[0].split())
        trial.equal(f"{unit}, with a bad file", (bool(is_failed), shown), (True, ["ExecMainStatus=2", "NRestarts=0"]))
        host.do("journalctl", "--sync")
        said = host.do("journalctl", "--no-pager", "-o", "cat", "-p", "err", "-t", unit).said
        trial.check(f"{unit}: why, among the errors of that name", "ttd: refused 1" in said, f"the journal has {said[-300:]!r}")


def try_standing(trial, host):
    """A machine that stands still is restarted by what looks after it."""
    before = host.program()
    trial.equal("watch", (host.systemctl("start", "truetime-watch@a"), host.program()), (("", 0), before))
    host.do("kill", "-STOP", before)
    time.sleep(0.1)
    age(host, 100)
    trial.equal("watch, standing still", host.systemctl("start", "truetime-watch@a"), ("", 0))
    trial.check("watch, standing still", host.program() not in (before, "0"), "it is not restarted")
    trial.equal("asked behind that", host.do(*ASK).status, 0)
