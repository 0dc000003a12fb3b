"""The lines of the units and of the examples of settings, each against a list that was written by hand from what the documents say of them."""
import os
import re
import signal
import subprocess
import threading
import time
import tomllib

from harness.faults import Spoils, honest
from harness.program import in_top, read_text, run, write
from suites.packages import suite

# What keeps a service apart from the host: all have these.
APART = {
    "CapabilityBoundingSet": "", "NoNewPrivileges": "yes", "ProtectSystem": "strict", "ProtectHome": "yes", "PrivateTmp": "yes",
    "PrivateDevices": "yes", "ProtectClock": "yes", "ProtectHostname": "yes", "ProtectKernelTunables": "yes", "ProtectKernelModules": "yes",
    "ProtectKernelLogs": "yes", "ProtectControlGroups": "yes", "RestrictNamespaces": "yes", "RestrictRealtime": "yes",
    "RestrictSUIDSGID": "yes", "LockPersonality": "yes", "MemoryDenyWriteExecute": "yes", "SystemCallArchitectures": "native",
}
# What runs on has these, too: it reaches this host alone, sees no other user's processes, and gets no further call of the system.
ALONE = {
    **APART, "IPAddressDeny": "any", "IPAddressAllow": "localhost", "PrivateUsers": "yes", "ProtectProc": "invisible", "RemoveIPC": "yes",
    "SystemCallFilter": ["@system-service", "~@privileged @resources"],
}
ENDLESS = {"StartLimitIntervalSec": "0"}
STARTED_AGAIN = {"Restart": "on-failure", "RestartSec": "200ms", "RestartPreventExitStatus": "2"}
LOGGED = {"StandardOutput": "null", "StandardError": "journal", "SyslogLevel": "err", "SyslogIdentifier": "%N"}
STARTED_WITH_HOST = {"WantedBy": "multi-user.target"}
RUN = "/usr/libexec/truetime/run /usr/bin/ttd "
LOOK_AFTER = "Time service, look after machine %i"

# Each section of each unit; a key that stands there more than once has its values in their order.
WANTED = {
    "truetime@.service": {
        "Unit": {"Description": "Time service, machine %i", "Documentation": "man:ttd(1) man:node.toml(5) file:/usr/share/doc/truetime",
                 "After": "time-sync.target", "Wants": "truetime-watch@%i.timer", **ENDLESS},
        "Service": {
            "Type": "exec", "User": "truetime", "ExecStart": RUN + "serve /etc/truetime/%i.toml", "KillMode": "mixed",
            "TimeoutStopSec": "5s",
            "ExecStartPost": "-/usr/libexec/truetime/await /etc/truetime/%i.toml",
            "ExecReload": ["/usr/bin/ttd serve --check /etc/truetime/%i.toml", "+/usr/bin/systemctl --no-block restart truetime@%i.service"],
            **STARTED_AGAIN, **LOGGED, "RestartForceExitStatus": "3",
            "StateDirectory": "truetime/%i", "StateDirectoryMode": "0700",
            "RuntimeDirectory": "truetime/%i", "RuntimeDirectoryMode": "0755", "RuntimeDirectoryPreserve": "yes", "UMask": "0022",
            **ALONE, "RestrictAddressFamilies": "AF_INET AF_INET6 AF_UNIX", "ProcSubset": "all",
            "MemoryMax": "256M", "TasksMax": "80", "LimitNOFILE": "16384",
        },
        "Install": STARTED_WITH_HOST,
    },
    "truetime-master@.service": {
        "Unit": {"Description": "Time master %i", "Documentation": "man:ttd(1) file:/usr/share/doc/truetime", "After": "time-sync.target", **ENDLESS},
        "Service": {
            "Type": "exec", "User": "truetime", "Environment": ["TIME=--uncertainty", "UNCERTAINTY=", "OPTIONS="],
            "EnvironmentFile": "/etc/truetime/%i.master",
            "ExecStart": RUN + "master --source ${SOURCE} --listen ${LISTEN} $TIME $UNCERTAINTY $OPTIONS",
            **STARTED_AGAIN, **LOGGED, "RuntimeDirectory": "truetime-master/%i", "RuntimeDirectoryMode": "0755", "UMask": "0022",
            **ALONE, "RestrictAddressFamilies": "AF_INET AF_INET6", "ProcSubset": "pid", "MemoryMax": "64M", "TasksMax": "24",
        },
        "Install": STARTED_WITH_HOST,
    },
    "truetime-watch@.service": {
        "Unit": {"Description": LOOK_AFTER, **ENDLESS},
        "Service": {
            "Type": "oneshot", "User": "truetime", "ExecCondition": "/usr/libexec/truetime/stands-still /etc/truetime/%i.toml",
            "ExecStart": "+/usr/bin/systemctl try-restart truetime@%i.service", "LogLevelMax": "warning",
            **APART, "RestrictAddressFamilies": "AF_INET AF_INET6 AF_UNIX", "ReadWritePaths": "-/var/lib/truetime",
        },
    },
    "truetime-watch@.timer": {
        "Unit": {"Description": LOOK_AFTER, "PartOf": "truetime@%i.service", **ENDLESS},
        "Timer": {"OnActiveSec": "1min", "OnUnitActiveSec": "1min", "AccuracySec": "5s"},
    },
}
OTHERS = {
    "truetime.sysusers": ['u truetime - "Time service"'],
    "truetime.tmpfiles": ["d /run/truetime 0755 root root -", "d /var/lib/truetime 0755 root root -"],
    "debian/truetime.dirs": ["etc/truetime"],
}


# How long the scripts wait, and for what.
SCRIPTS = {
    "await": ["end=$(($(seconds) + 30))", "ttd ask \"$address\" now --retry 0 ", "    sleep 0.05\n", "kill -0 \"$MAINPID\"", " timeout 1 sh ",
              "echo \"<4>the machine of $1 gives no time yet\" >&2\nexit 1\n", "RES_OPTIONS='timeout:1 attempts:1' ttd serve --check"],
    "stands-still": ["limit=$((10 * round / 1000000000 + 60))\n",
                     "pause=/run/truetime/$(basename \"$1\" .toml)/pause\n",
                     "find \"$status\" ${shared:+\"$shared\"} \"$(of state)/epoch\" \"$pause\" -newermt \"-$limit seconds\"",
                     "timeout 5 ttd ask \"$address\" now --retry 0 ", "for _ in 1 2 3; do\n", "|| exit 2\n", "RES_OPTIONS='timeout:1 attempts:1' ttd serve --check"],
}
# The examples: all paths are in the folders of the units.
MACHINE = {
    "machine": 0, "masters": ["127.0.0.1:5701", "127.0.0.1:5702", "127.0.0.1:5703"], "listen": "127.0.0.1:5601",
    "state": "/var/lib/truetime/a", "shared": "/run/truetime/a/time", "socket": "/run/truetime/a/socket",
    "status": "/run/truetime/a/status.prom", "evidence": "/run/truetime/a/evidence",
}
MASTER = ["SOURCE=0", "LISTEN=127.0.0.1:5701", "TIME=--ntp 127.0.0.1:123", "OPTIONS=--status /run/truetime-master/time/status.prom"]


def lines_of(name):
    """The lines of a file of packaging/ that say something."""
    return [line for line in read_text(f"packaging/{name}").splitlines() if line and not line.startswith("#")]


def settings_of(name):
    """The sections of a unit."""
    sections, section = {}, None
    for line in lines_of(name):
        if found := re.fullmatch(r"\[(\w+)\]", line):
            section = sections.setdefault(found[1], {})
            continue
        key, _, value = line.partition("=")
        section[key] = value if key not in section else [*([section[key]] if isinstance(section[key], str) else section[key]), value]
    return sections


@suite.case()
def settings_of_units(trial):
    """Each line of each unit, and of what makes their user and folders, is one that was meant."""
    number = 0
    for name, wanted in WANTED.items():
        found = settings_of(name)
        trial.equal(f"{name}: sections", list(found), list(wanted))
        for section, settings in wanted.items():
            for key in sorted({*settings, *found.get(section, ())}):
                number += 1
                trial.equal(f"{name}: [{section}] {key}", found.get(section, {}).get(key), settings.get(key))
    for name, wanted in OTHERS.items():
        trial.equal(name, lines_of(name), wanted)
    units = {name for name in os.listdir(in_top("packaging")) if name.endswith(("service", "timer", "socket", "path"))}
    trial.equal("units", units, set(WANTED))
    for name, parts in SCRIPTS.items():
        trial.equal(name, [part for part in parts if part not in read_text(f"packaging/{name}")], [])
    trial.equal("node.toml", tomllib.loads(read_text("packaging/node.toml")), MACHINE)
    trial.equal("time.master", lines_of("time.master"), MASTER)
    trial.note(f"{number} settings; {len(trial.result.wrong)} wrong")


# What `ttd` says in the place of the program: the settings of a machine, whose paths are in HERE, and then a reading of LINES at each `ask`.
SAYS = """#!/bin/sh
case $1 in
serve) printf '%s\\n' "listen 127.0.0.1:0" "drift 200" "poll 40000000" "wait 10000000" "state HERE" "socket HERE/socket" "status HERE/status" SHARED;;
ask) sed -n 1p HERE/lines; sed -i 1d HERE/lines;;
esac
"""
OLD, NEW, DAY = 100, 5, 86_400 * 10 ** 9


def aged(passed_ns, rounded=0):
    """What a reading of a millisecond shows so much later, where nothing was published meanwhile."""
    beyond = -(-passed_ns * 200 // 1_000_000) + rounded
    return f"now {DAY + passed_ns - beyond} {DAY + 1_000_000 + passed_ns + beyond}"


# How old the status, the last start and the shared file are, None where there is none, the readings, and whether the machine stands still.
STANDS = {
    "status": (NEW, OLD, OLD, [], False),
    "start": (OLD, NEW, OLD, [], False),
    "shared file": (OLD, OLD, NEW, [], False),
    "no readings": (OLD, OLD, OLD, ["refused 801"], True),
    "no shared file and no readings": (OLD, OLD, None, [], True),
    "readings that grow alone": (OLD, OLD, None, [aged(0), aged(60_000_001), aged(130_000_007, 1), aged(200_000_003)], True),
    "readings that grow alone, and a shared file": (OLD, OLD, OLD, [aged(0), aged(51_000_000), aged(102_000_000), aged(153_000_000)], True),
    "a reading that grew less": (OLD, OLD, None, [aged(0), aged(60_000_000, -5)], False),
    "a reading that grew more": (OLD, OLD, None, [aged(0), aged(60_000_000), aged(120_000_000), aged(180_000_000, 5)], False),
    "no reading, and then one": (OLD, OLD, None, [aged(0), "refused 1824", aged(120_000_000, -20_000)], False),
}


@suite.case()
def stands_still(trial):
    """What packaging/stands-still says of a machine whose files are so old and whose readings are these."""
    for number, (name, (status, start, shared, lines, wanted)) in enumerate(STANDS.items()):
        here = os.path.join(trial.room, str(number))
        os.mkdir(here)
        for file, age in (("status", status), ("epoch", start), ("shared", shared)):
            if age is not None:
                write(os.path.join(here, file), b"")
                os.utime(os.path.join(here, file), (time.time() - age, ) * 2)
        write(os.path.join(here, "lines"), "".join(f"{line}\n" for line in lines).encode())
        says = SAYS.replace("SHARED", '"shared HERE/shared"' if shared is not None else "").replace("HERE", here)
        write(os.path.join(here, "ttd"), says.encode())
        os.chmod(os.path.join(here, "ttd"), 0o755)
        ran = run([in_top("packaging/stands-still"), "settings"], env={**os.environ, "PATH": f"{here}:{os.environ['PATH']}"})
        # A warning, as the unit of the watch lets nothing less through.
        trial.equal(name, (ran.status, ran.error[:3]), (0, "<4>") if wanted else (1, ""))


# The same of a machine with two places to ask at, which answers at one of them, or at both.
PLACES = """#!/bin/sh
case $1 in
serve) printf '%s\\n' "listen 127.0.0.1:5601" "drift 200" "poll 250000000" "wait 50000000" "state HERE" "socket HERE/socket" "status HERE/status";;
ask) echo "$2" >>HERE/asked; case "$2" in ANSWERS) sed -n 1p HERE/lines; sed -i 1d HERE/lines;; esac;;
esac
"""
# Where it answers, its readings, whether it stands still, where it is asked, and how many rounds of 0.3 seconds that takes at least.
TCP, UNIX = "127.0.0.1:5601", "HERE/socket"
ASKS = {
    "by TCP": ("127.*", [aged(0), aged(300_000_000, -20)], False, [TCP, TCP], 1),
    "by the socket": ("*socket", [aged(0), aged(300_000_000, -20)], False, [TCP, UNIX] * 2, 1),
    "nowhere": ("nowhere", [], True, [TCP, UNIX], 0),
    "at both, without a publication": ("*", [aged(0), *(aged(300_000_000 * turn) for turn in (1, 2, 3))], True, [TCP] * 4, 3),
}


@suite.case()
def stands_still_at_both_places(trial):
    """packaging/stands-still asks by TCP, and at the socket where there is no answer, again and again a round later."""
    for number, (name, (where, lines, wanted, asked, rounds)) in enumerate(ASKS.items()):
        here = os.path.join(trial.room, str(number))
        os.mkdir(here)
        for file in ("status", "epoch"):
            write(os.path.join(here, file), b"")
            os.utime(os.path.join(here, file), (time.time() - OLD, ) * 2)
        write(os.path.join(here, "lines"), "".join(f"{line}\n" for line in lines).encode())
        write(os.path.join(here, "ttd"), PLACES.replace("ANSWERS", where).replace("HERE", here).encode())
        os.chmod(os.path.join(here, "ttd"), 0o755)
        began = time.monotonic()
        ran = run([in_top("packaging/stands-still"), "settings"], env={**os.environ, "PATH": f"{here}:{os.environ['PATH']}"})
        trial.between(f"{name}: seconds", 0.3 * rounds, time.monotonic() - began, 0.3 * rounds + 5)
        trial.equal(name, ran.status, 0 if wanted else 1)
        trial.equal(f"{name}: asked", read_text(os.path.join(here, "asked")).replace(here, "HERE").split(), asked)


# The same for packaging/await. A machine that gives the time at once, and whose shared file can be read from the third look on, or holds who
# reads it up.
AWAITED = """#!/bin/sh
case $1 in
serve) printf '%s\\n' "listen 127.0.0.1:5601" "socket HERE/socket" SHARED;;
ask) echo "$*" >>HERE/asked;;
read) echo "$*" "$(cat)" >>HERE/looks; HELD; [ "$(wc -l <HERE/looks)" -ge 3 ] || exit 4;;
esac
"""
# Whether there is a shared file, what holds a reader up, how often it is looked at, and how many seconds that takes.
AWAITS = {"none": (False, ":", 0, 0), "one that comes": (True, ":", 3, 0), "one that stands still": (True, "exec sleep 60", 1, 1)}


@suite.case()
def awaits_the_shared_file(trial):
    """packaging/await ends once the shared file can be read, and not without one, nor later than a second where it stands still."""
    for number, (name, (has_shared, held, wanted, least)) in enumerate(AWAITS.items()):
        here = os.path.join(trial.room, str(number))
        os.mkdir(here)
        says = AWAITED.replace("SHARED", '"shared HERE/shared"' if has_shared else "").replace("HERE", here).replace("HELD", held)
        write(os.path.join(here, "ttd"), says.encode())
        os.chmod(os.path.join(here, "ttd"), 0o755)
        environment = {**os.environ, "PATH": f"{here}:{os.environ['PATH']}", "MAINPID": str(os.getpid())}
        began = time.monotonic()
        ran = run([in_top("packaging/await"), "settings"], env=environment)
        trial.equal(name, ran.answer, ("", 0))
        trial.between(f"{name}: seconds", least, time.monotonic() - began, least + 20)
        trial.equal(f"{name}: asked", read_text(os.path.join(here, "asked")), "ask 127.0.0.1:5601 now --retry 0\n")
        looks = read_text(os.path.join(here, "looks")) if has_shared else ""
        trial.equal(f"{name}: looks", looks, f"read {here}/shared now\n" * wanted)


@suite.case()
def awaits_who_sleeps(trial):
    """packaging/await, which here gives up at once, goes on while packaging/run sleeps before it ends, and asks nobody; not for another process."""
    text, script = read_text(in_top("packaging/await")), os.path.join(trial.room, "await")
    trial.equal("places", text.count("+ 30))"), 1)
    write(script, text.replace("+ 30))", "+ 0))").encode())
    os.chmod(script, 0o755)
    says = AWAITED.replace("SHARED", "").replace("HERE", trial.room)
    write(os.path.join(trial.room, "ttd"), says.encode())
    os.chmod(os.path.join(trial.room, "ttd"), 0o755)
    for whose, least, most in ((0, 2, 20), (1, 0, 1.9)):
        with subprocess.Popen(["sleep", "2"]) as process:
            write(os.path.join(trial.room, "pause"), f"{process.pid + whose} 2\n".encode())
            environment = {**os.environ, "PATH": f"{trial.room}:{os.environ['PATH']}", "MAINPID": str(process.pid), "RUNTIME_DIRECTORY": trial.room}
            reaper = threading.Thread(target=process.wait, daemon=True)
            reaper.start()
            began = time.monotonic()
            ran = run([script, "settings"], env=environment)
            trial.between(f"{whose}: seconds", least - 0.2, time.monotonic() - began, most)
            trial.equal(f"{whose}: status, asked", (ran.status, os.path.exists(os.path.join(trial.room, "asked"))), (1, False))


@suite.case()
def stands_still_by_readings(trial):
    """What it says of a machine whose status cannot be written: one with a shared file, and one without, whose rounds then stand still while it
    answers, and which is then stopped."""
    os.symlink(os.path.abspath(trial.program), os.path.join(trial.room, "ttd"))
    spoils, masters = Spoils(trial.room), trial.scripts(*[honest] * 3)

    def says(node):
        for path in (node.path("status"), node.path("state/epoch")):
            os.utime(path, (time.time() - OLD, ) * 2)
        ran = run([in_top("packaging/stands-still"), node.path("node.toml")], env={**os.environ, "PATH": f"{trial.room}:{os.environ['PATH']}"})
        return {0: "still", 1: "goes on"}.get(ran.status)

    for name, settings in (("A", {}), ("B", {"shared": None})):
        node = trial.node(masters, name, **settings)
        os.makedirs(node.path("status.new/kept"))
        write(node.path("status"), b"")
        node.environment = spoils.environment
        node.run()
        node.wait_until_ready()
        trial.equal(f"{name}, which goes on", says(node), "goes on")
    with spoils.spoiled("sending"):
        time.sleep(0.5)
        trial.equal("rounds stand still", says(node), "still")
    time.sleep(0.5)
    trial.equal("rounds that go on again", says(node), "goes on")
    node.running.send_signal(signal.SIGSTOP)
    trial.equal("a machine that is stopped", says(node), "still")
