"""Scenarios of the suite `faults`: standard error, the status, drafts and locks, settings, and the shared file."""
import contextlib
import json
import os
import shutil
import socket
import subprocess
import time
from concurrent.futures import ThreadPoolExecutor

from harness.faults import NOBODY, as_nobody, full_listener, full_pipe, hold_lock, honest, silent
from harness.processes import free_port, truetime
from harness.program import in_top, read, run, write
from harness.shared_file import FILE_BYTES, MONOTONIC, RAW, boot_id, empty_file
from suites.faults import suite

# Log and status.

def says_much(trial, **settings):
    """A machine whose log has lines to write from the first round on."""
    return trial.node([*trial.masters(3), f"127.0.0.1:{free_port(socket.SOCK_DGRAM)}"], **settings)


@suite.case()
def full_pipe_as_standard_error(trial):
    node = says_much(trial)
    reading, writing = full_pipe()
    node.run(stderr=writing)
    os.close(writing)
    yield from node.serves()
    os.close(reading)


@suite.case()
def broken_pipe_as_standard_error(trial):
    node = says_much(trial)
    reading, writing = os.pipe()
    os.close(reading)
    node.run(stderr=writing)
    os.close(writing)
    yield from node.serves()


@suite.case()
def standard_error_is_closed(trial):
    node = says_much(trial)
    node.run(["sh", "-c", 'exec "$@" 2>&-', "sh"])
    yield from node.serves()


@suite.case()
def all_standard_descriptors_are_closed(trial):
    """Nothing of the log may go to the files and sockets that are opened next."""
    masters = trial.scripts(*[honest] * 3, silent)
    node = trial.node(masters)
    node.words.remove("--until-eof")
    node.run(["sh", "-c", 'exec "$@" 0<&- 1>&- 2>&-', "sh"])
    yield from node.publishes_within(2)
    yield from node.goes_on()
    yield from node.answers()
    for name in ("state/lock", "shared.lock"):
        if content := read(node.path(name)):
            yield f"in {name} stands {content[:80]!r}"
    if strange := [packet for master in masters for packet in master.strange]:
        yield f"a master got {strange[0][:80]!r}"
    kinds = [os.readlink(f"/proc/{node.running.pid}/fd/{number}") for number in range(3)]
    if kinds != ["/dev/null"] * 3:
        yield f"descriptors 0 to 2 are {kinds}"


@suite.case()
def fifo_as_status(trial):
    node = trial.node(trial.masters(3))
    os.mkfifo(node.path("status"))
    node.run()
    yield from node.serves()


@suite.case()
def fifo_as_draft_of_status(trial):
    node = trial.node(trial.masters(3))
    os.mkfifo(node.path("status.new"))
    node.run()
    yield from node.publishes_within(2)
    yield from node.comes_to("sharing", 1, 3)
    yield from node.serves()


@suite.case()
def folder_as_draft_of_status(trial):
    """The status cannot be written, and the log says so."""
    node = trial.node(trial.masters(3))
    os.makedirs(node.path("status.new/kept"))
    node.run()
    yield from node.serves()
    if not node.said("status_unwritten"):
        yield "the log does not say status_unwritten"


@suite.case()
def no_folder_for_status(trial):
    """It is removed and made again: lines of the log, and then a status as before."""
    node = trial.node(trial.masters(3), status=os.path.join(trial.room, "kept/status"))
    os.mkdir(os.path.join(trial.room, "kept"))
    node.run()
    yield from node.publishes_within(2)
    shutil.rmtree(os.path.join(trial.room, "kept"))
    yield from node.goes_on()
    if not node.said("status_unwritten"):
        yield "the log does not say status_unwritten"
    os.mkdir(os.path.join(trial.room, "kept"))
    time.sleep(1)
    if not os.path.exists(os.path.join(trial.room, "kept/status")):
        yield "no status though its folder is there again"


# Files.

DRAFTS = "status.new", "shared.new", "state/epoch.new"


def link_all(node, folder, names):
    """Puts a symlink at each of these names; the places that they name."""
    places = {name: os.path.join(folder, name.replace("/", "-")) for name in names}
    for name, place in places.items():
        os.symlink(place, node.path(name))
    return places


@suite.case()
def symlinks_at_drafts(trial):
    """What they name is neither written nor made."""
    masters = trial.masters(3)
    for name, is_there in (("A", True), ("B", False)):
        node, victims = trial.node(masters, name), os.path.join(trial.room, f"victims-{name}")
        os.mkdir(victims)
        places = link_all(node, victims, DRAFTS)
        for place in places.values() if is_there else ():
            write(place, b"keep\n")
        node.run()
        yield from node.serves()
        for name, place in places.items():
            if is_there and read(place) != b"keep\n":
                yield f"what the symlink at {name} names was written"
            if not is_there and os.path.exists(place):
                yield f"what the symlink at {name} names was made"


@suite.case()
def symlinks_at_locks(trial):
    """It may run or refuse, but leaves alone what they name."""
    for name, is_there in (("A", True), ("B", False)):
        node, victims = trial.node([f"127.0.0.1:{free_port(socket.SOCK_DGRAM)}"], name), os.path.join(trial.room, f"victims-{name}")
        os.mkdir(victims)
        places = link_all(node, victims, ("state/lock", "shared.lock"))
        for place in places.values() if is_there else ():
            write(place, b"keep\n")
        _, status = trial.command("serve", node.path("node.toml"), "--until-eof").answer
        if status is None:
            yield "it does not end"
        for name, place in places.items():
            if os.path.exists(place) != is_there or is_there and read(place) != b"keep\n":
                yield f"what the symlink at {name} names was {'written' if is_there else 'made'}"


@suite.case()
def hard_links(trial):
    """What has a second name in place of a draft stays as it is, and so does what has one in place of a lock, which is not taken then."""
    masters, victim = trial.masters(3), os.path.join(trial.room, "victim")
    write(victim, b"keep\n")
    for number, name in enumerate((*DRAFTS, "shared.lock", "state/lock")):
        node = trial.node(masters, str(number))
        os.makedirs(os.path.dirname(node.path(name)), exist_ok=True)
        os.link(victim, node.path(name))
        if name in DRAFTS:
            node.run()
            yield from node.serves()
        elif name == "state/lock":
            yield from refused_by_start(trial, node, 1812, (4, ))
        else:
            node.run()
            node.wait_until_ready()
            if [fields["number"] for fields in node.said("sharing_ended")] != ["1701"]:
                yield f"the log has {node.said('sharing_ended')}"
            yield from node.ends()
        if read(victim) != b"keep\n":
            yield f"what {name} is a second name of was written"


FIFOS = "state/epoch", "state/lock", "state/epoch.new", "shared", "shared.new", "shared.lock", "status", "status.new", "socket"


def refuses_or_serves(node):
    if node.running.poll() is None:
        return [*node.answers(), *node.ends()]
    is_refusal = node.running.returncode in (2, 4) and "refused" in node.end_of_log()
    return [] if is_refusal else [f"status {node.running.returncode}"]


@suite.case()
def fifos_at_every_file(trial):
    """It runs or refuses, and waits for none of them. All of these machines run at once."""
    masters, nodes = trial.masters(3), {}
    for number, name in enumerate(FIFOS):
        nodes[name] = node = trial.node(masters, f"{number}")
        os.mkfifo(node.path(name))
        node.run()
    time.sleep(2)
    with ThreadPoolExecutor(len(nodes)) as threads:
        for name, faults in zip(nodes, threads.map(refuses_or_serves, nodes.values())):
            for fault in faults:
                yield f"a FIFO at {name}: {fault}"


@suite.case()
def fifo_as_file(trial):
    fifo = os.path.join(trial.room, "fifo")
    os.mkfifo(fifo)
    for words in (["serve", fifo], ["serve", "--check", fifo], ["read", fifo]):
        began = time.monotonic()
        said, status = trial.command(*words, seconds=3).answer
        if status not in (2, 4) or not said.startswith("refused") or time.monotonic() - began > 1:
            yield f"{words[0]} of a FIFO: status {status}, {said!r}"


# Why the system refuses a second listener.
IN_USE = "Address already in use (os error 98)"


def refused_by_start(trial, node, number, statuses, line=None):
    """A start refuses with this number, within a second, says why in this line of standard error, if it is given, and takes no epoch."""
    began = time.monotonic()
    ran = trial.command("serve", node.path("node.toml"), "--until-eof", seconds=5, cwd=node.folder)
    said, status = ran.answer
    if status not in statuses or said != f"refused {number}\n" or time.monotonic() - began > 1.5:
        yield f"status {status} and {said!r}, and {number} is wanted"
    if line is not None and line not in ran.error.splitlines():
        yield f"{ran.error!r} has no line {line!r}"
    if os.path.exists(node.path("state/epoch")):
        yield "an epoch was taken"


@suite.case()
def file_at_socket(trial):
    node = trial.node(trial.masters(1))
    write(node.path("socket"), b"keep\n")
    yield from refused_by_start(trial, node, 1819, (2, 4), f"ttd: {node.path('socket')}: what is at the path of the Unix socket is not a socket")
    if not os.path.exists(node.path("socket")) or read(node.path("socket")) != b"keep\n":
        yield "the file at socket is gone"


@suite.case()
def stale_socket(trial):
    """One that a killed machine left is taken over."""
    node = trial.running_node(trial.masters(1))
    node.again()
    yield from node.answers(node.path("socket"))


@suite.case()
def full_backlog_at_socket(trial):
    """A foreign listener is not waited for, and stays."""
    node = trial.node(trial.masters(1))
    with full_listener(node.path("socket")):
        yield from refused_by_start(trial, node, 1809, (4,), f"ttd: {node.path('socket')}: the Unix socket can't be listened at: {IN_USE}")
        if not os.path.exists(node.path("socket")):
            yield "the foreign socket is gone"


@suite.case()
def address_in_use(trial):
    node = trial.node(trial.masters(1))
    with socket.create_server(node.address):
        yield from refused_by_start(trial, node, 1807, (4,), f"ttd: 127.0.0.1:{node.address[1]}: the address can't be listened at: {IN_USE}")


# Settings that are refused, and by which number. HERE is the machine's folder.
REFUSED = [
    ({"socket": "HERE/state/epoch"}, 1817), ({"socket": "HERE/state/lock"}, 1817), ({"status": "HERE/state/epoch"}, 1817),
    ({"shared": "HERE/state/epoch"}, 1817), ({"status": "HERE/shared"}, 1817), ({"socket": "HERE/shared"}, 1817),
    ({"status": "HERE/socket"}, 1817), ({"socket": "HERE/state"}, 1817),
    ({"socket": ""}, 1804), ({"shared": ""}, 1804), ({"status": ""}, 1804), ({"state": ""}, 1804),
    ({"masters": ["127.0.0.1:5701", "127.0.0.1:5702", "127.0.0.1:5701"]}, 1818),
    ({"masters": ["127.0.0.1:5701", "127.0.0.1:0", "127.0.0.1:5702"]}, 1804), ({"masters": ["127.0.0.1:5701", "10.0.0.1:5702"]}, 1805),
    ({"workers": 1}, 1810),
]


def settings_are_refused(trial, number, settings, refusal):
    name, what = f"{number}", json.dumps(settings)
    settings = {key: value.replace("HERE", os.path.join(trial.room, name)) if isinstance(value, str) else value for key, value in settings.items()}
    node = trial.node(settings.pop("masters", ["127.0.0.1:5701"]), name, **settings)
    said, status = trial.command("serve", "--check", node.path("node.toml")).answer
    if (status, said) != (2, f"refused {refusal}\n"):
        yield f"--check with {what}: status {status}, {said[:20]!r}, and {refusal} is wanted"
    for fault in refused_by_start(trial, node, refusal, (2,)):
        yield f"a start with {what}: {fault}"


@suite.case()
def settings_that_are_refused(trial):
    """By --check and by the start."""
    with ThreadPoolExecutor(len(REFUSED)) as threads:
        for faults in threads.map(lambda case: list(settings_are_refused(trial, case[0], *case[1])), enumerate(REFUSED)):
            yield from faults


SOCKET_BYTES = 107


@suite.case()
def paths_of_one_file(trial):
    """A file that has two purposes by two names of its folder, by `..` or a link, and a path of a socket that is too long: by --check and by the
    start. The same names in folders of their own are taken."""
    long = os.path.join(trial.room, "l" * (SOCKET_BYTES - len(trial.room) - 1))
    cases = [({"status": "HERE/state/../state/epoch"}, "1817"), ({"status": "HERE/link/epoch"}, "1817"), ({"shared": "HERE/link/lock"}, "1817"),
             ({"evidence": "HERE/link/break"}, "1817"), ({"socket": "HERE/link/epoch.new"}, "1817"), ({"status": "HERE/here/shared"}, "1817"),
             ({"evidence": "HERE/e", "status": "HERE/here/e.break-1"}, "1817"), ({"evidence": "HERE/e", "status": "HERE/here/e.break-2"}, "1817"),
             ({"evidence": "HERE/e", "status": "HERE/here/e"}, "1817"), ({"status": "HERE/here/state"}, "1817"),
             ({"keys": "HERE/here/status"}, "1817"), ({"keys": "HERE/k", "evidence": "HERE/here/k"}, "1817"),
             ({"socket": f"{long}s"}, "1804"), ({"socket": long}, None), ({"status": "HERE/other/epoch"}, None), ({"shared": "HERE/other/status"}, None)]
    for number, (settings, refusal) in enumerate(cases):
        folder = os.path.join(trial.room, str(number))
        settings = {key: value.replace("HERE", folder) for key, value in settings.items()}
        node = trial.node(["127.0.0.1:5701"], str(number), **settings)
        for name in "state", "other":
            os.makedirs(os.path.join(folder, name), exist_ok=True)
        os.symlink("state", os.path.join(folder, "link"))
        os.symlink(".", os.path.join(folder, "here"))
        ran = trial.command("serve", "--check", node.path("node.toml"))
        if refusal is None:
            if ran.status != 0:
                yield f"--check with {settings}: {ran.answer} {ran.error!r}"
            continue
        if ran.answer != (f"refused {refusal}\n", 2):
            yield f"--check with {settings}: {ran.answer}, and {refusal} is wanted"
        if refusal == "1817" and not ran.error.partition("\n")[0].endswith(", by another name of its folder"):
            yield f"--check with {settings}: {ran.error!r} does not say why"
        for fault in refused_by_start(trial, node, refusal, (2,)):
            yield f"a start with {settings}: {fault}"


@suite.case()
def files_at_their_limit(trial):
    """As the unit starts it, with SIGXFSZ ignored, a machine goes on where files may be no longer, and says so."""
    unit = read("packaging/truetime@.service").decode()
    if "\nExecStart=/usr/libexec/truetime/run /usr/bin/ttd serve " not in unit:
        yield "the unit does not start it by packaging/run"
    node = trial.node(trial.masters(3))
    node.words.remove("--until-eof")  # which the script adds
    node.run(["prlimit", "--fsize=4096:4096", in_top("packaging/run")])
    yield from node.publishes_within(2)
    yield from node.goes_on()
    yield from node.answers()
    if not node.said("status_unwritten"):
        yield "the log does not say status_unwritten"


@suite.case(programs=("prlimit",))
def stacks_that_are_small(trial):
    """A stack below 2 MiB is refused with words, also where hardly the start has room, and one of 2 MiB is enough."""
    node = trial.node(trial.masters(16))
    master = ["master", "--source", "0", "--listen", "127.0.0.1:0", "--uncertainty", "1"]
    for words in ["serve", node.path("node.toml")], ["serve", "--check", node.path("node.toml")], master:
        for kib in 64, 512, 2047:
            ran = run(["prlimit", f"--stack={1024 * kib}:{1024 * kib}", trial.program, *words], seconds=5)
            if ran.answer != ("refused 1831\n", 2) or f"ttd: the stack is limited to {1024 * kib} bytes, and 2097152 are needed" not in ran.error:
                yield f"{words[0]} with a stack of {kib} KiB: {ran.answer} {ran.error!r}"
    # The soft limit counts, not the hard one.
    ran = run(["prlimit", "--stack=1048576:2097152", trial.program, "serve", "--check", node.path("node.toml")], seconds=5)
    if ran.answer != ("refused 1831\n", 2):
        yield f"with a soft limit of 1 MiB and a hard one of 2 MiB: {ran.answer} {ran.error!r}"
    node.run(["prlimit", "--stack=2097152:2097152"])
    yield from node.serves()


# The shared file.

def is_read(trial, node):
    """`ttd read` has a fresh reading, and the status says that the file is written."""
    ran = trial.command("read", node.path("shared"))
    if ran.status != 0 or not ran.said.startswith("now ") or "stale" in ran.error:
        yield f"read: status {ran.status}, {ran.said!r} {ran.error!r}"
    yield from node.comes_to("sharing", 1, 1)


def comes_back(trial, node, seconds=5):
    """The file is written anew within these seconds."""
    end = time.monotonic() + seconds
    while (faults := list(is_read(trial, node))) and time.monotonic() < end:
        time.sleep(0.1)
    yield from faults
    yield from [] if faults else node.goes_on()


@suite.case()
def shared_file_is_removed(trial):
    node = trial.running_node(trial.masters(3))
    os.remove(node.path("shared"))
    yield from comes_back(trial, node)


@suite.case()
def shared_file_is_replaced(trial):
    """By a file that is none, and that stays as it is where it was moved away."""
    node = trial.running_node(trial.masters(3))
    foreign = os.path.join(trial.room, "foreign")
    write(foreign, b"x" * 320)
    os.link(foreign, os.path.join(trial.room, "kept"))
    os.rename(foreign, node.path("shared"))
    yield from comes_back(trial, node)
    if read(os.path.join(trial.room, "kept")) != b"x" * 320:
        yield "the foreign file was written"


@suite.case()
def shared_file_is_shortened(trial):
    node = trial.running_node(trial.masters(3))
    os.truncate(node.path("shared"), 0)
    yield from comes_back(trial, node)
    yield from node.answers()


@suite.case()
def shared_file_of_another_version(trial):
    """It is replaced, as one by another clock is, and stays as it is for who has it open."""
    node, boot = trial.node(trial.masters(3)), boot_id()
    for what, content in [("version 1", empty_file(boot, MONOTONIC, b"TTS1", 192)), ("version 2", empty_file(boot, MONOTONIC, b"TTS2")),
                          ("another clock", empty_file(boot, MONOTONIC))]:
        write(node.path("shared"), content)
        with open(node.path("shared"), "rb") as kept:
            node.run()
            node.wait_until_ready()
            yield from (f"{what}: {fault}" for fault in comes_back(trial, node))
            if kept.read() != content:
                yield f"{what}: the file was written"
        node.kill()
        os.remove(node.path("status"))


@suite.case(root=True, programs=("unshare",))
def shared_in_a_time_namespace(trial):
    """A machine whose clock is not that of the host shares nothing, and goes on."""
    apart = ["unshare", "--time", "--monotonic", "1000", "--fork", "--kill-child"]
    if run([*apart, "true"]).status != 0:
        trial.note("there are no time namespaces here")
        return
    node = trial.node(trial.masters(3))
    node.run(prefix=apart)
    node.wait_until_ready()
    yield from node.comes_to("sharing", 0, 2)
    numbers = [int(fields["number"]) for fields in node.said("sharing_ended")]
    if numbers != [1702] or os.path.exists(node.path("shared")):
        yield f"it refuses with {numbers}, and the file is {'there' if os.path.exists(node.path('shared')) else 'not there'}"
    yield from node.answers()


@suite.case(root=True, programs=("unshare",))
def read_in_a_time_namespace(trial):
    """`ttd read` refuses a file whose clock its time namespace shifts, be it by a second, and reads it in one that shifts nothing."""
    apart = ["unshare", "--time", "--fork"]
    if run([*apart, "true"]).status != 0:
        trial.note("there are no time namespaces here")
        return
    node = trial.running_node(trial.masters(3))
    for offset, wanted in ([], "now"), (["--monotonic", "1"], "refused 1702"), (["--monotonic", "-1"], "refused 1702"):
        ran = run([*apart, *offset, trial.program, "read", node.path("shared")])
        if not ran.said.startswith(wanted) or (ran.status == 0) != (wanted == "now"):
            yield f"{offset}: {ran.said.strip()!r} with status {ran.status}, and {wanted} is wanted"


@suite.case()
def shared_folder_comes_later(trial):
    """A file stands where its folder should be, and goes away."""
    place = os.path.join(trial.room, "place")
    write(place, b"")
    node = trial.node(trial.masters(3), shared=os.path.join(place, "shared"))
    node.run()
    node.wait_until_ready()
    yield from node.comes_to("sharing", 0, 1)
    os.remove(place)
    yield from node.comes_to("sharing", 1, 6)
    yield from node.answers()


@suite.case()
def shared_lock_is_taken_by_another(trial):
    """Its lock file is removed, and a second machine writes the same file: just one of them may."""
    masters = trial.masters(3)
    first = trial.running_node(masters, "A")
    os.remove(first.path("shared.lock"))
    second = trial.running_node(masters, "B", shared=first.path("shared"))
    time.sleep(1)
    sharing = [(node.status_or_none() or {}).get("truetime_sharing") for node in (first, second)]
    if sorted(sharing, key=str) != [0, 1]:
        yield f"sharing is {sharing}"
    with first.client() as client:
        numbers = []
        for _ in range(20):
            numbers.append(client.read().number)
            time.sleep(0.05)
    if numbers != sorted(numbers):
        yield f"publications of both are in the file: {numbers}"
    for node in (first, second):
        yield from node.answers()


@suite.case()
def shared_lock_is_removed(trial):
    """It goes on, and a second machine may not write the file beside it."""
    masters = trial.masters(3)
    first = trial.running_node(masters, "A")
    os.remove(first.path("shared.lock"))
    time.sleep(1)
    yield from comes_back(trial, first)
    second = trial.running_node(masters, "B", shared=first.path("shared"))
    yield from second.comes_to("sharing", 0, 1)
    yield from first.comes_to("sharing", 1, 1)


def disk_that_freezes(trial):
    """The folder of a file system of its own; nothing where none can be mounted here."""
    place, image = os.path.join(trial.room, "disk"), os.path.join(trial.room, "image")
    os.mkdir(place)
    if run(["sh", "-c", 'truncate -s 8M "$1" && mkfs.ext4 -q "$1" && mount -o loop "$1" "$2"', "sh", image, place]).status != 0:
        trial.note("no disk is frozen: none can be mounted here")
        return None
    trial.processes.callback(subprocess.run, ["umount", place], check=True)
    return place


@contextlib.contextmanager
def frozen(place):
    """The file system there is frozen, as for a snapshot of a disk, as long as this lasts."""
    subprocess.run(["fsfreeze", "-f", place], check=True)
    try:
        yield
    finally:
        subprocess.run(["fsfreeze", "-u", place], check=True)


def is_closed(node):
    """Whether nobody listens at its address."""
    with contextlib.suppress(OSError), socket.create_connection(node.address, 1):
        return False
    return True


@suite.case(root=True, programs=("fsfreeze", "mkfs.ext4", "mount"))
def shared_on_a_frozen_disk(trial):
    """Rounds and sessions go on, and log and status say it while it lasts. A machine that ends then leaves its address and its folder: only its
    process stays until the kernel lets go of its write."""
    if not (place := disk_that_freezes(trial)):
        return
    masters = trial.masters(3)
    node = trial.node(masters, shared=os.path.join(place, "shared"))
    node.client = lambda: truetime.Client(os.path.join(place, "shared"), os.geteuid())
    node.run()
    yield from node.publishes_within(2)
    with frozen(place):
        began = node.status_or_none()
        yield from node.comes_to("sharing", 0, 3)
        if [fields["number"] for fields in node.said("sharing_ended")] != ["1709"]:
            yield f"the log has {node.said('sharing_ended')}"
        yield from node.answers()
        written = node.number()
        time.sleep(1)
        made = node.status_or_none()["truetime_publications_total"] - began["truetime_publications_total"]
        if made < 5 or node.number() != written:
            yield f"{made} publications, and {written} and {node.number()} in the file"
    yield from node.comes_to("sharing", 1, 3)
    if not node.said("sharing_resumed"):
        yield "the log does not say sharing_resumed"
    yield from node.goes_on()
    with frozen(place):
        time.sleep(0.3)
        began = time.monotonic()
        node.running.stdin.close()
        while not is_closed(node) and time.monotonic() < began + 5:
            time.sleep(0.01)
        if (took := time.monotonic() - began) > 1:
            yield f"it listens {took:.1f} seconds after the end of its input"
        other = trial.node(masters, "B", state=node.path("state"), listen=f"127.0.0.1:{node.address[1]}")
        other.run()
        yield from other.publishes_within(2)
        yield from other.answers(node.address)
    node.running.wait(5)
    if node.running.returncode != 0:
        yield f"it ended with status {node.running.returncode}"


@suite.case(root=True)
def locks_held_by_another_user(trial):
    """Who may only read cannot hold a lock, so a new start shares."""
    node = trial.running_node(trial.masters(3))
    node.kill()
    with as_nobody():
        held = {name: hold_lock(node.path(name)) for name in ("shared.lock", "state/lock", "shared")}
    node.run()
    node.wait_until_ready()
    if free := [name for name in ("shared.lock", "state/lock") if held[name] is not None]:
        yield f"another user holds {' and '.join(free)}"
    yield from is_read(trial, node)
    yield from node.ends()
    for number in held.values():
        if number is not None:
            os.close(number)


@suite.case(root=True)
def lock_that_may_only_be_read(trial):
    """A start refuses the lock of another user that it may read and not write, and `--check` refuses it alike."""
    node = trial.node(["127.0.0.1:5701"])
    os.makedirs(node.path("state"), exist_ok=True)
    write(node.path("state/lock"), b"")
    os.chmod(node.path("state/lock"), 0o444)
    for path in (trial.room, node.folder, node.path("state")):
        os.chmod(path, 0o755)
    os.chown(node.path("state"), NOBODY, NOBODY)
    for words in (["--check"], ["--until-eof"]):
        ran = subprocess.run([trial.program, "serve", node.path("node.toml"), *words], user=NOBODY, group=NOBODY, extra_groups=[],
                             stdin=subprocess.DEVNULL, capture_output=True, text=True, timeout=10, check=False)
        if (ran.stdout, ran.returncode) != ("refused 1812\n", 4):
            yield f"{words[0]} answers {ran.stdout!r}, and {ran.stderr[-200:]!r}"


@suite.case(root=True)
def shared_file_that_may_not_be_opened(trial):
    """A new one takes the place of one that the machine's own user may not write."""
    node = trial.running_node(trial.masters(3))
    yield from is_read(trial, node)
    node.kill()
    node.program = os.path.join(trial.room, "ttd")
    shutil.copy(trial.program, node.program)
    for folder, _, names in os.walk(node.folder):
        for path in (folder, *(os.path.join(folder, name) for name in names)):
            os.chown(path, NOBODY, NOBODY)
    os.chmod(node.path("shared"), 0o400)
    os.remove(node.path("status"))
    node.run(user=NOBODY, group=NOBODY, extra_groups=[])
    yield from node.comes_to("sharing", 1, 5)
    if (mode := os.stat(node.path("shared")).st_mode & 0o777) != 0o644:
        yield f"its mode is {mode:o}"


@suite.case(root=True)
def shared_file_prepared_by_another(trial):
    """It is not taken for the machine's own."""
    folder = os.path.join(trial.room, "open")
    os.mkdir(folder)
    os.chmod(folder, 0o777)
    path, content = os.path.join(folder, "shared"), empty_file(boot_id(), RAW)
    with as_nobody():
        write(path, content)
    kept = os.open(path, os.O_RDONLY)
    node = trial.node(trial.masters(3), shared=path)
    node.run()
    node.wait_until_ready()
    time.sleep(0.5)
    if os.pread(kept, FILE_BYTES, 0) != content:
        yield "the file of another user was written"
    sharing = (node.status_or_none() or {}).get("truetime_sharing")
    if sharing != (os.stat(path).st_uid == 0):
        yield f"sharing is {sharing}, and the file is of user {os.stat(path).st_uid}"
    os.close(kept)
    yield from node.answers()
