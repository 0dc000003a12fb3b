"""PostgreSQL 15 with the extension of clients/postgres: an installation and clusters in a folder, and a client of its protocol.

What the host has installed is not changed: the server is copied, and finds what belongs to it beside itself. Servers run as an
unprivileged user, and listen at a Unix socket alone.
"""
import collections
import contextlib
import glob
import os
import pwd
import re
import shutil
import signal
import socket
import struct
import subprocess
import tempfile
import time
from concurrent.futures import ThreadPoolExecutor

from harness.processes import Fault
from harness.program import in_top, read_text, run

CONFIG, USER, DATABASE, PORT = "/usr/lib/postgresql/15/bin/pg_config", "demo", "postgres", 5432
# Without these the extension is not built, or no server is started.
HEADERS = ("/usr/lib/postgresql/15/lib/pgxs/src/makefiles/pgxs.mk", "/usr/include/postgresql/15/server/postgres.h")
NEEDED = (CONFIG, "/usr/lib/postgresql/15/bin/postgres", *HEADERS)
WARNINGS = "-O1 -g0 -Wno-declaration-after-statement -Wall -Wextra -Wshadow -Werror -isystem /usr/include/postgresql/15/server"
# How clusters are made for a test: without waiting for the disk, and small.
QUICK = ("--no-sync", "--wal-segsize=1")
SETTINGS = {
    "listen_addresses": "", "max_connections": 60, "shared_buffers": "64MB", "wal_level": "logical", "max_prepared_transactions": 20,
    "max_replication_slots": 60, "max_wal_senders": 5, "wal_sender_timeout": 0, "track_commit_timestamp": "on", "autovacuum": "off",
    "dynamic_shared_memory_type": "mmap", "restart_after_crash": "on", "log_line_prefix": "%m [%p] ", "shared_preload_libraries": "truetime",
}


def missing_headers():
    """The files that are missing without which the extension is not built."""
    return [name for name in HEADERS if not os.path.exists(name)]


def missing():
    """Why no server can be tried here, or nothing."""
    lacking = [name for name in NEEDED if not os.path.exists(name)]
    lacking += [name for name in ("make", "gcc", "setpriv") if not shutil.which(name)]
    return f"it wants PostgreSQL 15 and its headers: {lacking[0]} is missing" if lacking else ""


def unprivileged():
    """The user as whom servers run, and the front of a command for that."""
    if os.geteuid() != 0:
        return os.geteuid(), []
    for name in ("postgres", "nobody"):
        with contextlib.suppress(KeyError):
            user = pwd.getpwnam(name)
            return user.pw_uid, ["setpriv", f"--reuid={user.pw_uid}", f"--regid={user.pw_gid}", "--clear-groups"]
    raise Fault("there is no unprivileged user")


class Failed(Exception):
    """An error of the server: its SQLSTATE, and what it says."""

    def __init__(self, fields):
        super().__init__(f"{fields.get('C')} {fields.get('M')}")
        self.state, self.said, self.detail = fields.get("C", ""), fields.get("M", ""), fields.get("D", "")


class Connection:
    """A session. Values are texts, or None."""

    def __init__(self, folder, replication=False, user=USER, seconds=30):
        self.door = socket.socket(socket.AF_UNIX)
        self.door.settimeout(seconds)
        self.held, self.parameters, self.notices, self.pid = b"", {}, [], 0
        try:
            self.door.connect(os.path.join(folder, f".s.PGSQL.{PORT}"))
            words = ["user", user, "database", DATABASE, *(["replication", "database"] if replication else []), ""]
            text = "\0".join(words).encode() + b"\0"
            self.door.sendall(struct.pack(">II", len(text) + 8, 0x30000) + text)
            self.finish()
        except BaseException:
            self.door.close()
            raise

    def close(self):
        with contextlib.suppress(OSError):
            self.door.sendall(b"X\0\0\0\4")
        self.door.close()

    def __enter__(self):
        return self

    def __exit__(self, *_):
        self.close()

    def fill(self, number):
        """Returns once so many bytes have come; what came stays if it takes too long."""
        while len(self.held) < number:
            more = self.door.recv(65536)
            if not more:
                raise ConnectionError("the server closed the connection")
            self.held += more

    def message(self):
        """The next message: its kind and its bytes. Parameters and notices are kept."""
        while True:
            self.fill(5)
            kind, length = struct.unpack(">cI", self.held[:5])
            self.fill(1 + length)
            body, self.held = self.held[5:1 + length], self.held[1 + length:]
            if kind == b"S":
                name, value = body.decode().split("\0")[:2]
                self.parameters[name] = value
            elif kind == b"N":
                self.notices.append(fields_of(body))
            elif kind == b"K":
                self.pid = struct.unpack(">I", body[:4])[0]
            else:
                return kind, body

    def finish(self):
        """The rows until the server is ready. Its first error is raised then."""
        rows, failed = [], None
        while True:
            kind, body = self.message()
            if kind == b"D":
                rows.append(values_in(body))
            elif kind == b"E" and failed is None:
                failed = Failed(fields_of(body))
                if fields_of(body).get("S") == "FATAL":
                    raise failed
            elif kind == b"Z":
                if failed:
                    raise failed
                return rows

    def send(self, text):
        body = text.encode() + b"\0"
        self.door.sendall(b"Q" + struct.pack(">I", len(body) + 4) + body)

    def run(self, text):
        """The rows of these statements."""
        self.send(text)
        return self.finish()

    def value(self, text):
        """The first value of the first row."""
        return self.run(text)[0][0]

    def number(self, text):
        return int(self.value(text))

    def last_commit(self):
        """The stamp that came with the answer to the last COMMIT."""
        return int(self.parameters["truetime.last_commit"] or 0)

    def fails(self, text):
        """The SQLSTATE of these statements, or nothing. The transaction is given up."""
        try:
            self.run(text)
        except Failed as failed:
            self.run("ROLLBACK")
            return failed.state
        return ""

    def stream(self, slot, publication):
        """Begins to stream what is committed, by pgoutput."""
        options = f"proto_version '1', publication_names '{publication}', messages 'true'"
        self.send(f"START_REPLICATION SLOT {slot} LOGICAL 0/0 ({options})")
        kind, body = self.message()
        if kind != b"W":
            raise Failed(fields_of(body))

    def streamed(self, seconds):
        """The next message of pgoutput, or None where none comes in time."""
        end = time.monotonic() + seconds
        while (left := end - time.monotonic()) > 0:
            self.door.settimeout(left)
            try:
                kind, body = self.message()
            except TimeoutError:
                return None
            if kind == b"d" and body[:1] == b"w":
                return body[25:]
        return None


def fields_of(body):
    """The fields of an error or a notice."""
    return {part[:1]: part[1:] for part in body.decode(errors="replace").split("\0") if part}


def values_in(body):
    values, at = [], 2
    for _ in range(struct.unpack(">H", body[:2])[0]):
        length = struct.unpack(">i", body[at:at + 4])[0]
        values.append(None if length < 0 else body[at + 4:at + 4 + length].decode())
        at += 4 + max(length, 0)
    return tuple(values)


Installed = collections.namedtuple("Installed", "root bin source template")


def link(old, new):
    """Links a file, or copies it to another file system."""
    try:
        os.link(old, new)
    except OSError:
        shutil.copy2(old, new)


def install(room, package=""):
    """Copies the server into a folder, and installs the extension there: built without a warning, or from a package."""
    where = {name: run([CONFIG, f"--{name}"]).said.strip() for name in ("bindir", "pkglibdir", "sharedir")}
    root = os.path.join(room, "root")
    for name, folder in where.items():
        os.makedirs(os.path.dirname(root + folder), exist_ok=True)
        # The server looks for what belongs to it beside the file that its links lead to.
        shutil.copytree(folder, root + folder, copy_function=link if name == "bindir" else os.symlink,
                        ignore=shutil.ignore_patterns("pgxs", "bitcode"))
    source, bin_folder = os.path.join(room, "clients/postgres"), root + where["bindir"]
    with ThreadPoolExecutor() as pool:
        building = pool.submit(run, ["dpkg-deb", "-x", package, root]) if package else pool.submit(build, source, root)
        template = new_cluster(bin_folder, room, "template", *QUICK)
    built = building.result()
    if built.status != 0 or "warning" in built.error:
        raise Fault(f"clients/postgres is not built: status {built.status} {built.error[-2000:]}")
    return Installed(root, bin_folder, source, template)


def build(source, root):
    """Copies the code of the extension, and builds and installs it."""
    for name in ("c", "postgres"):
        shutil.copytree(in_top(f"clients/{name}"), os.path.join(os.path.dirname(source), name), ignore=shutil.ignore_patterns("*.o", "*.so", "results"))
    words = ["make", "-j2", f"PG_CONFIG={CONFIG}", f"PG_CFLAGS={WARNINGS}", f"DESTDIR={root}", "install"]
    return run(words, seconds=180, cwd=source)


@contextlib.contextmanager
def fast_room(room):
    """A folder for clusters in memory, where that has a GiB free, or else this one: a copy of a cluster is many small files."""
    memory, free = "/dev/shm", 0
    with contextlib.suppress(OSError):
        found = os.statvfs(memory)
        free = found.f_bavail * found.f_bsize if os.access(memory, os.W_OK) else 0
    if free < 2**30:
        yield room
        return
    with tempfile.TemporaryDirectory(dir=memory) as folder:
        os.chmod(folder, 0o755)
        yield folder


def new_cluster(bin_folder, room, name, *words):
    """Makes the data of a cluster; their folder."""
    uid, front = unprivileged()
    folder = os.path.join(room, name)
    os.mkdir(folder, 0o700)
    os.chown(folder, uid, -1)
    made = run([*front, os.path.join(bin_folder, "initdb"), "-D", folder, "-A", "trust", "-U", USER, "--no-locale", "-E", "UTF8", *words],
               seconds=180, cwd="/")
    if made.status != 0:
        raise Fault(f"no cluster: {made.error}")
    return folder


def installed_here(room):
    """The server as the host has it, without the extension."""
    folder, template = os.path.dirname(CONFIG), os.path.join(room, "template")
    if not os.path.exists(template):
        new_cluster(folder, room, "template", *QUICK)
    return Installed("", folder, "", template)


class Cluster:
    """A cluster of PostgreSQL, new or a copy of this folder, and its server, which is started, behind the words of another command."""
    process = None

    def __init__(self, installed, room, name, shared, source="", behind=(), **settings):
        self.installed, self.name, self.data = installed, name, os.path.join(room, f"data-{name}")
        self.log = os.path.join(room, f"{name}.log")
        self.uid, self.front = unprivileged()
        self.behind = behind
        self.sockets = os.path.join(room, f"sockets-{name}")
        os.mkdir(self.sockets)
        os.chown(self.sockets, self.uid, -1)
        run(["cp", "-a", source or installed.template, self.data], seconds=60)
        self.settings = {**SETTINGS, "unix_socket_directories": self.sockets, "port": PORT, "truetime.shared": shared,
                         "truetime.owner": os.geteuid(), **settings}
        self.start()

    def command(self, name, *words, seconds=60, cwd="/"):
        """Runs a command of the installation as the user of the server."""
        return run([*self.front, os.path.join(self.installed.bin, name), *words], seconds=seconds, cwd=cwd)

    def start(self, seconds=60):
        """Starts the server, and returns once it takes connections."""
        with open(os.path.join(self.data, "postgresql.auto.conf"), "w", encoding="utf-8") as file:
            file.writelines(f"{name} = '{value}'\n" for name, value in self.settings.items())
        with open(self.log, "ab") as log:
            self.process = subprocess.Popen([*self.front, *self.behind, os.path.join(self.installed.bin, "postgres"), "-D", self.data],
                                            stdin=subprocess.DEVNULL, stdout=log, stderr=log, cwd="/")
        self.wait_until_up(seconds)

    def wait_until_up(self, seconds=60):
        end = time.monotonic() + seconds
        while True:
            try:
                return self.connect().close()
            except (OSError, Failed) as fault:
                if time.monotonic() > end or self.process.poll() is not None:
                    raise Fault(f"no server {self.name}: {fault}\n{read_text(self.log)[-3000:]}") from fault
            time.sleep(0.02)

    def wait_until_writable(self, seconds=60):
        """Returns once its recovery has ended."""
        end = time.monotonic() + seconds
        while self.run("SELECT pg_is_in_recovery()") != [("f",)]:
            if time.monotonic() > end:
                raise Fault(f"{self.name} stays in recovery\n{read_text(self.log)[-3000:]}")
            time.sleep(0.02)

    def connect(self, **how):
        return Connection(self.sockets, **how)

    def run(self, text):
        with self.connect() as session:
            return session.run(text)

    def stop(self, how=signal.SIGINT):
        """Ends the server in order."""
        if self.process is not None and self.process.poll() is None:
            self.process.send_signal(how)
            self.process.wait(60)

    def children(self):
        """The process of each child by its title."""
        found = {}
        for path in glob.glob("/proc/[0-9]*/stat"):
            with contextlib.suppress(OSError):
                if int(read_text(path).rpartition(")")[2].split()[1]) == self.process.pid:
                    pid = int(path.split("/")[2])
                    found[pid] = read_text(f"/proc/{pid}/cmdline")
        return found

    def kill(self):
        """Ends the postmaster and all its children at once, by signal 9. It is stopped first: no child is new, or has another parent."""
        self.process.send_signal(signal.SIGSTOP)
        children = self.children()
        self.process.kill()
        for pid in children:
            with contextlib.suppress(ProcessLookupError):
                os.kill(pid, signal.SIGKILL)
        self.process.wait()
        end = time.monotonic() + 10
        while any(os.path.exists(f"/proc/{pid}") for pid in children) and time.monotonic() < end:
            time.sleep(0.01)

    def kill_backend(self, choose):
        """Ends one of the backends of clients by signal 9, and with it, by PostgreSQL's own rule, all others."""
        backends = [pid for pid, title in self.children().items() if re.match(rf"postgres: {USER} ", title)]
        if backends:
            with contextlib.suppress(ProcessLookupError):
                os.kill(choose(backends), signal.SIGKILL)

    def close(self):
        """Ends the server at once, and frees the segment of shared memory that one leaves that was killed."""
        if self.process is not None and self.process.poll() is None:
            with contextlib.suppress(subprocess.TimeoutExpired):
                self.process.send_signal(signal.SIGQUIT)
                self.process.wait(10)
            if self.process.poll() is None:
                self.kill()
        with contextlib.suppress(OSError, IndexError):
            segment = read_text(os.path.join(self.data, "postmaster.pid")).splitlines()[6].split()[1]
            run(["ipcrm", "-m", segment])
