"""Servers of Redis with the module of clients/valkey, and a client of their protocol."""
import contextlib
import os
import shutil
import signal
import socket
import subprocess
import time

from harness.processes import Fault, free_port
from harness.program import in_top, read_text, run

SERVER = "redis-server"
WARNINGS = "-O0 -Wall -Wextra -Wshadow -Werror"


class Failed(Exception):
    """An error of the server: its first word, and what it says."""

    def __init__(self, said):
        super().__init__(said)
        self.kind = said.partition(" ")[0]


class Connection:
    """A client. Values are texts, numbers, lists, `Failed` within a list, or None."""

    def __init__(self, path, seconds=30):
        self.door = socket.socket(socket.AF_UNIX)
        self.door.settimeout(seconds)
        self.door.connect(path)
        self.lines = self.door.makefile("rb")

    def close(self):
        self.lines.close()
        self.door.close()

    def __enter__(self):
        return self

    def __exit__(self, *_):
        self.close()

    def send(self, *words):
        parts = [str(word).encode() for word in words]
        self.door.sendall(b"*%d\r\n" % len(parts) + b"".join(b"$%d\r\n%s\r\n" % (len(part), part) for part in parts))

    def reply(self):
        line = self.lines.readline()
        if not line.endswith(b"\r\n"):
            raise ConnectionError("the server closed the connection")
        kind, rest = line[:1], line[1:-2].decode()
        if kind == b"*":
            return [self.reply() for _ in range(int(rest))]
        if kind == b"$":
            return None if rest == "-1" else self.lines.read(int(rest) + 2)[:-2].decode()
        return int(rest) if kind == b":" else Failed(rest) if kind == b"-" else rest

    def ask(self, *words):
        self.send(*words)
        reply = self.reply()
        if isinstance(reply, Failed):
            raise reply
        return reply

    def fails(self, *words):
        """The first word of the error, or nothing."""
        try:
            self.ask(*words)
        except Failed as failed:
            return failed.kind
        return ""


def build(room):
    """Builds the module there, without a warning; its path."""
    for name in ("c", "valkey"):
        shutil.copytree(in_top(f"clients/{name}"), os.path.join(room, "clients", name), ignore=shutil.ignore_patterns("*.so"))
    source = os.path.join(room, "clients/valkey")
    built = run(["make", f"CFLAGS={WARNINGS}"], seconds=60, cwd=source)
    if built.status != 0 or "warning" in built.error:
        raise Fault(f"clients/valkey is not built: status {built.status} {built.error[-2000:]}")
    return os.path.join(source, "truetime.so")


class Server:
    """A server with an append-only file, and the module over this shared file."""
    process = None

    def __init__(self, module, room, name, shared):
        self.name, self.folder, self.port = name, os.path.join(room, f"redis-{name}"), free_port(socket.SOCK_STREAM)
        os.mkdir(self.folder)
        self.path, self.log = os.path.join(self.folder, "socket"), os.path.join(self.folder, "log")
        self.words = ["--bind", "127.0.0.1", "--port", str(self.port), "--unixsocket", self.path, "--dir", self.folder, "--save", "",
                      "--appendonly", "yes", "--repl-diskless-sync-delay", "0", "--loadmodule", module, shared, str(os.geteuid())]
        self.start()

    def start(self, seconds=30):
        """Starts the server, and returns once it takes commands."""
        with open(self.log, "ab") as log:
            self.process = subprocess.Popen([SERVER, *self.words], stdin=subprocess.DEVNULL, stdout=log, stderr=log)
        end = time.monotonic() + seconds
        while True:
            try:
                with self.connect() as client:
                    return client.ask("PING")
            except (OSError, Failed) as fault:
                if time.monotonic() > end or self.process.poll() is not None:
                    raise Fault(f"no server {self.name}: {fault}\n{read_text(self.log)[-2000:]}") from fault
            time.sleep(0.01)

    def connect(self, **how):
        return Connection(self.path, **how)

    def ask(self, *words):
        with self.connect() as client:
            return client.ask(*words)

    def kill(self, how=signal.SIGKILL):
        self.process.send_signal(how)
        self.process.wait(20)

    def close(self):
        if self.process is not None and self.process.poll() is None:
            self.kill()

    def appended(self):
        """The text of its append-only file."""
        folder = os.path.join(self.folder, "appendonlydir")
        return "".join(read_text(os.path.join(folder, name)) for name in sorted(os.listdir(folder)) if name.endswith(".incr.aof"))

    def follow(self, other):
        """Copies another server from now on; returns once it has what that one has."""
        self.ask("REPLICAOF", "127.0.0.1", other.port)
        self.catch_up(other)

    def catch_up(self, other, seconds=20):
        end = time.monotonic() + seconds
        while True:
            with contextlib.suppress(StopIteration):
                wanted, got = (next(line for line in server.ask("INFO", "replication").split("\r\n") if line.startswith(what))
                               for server, what in ((other, "master_repl_offset:"), (self, "slave_repl_offset:")))
                if "master_link_status:up" in self.ask("INFO", "replication") and int(got.split(":")[1]) >= int(wanted.split(":")[1]):
                    return
            if time.monotonic() > end:
                raise Fault(f"{self.name} does not follow {other.name}")
            time.sleep(0.01)
