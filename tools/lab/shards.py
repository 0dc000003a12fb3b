"""Members of etcd, and the shards of demo/failover whose leaders move, as processes on hosts."""
import contextlib
import json
import os
import signal
import subprocess
import time
import typing
import urllib.error
import urllib.request

from harness.processes import Fault
from harness.program import in_top, read_text
from lab.hosts import Host, inside
from lab.services import SESSIONS, Machine, OnHost

CLIENTS, PEERS, AGENTS = 2379, 2380, 7000
#: What etcd gives a leader, and how far a span reaches ahead.
TTL_S, SPAN_S = 1, 0.8
LONGEST_GAP_S = 30.0
#: Asks without the proxies that the environment may name.
DIRECT = urllib.request.build_opener(urllib.request.ProxyHandler({}))


def build(folder: str) -> str:
    """Builds demo/failover into a folder; what was made."""
    made = os.path.join(folder, "failover")
    subprocess.run(["go", "build", "-buildvcs=false", "-o", made, "."], cwd=in_top("demo/failover"), check=True)
    return made


def ask(host: Host, url: str, given: bytes | None = None, seconds: float = 0.3, method: str | None = None) -> str:
    """What is answered to a host, or nothing."""
    with contextlib.suppress(OSError, urllib.error.URLError), inside(host.space), \
            DIRECT.open(urllib.request.Request(f"http://{url}", given, method=method), timeout=seconds) as answer:
        return answer.read().decode()
    return ""


class Other(OnHost):
    """Another program on a host. It is down from when it was killed until it is started."""

    def __init__(self, host: Host, name: str, program: str, *words: str, listens: str = ""):
        self.other, self.is_down, self.listens = program, False, listens
        super().__init__(host, name, words)

    def start(self) -> None:
        """Starts it, where it does not run."""
        if self.running and self.running.poll() is None:
            return
        self.start_program(self.other)
        self.is_down = False

    def kill(self) -> None:
        self.is_down = True
        super().kill()

    def ended_by_pipe(self) -> bool:
        """Whether it printed to a pipe that nobody reads any more, which ends programs."""
        return bool(self.pipe) and self.running.poll() == -signal.SIGPIPE

    def terminate(self) -> None:
        """Lets it end in order."""
        self.is_down = True
        self.running.terminate()


class Etcd:
    """A member on each of these hosts. What is asked of them is asked from another host."""

    def __init__(self, hosts: typing.Sequence[Host], asking: Host):
        self.asking = asking
        cluster = ",".join(f"{host.name}=http://{host.at(PEERS)}" for host in hosts)
        self.members = [self.member(host, cluster) for host in hosts]
        self.urls = ",".join(f"http://{host.at(CLIENTS)}" for host in hosts)

    @staticmethod
    def member(host: Host, cluster: str) -> Other:
        peer, client = f"http://{host.at(PEERS)}", f"http://{host.at(CLIENTS)}"
        return host.lab.keep(Other(
            host, f"etcd-{host.name}", "etcd", "--name", host.name, "--data-dir", os.path.join(host.lab.room, f"etcd-{host.name}"),
            "--initial-cluster", cluster, "--listen-peer-urls", peer, "--initial-advertise-peer-urls", peer, "--listen-client-urls", client,
            "--advertise-client-urls", client, "--heartbeat-interval", "50", "--election-timeout", "500", "--logger", "zap"))

    def leader(self, but: Other | None = None, seconds: float = LONGEST_GAP_S) -> Other:
        """The member that leads, other than this one."""
        end = time.monotonic() + seconds
        while time.monotonic() < end:
            for member in self.members:
                said = member is not but and ask(self.asking, f"{member.host.at(CLIENTS)}/v3/maintenance/status", b"{}")
                status = json.loads(said or "{}")
                if status.get("leader") and status["leader"] == status["header"]["member_id"]:
                    return member
            time.sleep(0.005)
        raise Fault(f"no member of etcd leads in {seconds} seconds")


class Shard:
    """A shard: an agent beside each of these machines, which stamps by its sessions or by the file that it shares, and users on another host."""

    def __init__(self, etcd: Etcd, program: str, number: int, machines: typing.Sequence[Machine], by_sessions: bool,
                 of_agents: typing.Sequence[str] = ()):
        self.etcd, self.program, self.number, self.asking = etcd, program, number, etcd.asking
        self.agents: dict[str, Other] = {}
        for machine in machines:
            host = machine.host
            by = f"127.0.0.1:{SESSIONS}" if by_sessions else machine.path("shared")
            self.agents[host.at(AGENTS + number)] = host.lab.keep(Other(
                host, f"agent-{number}-{host.name}", program, "agent", "-name", host.name, "-listen", host.at(AGENTS + number), "-shard", str(number),
                "-etcd", etcd.urls, "-machine", by, "-sessions", "4", "-ttl", f"{TTL_S}s", "-span", f"{SPAN_S}s", *of_agents,
                listens=host.at(AGENTS + number)))
        self.history = os.path.join(self.asking.lab.room, f"history-{number}")
        self.users: Other | None = None

    def start_users(self, users: int, pause: str, patience: str = "1s") -> None:
        self.users = self.asking.lab.keep(Other(
            self.asking, f"users-{self.number}", self.program, "users", "-agents", ",".join(self.agents), "-shard", str(self.number),
            "-history", self.history, "-users", str(users), "-pause", pause, "-patience", patience))

    def leader(self) -> Other | None:
        """The agent that leads the latest term, where one says so."""
        terms = {address: int(ask(self.asking, f"{address}/term") or 0) for address in self.agents}
        address = max(terms, key=terms.get)
        return self.agents[address] if terms[address] else None

    def await_leader(self, seconds: float = LONGEST_GAP_S) -> Other:
        """The agent that leads, once one says so."""
        end = time.monotonic() + seconds
        while not (leader := self.leader()):
            if time.monotonic() > end:
                raise Fault(f"shard {self.number}: no leader in {seconds} seconds")
            time.sleep(0.02)
        return leader

    def await_commit(self, seconds: float = LONGEST_GAP_S) -> float:
        """Returns once a commit is acknowledged: after how many seconds."""
        began = time.monotonic()
        while not any(ask(self.asking, f"{address}/keys/driver", b"", 4, "PUT") for address in self.agents):
            if time.monotonic() > began + seconds:
                logs = "".join(f"{agent.name}: {agent.end_of_log()[-500:]}\n" for agent in self.agents.values())
                raise Fault(f"shard {self.number}: no commit in {seconds} seconds\n{logs}")
            time.sleep(0.02)
        return time.monotonic() - began

    def end(self, seconds: float = 240) -> int:
        """Ends the users, who then look whether all replicas have what was acknowledged: how much is missing."""
        self.users.running.stdin.close()
        self.users.is_down = True
        try:
            self.users.running.wait(seconds)
        except subprocess.TimeoutExpired as late:
            raise Fault(f"shard {self.number}: its users do not end: {self.users.end_of_log()}") from late
        *_, missing = read_text(self.users.log).split() or ["-1"]
        return int(missing)


def stop(running: subprocess.Popen) -> typing.Callable[[], None]:
    """Stops a process; what lets it go on."""
    running.send_signal(signal.SIGSTOP)
    return lambda: running.send_signal(signal.SIGCONT)


def is_stopped(running: subprocess.Popen) -> bool:
    with contextlib.suppress(OSError):  # it may have ended
        return read_text(f"/proc/{running.pid}/stat").rpartition(")")[2].split()[0] == "T"
    return False
