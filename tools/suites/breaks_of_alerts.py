"""Scenarios of the suite `breaks`: what a Prometheus with the shipped rules tells of a machine whose lives end."""
import contextlib
import json
import os
import re
import socket
import subprocess
import time
import urllib.parse
import urllib.request

from harness.faults import disrupt, page
from harness.processes import SECOND, free_port
from harness.program import in_top, read_text, run, write
from suites.breaks import suite
from suites.breaks_world import World
from suites.wiring_checks import eventually
from suites.wiring_of_pages import get

ALERT, OFTEN = "TruetimeAssumptionBroken", "500ms"


class Prometheus:
    """A Prometheus that collects the page of a machine and evaluates the shipped rules twice a second."""

    def __init__(self, trial, target):
        self.port, self.log = free_port(socket.SOCK_STREAM), f"{trial.room}/prometheus.log"
        settings = f"{trial.room}/prometheus.yml"
        write(settings, json.dumps({
            "global": {"scrape_interval": OFTEN, "scrape_timeout": OFTEN, "evaluation_interval": OFTEN},
            "rule_files": [in_top("packaging/alerts.yml")],
            "scrape_configs": [{"job_name": "truetime", "static_configs": [{"targets": [target]}]}]}).encode())
        words = [f"--config.file={settings}", f"--storage.tsdb.path={trial.room}/prometheus", f"--web.listen-address=127.0.0.1:{self.port}"]
        with open(self.log, "wb") as log:
            self.running = subprocess.Popen(["prometheus", *words, "--log.level=warn"], stdout=log, stderr=log)

    def ask(self, expression):
        """The samples of an expression: their labels, and their values as texts. None while it does not answer."""
        words = urllib.parse.urlencode({"query": expression})
        with contextlib.suppress(OSError):
            with urllib.request.urlopen(f"http://127.0.0.1:{self.port}/api/v1/query?{words}", timeout=2) as reply:
                return [(sample["metric"], sample["value"][1]) for sample in json.load(reply)["data"]["result"]]
        return None

    def firing(self):
        """The names of the alerts that fire."""
        return {labels["alertname"] for labels, _ in self.ask('ALERTS{alertstate="firing"}') or ()}

    def close(self):
        self.running.kill()
        self.running.wait()


@suite.case(programs=("prometheus",))
def broken_life_pages(trial):
    """A life ends since an assumption is broken, and the next one serves at once: the page comes, though nothing was collected between."""
    path, target = os.path.join(trial.room, "vmclock0"), f"127.0.0.1:{free_port(socket.SOCK_STREAM)}"
    write(path, page(1))
    world = World(trial, vmclock=path, http=target)
    prometheus = trial.keep(Prometheus(trial, target))
    for marker in (2, 3):
        wanted = [str(marker - 2)]
        if not eventually(lambda wanted=wanted: [value for _, value in prometheus.ask("truetime_broken_lives_total") or ()] == wanted, 20):
            yield f"{wanted} is not collected: {prometheus.ask('truetime_broken_lives_total')}; {read_text(prometheus.log)[-300:]}"
        if marker == 2 and ALERT in prometheus.firing():
            yield "it fires before any break"
        ended, status = world.end(disrupt(path, marker))
        if not ended or status != 3:
            yield f"break {marker - 1}: status {status}"
    if not eventually(lambda: ALERT in prometheus.firing(), 20):
        yield f"after two breaks {sorted(prometheus.firing())} fire"
    if not eventually(lambda: world.number("broken_lives_total") == 2, 20):
        yield f"{world.number('broken_lives_total')} lives ended so, and 2 is wanted"
    if world.number("assumption_breaks_total") != 0:
        yield f"{world.number('assumption_breaks_total')} breaks in the new life"
    yield from world.goes_on_rightly()


@suite.case()
def broken_life_is_told(trial):
    """Once a life has broken, the next one is well by `/health`, which has a line of it, and `top` says when and why."""
    path, port = os.path.join(trial.room, "vmclock0"), free_port(socket.SOCK_STREAM)
    write(path, page(1))
    world = World(trial, vmclock=path, http=f"127.0.0.1:{port}")
    if not eventually(lambda: get(port, "/health").text == "ok\n", 20):
        yield f"before any break: {get(port, '/health')}"
    if (early := world.number("last_break_timestamp_seconds")) is not None:
        yield f"before any break the status tells of one at {early}"
    since = disrupt(path, 2)
    ended, status = world.end(since)
    if not ended or status != 3:
        yield f"the break: status {status}"

    def told():
        with contextlib.suppress(OSError, ValueError):
            answer = get(port, "/health")
            line = re.fullmatch(r"ok\nlast_life_broke (\d+) s ago: guest_disrupted\n", answer.text)
            return answer.words == "200 OK" and line and (since - time.time_ns()) // SECOND <= -int(line[1]) <= 0
        return None

    if not eventually(told, 20):
        yield f"after the break: {get(port, '/health')}"
    broke = world.number("last_break_timestamp_seconds") or 0
    if not since / SECOND - 0.001 <= broke <= ended / SECOND + 0.001:
        yield f"the status says {broke}, and the life ended from {since / SECOND} to {ended / SECOND}"
    ran = run([trial.program, "top", world.node.path("node.toml"), "--once"], cwd=world.node.folder)
    if not re.search(r"^! the last life broke +\d+\.\d{3} ( s|ms) ago: guest_disrupted$", ran.said, re.M):
        yield f"top: {ran.said}{ran.error}"
