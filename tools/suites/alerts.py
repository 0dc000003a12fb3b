"""Checks the rules of Prometheus and the dashboard of Grafana in packaging/.

- promtool takes the rules, and packaging/alerts_test.yml says of each alert when it fires and when not. The settings at their top are those
  of the fleet of docs/OPERATING.md, where it has none the defaults of docs/reference/settings.md; those that stand there in their place are
  followed.
- Each metric that rules or dashboard name, with its labels, is in the status of a machine that runs. Each alert says what to do, and where
  docs/reference/alerts.md has it.
- By the statuses of a machine that runs nothing fires; once three of its five masters are cut, and once it is stopped, the alerts that
  are meant for that do. By those of two machines a master that lies is one ticket, and more than f of them are pages.
- Each rule and each panel is one that was meant (alerts_of_rules.py, alerts_of_panels.py).
- promtool takes each expression of the dashboard. No Grafana is here: its JSON is compared with what a dashboard of schema 38 has to have,
  as Grafana's documents of its JSON model say, and was not opened in one.
"""
import json
import os
import re
import signal
import socket
import time
import tomllib
import typing
from decimal import Decimal

from harness.metrics import read_metrics
from harness.processes import Process, free_port
from harness.program import in_top, read_text, run, write
from harness.suite import Suite, wrong_in
from lab.documented import one_block, section
from suites.wiring_checks import eventually

suite = Suite(__name__, at_once=4, longest_s=60, again=1, beside_s=14)
RULES, TESTS, DASHBOARD = "packaging/alerts.yml", "packaging/alerts_test.yml", "packaging/dashboard.json"
FIRING = 'count by (alertname, job, instance, machine, source) (ALERTS{alertstate="firing"})'
PAGES = 'count by (alertname, job, instance, machine, source) (ALERTS{alertstate="firing", severity="page"})'
# Settings that are no defaults, and those by which the machine of this suite runs: a round takes a quarter of a second.
OTHER = {"truetime:round_seconds": "10", "truetime:drift_ratio": "0.001", "truetime:faulty": "0", "truetime:max_width_seconds": "1",
         "truetime:warn_width_seconds": "0.1"}
# The alert that never fires by the settings at the top: `settings` provokes it.
UNLIMITED = {"TruetimeMasterWide"}
POLL, WAIT, ROUND_S = "150ms", "100ms", 0.25
SECONDS = {"ns": Decimal("1e-9"), "us": Decimal("1e-6"), "ms": Decimal("1e-3"), "s": Decimal(1)}


class Alert(typing.NamedTuple):
    name: str
    expr: str
    #: What else stands there.
    text: str

    @property
    def metrics(self):
        return set(re.findall(r"\btruetime_\w+", self.expr))

    @property
    def counts_by(self):
        """The labels by which it counts machines, or nothing where it comes for each of them."""
        counted = re.match(r"count by \(([\w, ]+)\) \(", self.expr)
        return set(counted[1].split(", ")) if counted else None


def settings_in(text):
    """The settings at the top of the rules, as texts."""
    return dict(re.findall(r'record: "(truetime:\w+)", expr: "vector\((\S+)\)"', text))


def alerts_in(text):
    """All alerts of the rules."""
    for part in text.split("- alert: ")[1:]:
        name, _, rest = part.partition("\n")
        expr, rest = re.fullmatch(r".*?^ +expr: (?:>-\n +)?(.*?)\n +((?:for|labels): .*)", rest, re.DOTALL | re.MULTILINE).groups()
        yield Alert(name, " ".join(expr.split()), rest)


def promtool(trial, what, *words):
    """A command of promtool that has to succeed."""
    ran = run(["promtool", *words], seconds=50, cwd=trial.room)
    trial.check(what, ran.status == 0, f"status {ran.status}\n{ran.said}{ran.error}")
    return ran.said + ran.error


def try_rules(trial, what, settings, tests):
    """Rules with these settings, and these tests in the form of promtool."""
    text = read_text(RULES)
    for name, value in settings.items():
        text = re.sub(rf'("{name}", expr: "vector)\(\S+\)', rf"\g<1>({value})", text)
    write(f"{trial.room}/alerts.yml", text.encode())
    trial.equal(f"{what}: settings", settings_in(text), settings_in(read_text(RULES)) | settings)
    write(f"{trial.room}/tests.yml", json.dumps({"rule_files": ["alerts.yml"], "evaluation_interval": "15s", "tests": tests}).encode())
    promtool(trial, what, "test", "rules", "tests.yml")


def fires(at, *labels, of=FIRING):
    """That these alerts fire at this time, and no other one does."""
    return {"eval_time": at, "expr": of, "exp_samples": [{"labels": one, "value": 1} for one in labels]}


def machine(trial, masters=None, name="A"):
    """A machine with five masters, two of which may be faulty, that has written a status; and its masters."""
    masters = masters or trial.masters(5)
    node = trial.running_node(masters, name, poll=POLL, wait=WAIT, shared=f"{trial.room}/time-{name}")
    trial.check("status", eventually(lambda: os.path.exists(node.path("status"))), "none is written")
    return node, masters


def labels_in_status(trial, path):
    """The names in a status, each with its labels."""
    metrics, wrong = read_metrics(read_text(path))
    trial.equal("status", wrong, [])
    return {name: set(labels) for metric in metrics.values() for name, labels, _ in metric.samples}


def labels_of_metrics(trial):
    """The names in the status of a machine that runs, and in that of a master over a server, each with its labels."""
    node, _ = machine(trial)
    path = f"{trial.room}/status-of-master"
    address = f"127.0.0.1:{free_port(socket.SOCK_DGRAM)}"
    server = f"127.0.0.1:{free_port(socket.SOCK_DGRAM)}"
    trial.keep(Process(trial, "master-with-status", ["master", "--source", "0", "--listen", address, "--ntp", server, "--status", path]))
    trial.check("status of a master", eventually(lambda: os.path.exists(path)), "none is written")
    return labels_in_status(trial, node.path("status")), labels_in_status(trial, path)


@suite.case(programs=("promtool",))
def rules(trial):
    """The rules, their tests, and their settings."""
    text, tests = read_text(RULES), read_text(TESTS)
    alerts, settings = list(alerts_in(text)), settings_in(text)
    said = promtool(trial, "check rules", "check", "rules", in_top(RULES))
    trial.check("check rules", f"SUCCESS: {len(alerts) + len(settings)} rules found" in said, said)
    trial.equal("names", len({alert.name for alert in alerts}), len(alerts))
    promtool(trial, "test rules", "test", "rules", in_top(TESTS))
    for alert in alerts:
        is_tested = f'{{labels: \'{{alertname="{alert.name}"' in tests or alert.name in UNLIMITED
        trial.check(alert.name, is_tested, f"{TESTS} never has it fire")
        trial.check(alert.name, re.search(r"severity: (page|ticket)\}", alert.text) and "summary: " in alert.text, "no severity or no summary")
    trial.note(f"{len(alerts)} alerts; {len(trial.result.wrong)} wrong")


def in_seconds(text):
    """A length of time of a configuration; without one there is no limit."""
    found = re.fullmatch(r"(\d+)(ns|us|ms|s)", text)
    return Decimal(found[1]) * SECONDS[found[2]] if found else Decimal("Inf")


def settings_in_recipe():
    """The settings of the fleet of docs/OPERATING.md, by the names that they have in the rules."""
    rows = re.findall(r"^\| `(\w+)` \|[^|]*\|[^|]*\| (.*?) \|", read_text("docs/reference/settings.md"), re.MULTILINE)
    given = {name: default.strip('`"') for name, default in rows} | tomllib.loads(one_block(section(), "machine = 0\n"))
    warned = re.search(r"--warn-width[ =](\d+)", one_block(section(), "SOURCE=0\n"))
    return {"truetime:round_seconds": in_seconds(given["poll"]) + in_seconds(given["wait"]),
            "truetime:drift_ratio": Decimal(given["drift"]) / 10**6, "truetime:faulty": Decimal(given["faulty"]),
            "truetime:max_width_seconds": in_seconds(given["max_width"]),
            "truetime:warn_width_seconds": in_seconds(f"{warned[1]}ns" if warned else "none")}


@suite.case(programs=("promtool",))
def settings(trial):
    """Other settings at the top of the rules, in which each has its effect. Those that stand there are those of docs/OPERATING.md."""
    trial.check("default of --warn-width", "[--warn-width NS]" in read_text("docs/reference/commands.md"), "there is no such option")
    shipped, recipe = settings_in(read_text(RULES)), settings_in_recipe()
    trial.equal(f"settings of {RULES}", shipped.keys(), recipe.keys())
    for name, wanted in recipe.items():
        trial.equal(f"{name}, and what docs/OPERATING.md sets", Decimal(shipped.get(name, "nan")), wanted)
    try_rules(trial, "other settings", OTHER, [{"interval": "15s", "input_series": [
        {"series": 'truetime_width_seconds{machine="0"}', "values": "0.5x40 0.51x40"},
        {"series": 'truetime_master_width_seconds{source="1"}', "values": "0.1x40 0.11x40"},
        {"series": 'truetime_fusion_age_seconds{machine="0"}', "values": "30x40 30.1x40"},
        {"series": 'truetime_source_clock_rate_ratio{machine="0",source="1"}', "values": "0.0019x40 0.0021x40"},
        {"series": 'truetime_source_clock_rate_error_ratio{machine="0",source="1"}', "values": "0.001x80"},
    ], "promql_expr_test": [fires("10m"), fires("15m", '{alertname="TruetimeWide",machine="0"}', '{alertname="TruetimeFusionOld",machine="0"}',
                                                '{alertname="TruetimeClockRate",machine="0"}',
                                                '{alertname="TruetimeSourceRate",source="1"}',
                                                '{alertname="TruetimeMasterWide",source="1"}')]}])


def sample(node, series, at_s):
    """Appends what its status shows, as the collector of its host, which has its name, would hand it on at this time."""
    numbers = [one for metric in read_metrics(read_text(node.path("status")))[0].values() for one in metric.samples]
    age_s = time.time() - os.stat(node.path("status")).st_mtime
    numbers.append(("node_textfile_mtime_seconds", {"file": "/run/truetime/a/status.prom"}, f"{at_s - age_s:f}"))
    for name, labels, value in numbers:
        listed = ",".join(f'{label}="{given}"' for label, given in {"job": "db", "instance": node.name, **labels}.items())
        series.setdefault(f"{name}{{{listed}}}", []).append("NaN" if value is None else str(value))


def watch(trial, nodes, phases, tests):
    """Samples of machines, one of promtool's 15 seconds in each round; before some of them something is done. These tests hold of them."""
    series = {}
    for turn in range(54):
        phases.get(turn, list)()
        time.sleep(ROUND_S)
        for node in nodes:
            sample(node, series, turn * 15)
    trial.equal("samples", {len(values) for values in series.values()}, {54})
    try_rules(trial, "rules", {"truetime:round_seconds": str(ROUND_S), "truetime:max_width_seconds": "Inf"}, [{
        "interval": "15s", "input_series": [{"series": name, "values": " ".join(values)} for name, values in series.items()],
        "promql_expr_test": tests}])


def of_machine(name, host="A"):
    """An alert of the machine on this host."""
    return f'{{alertname="{name}",job="db",instance="{host}",machine="0"}}'


def of_source(name, source):
    """An alert of a source, which is one for all machines."""
    return f'{{alertname="{name}",job="db",source="{source}"}}'


@suite.case(programs=("promtool",))
def cut(trial):
    """Three of five masters are cut, and then the machine is stopped."""
    node, masters = machine(trial)
    wanted = [of_machine("TruetimeSourcesOld"), of_machine("TruetimeRoundsStale"), *(of_source("TruetimeSourceOld", source) for source in range(3))]
    watch(trial, [node], {12: lambda: [master.kill() for master in masters[:3]], 36: lambda: node.running.send_signal(signal.SIGSTOP)}, [
        fires(f"{11 * 15}s"), fires(f"{35 * 15}s", *wanted),
        fires(f"{53 * 15}s", '{alertname="TruetimeStatusOld",job="db",instance="A"}', *wanted)])
    trial.note(f"{len(wanted)} alerts once three of five masters are cut, one more once the machine stands, none before; "
               f"{len(trial.result.wrong)} wrong")


@suite.case(programs=("promtool",))
def liars(trial):
    """Of five masters of two machines two are seconds off, which is a ticket for each of these masters; with a third one each machine pages."""
    one, masters = machine(trial)
    nodes = [one, machine(trial, masters, "B")[0]]
    off = [lambda master=master, seconds=seconds: master.restart_with(seconds * 10**9) for master, seconds in zip(masters, (10, -10, 20))]
    pages = [of_machine(name, host) for name in ("TruetimeFusionOld", "TruetimeNoTimePossible") for host in "AB"]
    watch(trial, nodes, {12: lambda: [lie() for lie in off[:2]], 36: off[2]}, [
        fires(f"{11 * 15}s"), fires(f"{35 * 15}s", *(of_source("TruetimeSourceSuspect", source) for source in range(2))),
        fires(f"{53 * 15}s", *pages, of=PAGES)])
    trial.note(f"two of five masters lie to two machines: two tickets, no page; three: {len(pages)} pages; {len(trial.result.wrong)} wrong")


# Metrics.

@suite.case()
def metrics(trial):
    """What rules and dashboard name is in a status, and each alert has its place in docs/reference/alerts.md."""
    of_machine, of_master = labels_of_metrics(trial)
    known, alerts, runbooks = of_machine | of_master, list(alerts_in(read_text(RULES))), read_text("docs/reference/alerts.md")
    for alert in alerts:
        trial.check(alert.name, alert.metrics or "node_textfile_mtime_seconds" in alert.expr, "no metric of the status")
        trial.equal(f"{alert.name}: metrics that no status has", alert.metrics - known.keys(), set())
        labels = set.intersection(*(known[name] for name in alert.metrics & known.keys())) if alert.metrics else {"file"}
        trial.equal(f"{alert.name}: labels to count by that are not there", (alert.counts_by or set()) - labels - {"job"}, set())
        named = set(re.findall(r"\$labels\.(\w+)", alert.text))
        trial.equal(f"{alert.name}: labels that it does not have", named - (alert.counts_by or labels | {"instance"}), set())
        trial.check(alert.name, f"\n## {alert.name}\n" in runbooks, "docs/reference/alerts.md does not have it")
        trial.equal(f"{alert.name}: metrics in its words", set(re.findall(r"\btruetime_\w+", alert.text)) - known.keys(), set())
    dashboard = json.loads(read_text(DASHBOARD))
    panels = [target["expr"] for panel in dashboard["panels"] for target in panel.get("targets", ())]
    shown = {name for expr in panels for name in re.findall(r"\btruetime_\w+", expr)}
    trial.equal("metrics of the dashboard that no status has", shown - known.keys(), set())
    trial.equal("metrics that it does not show", {name for name in known.keys() - shown if not name.endswith(("_sum", "_count"))}, set())
    try_hosts(trial, dashboard, of_machine, of_master)
    trial.note(f"{len(known)} metrics of a status, {len(set().union(*(alert.metrics for alert in alerts)))} in rules; {len(trial.result.wrong)} wrong")


def try_hosts(trial, dashboard, of_machine, of_master):
    """The hosts that the dashboard lists are those of machines, and those of masters."""
    variables = {variable["name"]: variable["query"]["query"] for variable in dashboard["templating"]["list"][1:]}
    found = re.fullmatch(r'label_values\(\{__name__=~"(.*)"\}, instance\)', variables["instance"])
    trial.check("hosts", found, variables["instance"])
    for what, names in ("machine", of_machine), ("master", of_master):
        trial.check(f"hosts of a {what}", any(re.fullmatch(found[1], name) for name in names) if found else False, "they are not listed")
    trial.equal("machines", variables["machine"], "label_values(truetime_epoch, machine)")


# The dashboard.

KINDS = {"row", "stat", "table", "timeseries"}
UNITS = {"short", "s", "ops", "percentunit", "bool"}
NEEDS = {"uid": str, "title": str, "tags": list, "schemaVersion": int, "version": int, "time": dict, "refresh": str, "templating": dict,
         "panels": list, "annotations": dict}
NEEDS_OF_PANEL = {"id": int, "type": str, "title": str, "gridPos": dict, "datasource": dict, "fieldConfig": dict, "options": dict,
                  "targets": list}


def missing(of, wanted):
    return [f"no {name} that is a {kind.__name__}" for name, kind in wanted.items() if not isinstance(of.get(name), kind)]


def faults_of_panel(panel, source):
    """What is wrong with the structure of a panel."""
    if panel.get("type") not in KINDS:
        yield f"the type {panel.get('type')}"
    if panel.get("type") == "row":
        yield from () if isinstance(panel.get("panels"), list) and isinstance(panel.get("collapsed"), bool) else ("not a row",)
        return
    yield from missing(panel, NEEDS_OF_PANEL)
    field = panel["fieldConfig"]
    if not isinstance(field.get("overrides"), list) or field.get("defaults", {}).get("unit") not in UNITS:
        yield f"the fields {field}"
    if panel["datasource"] != source:
        yield f"the source {panel['datasource']}"
    references = [target.get("refId") for target in panel["targets"]]
    if not references or references != [chr(65 + at) for at in range(len(references))]:
        yield f"the targets {references}"
    for target in panel["targets"]:
        yield from missing(target, {"expr": str, "legendFormat": str})


def faults_of_layout(panels):
    """What is wrong with the places of panels: 24 columns, and no two at one place."""
    taken = {}
    for panel in panels:
        place = panel["gridPos"]
        if place.keys() != set("hwxy") or min(place.values()) < 0 or min(place["h"], place["w"]) < 1 or place["x"] + place["w"] > 24:
            yield f"panel {panel['id']}: the place {place}"
            continue
        columns, lines = range(place["x"], place["x"] + place["w"]), range(place["y"], place["y"] + place["h"])
        below = {taken.setdefault((x, y), panel["id"]) for x in columns for y in lines} - {panel["id"]}
        yield from (f"panels {other} and {panel['id']} lie on each other" for other in below)


def faults_of_dashboard(dashboard):
    """What is wrong with its structure."""
    yield from missing(dashboard, NEEDS)
    variables = dashboard["templating"]["list"]
    names = [variable["name"] for variable in variables]
    if [variable["type"] for variable in variables] != ["datasource"] + ["query"] * (len(variables) - 1) or len(set(names)) < len(names):
        yield f"the variables {names}"
    source = {"type": variables[0]["query"], "uid": f"${{{names[0]}}}"}
    for variable in variables[1:]:
        if variable["datasource"] != source or variable["query"].keys() != {"query", "refId"}:
            yield f"the variable {variable['name']}"
    if len({panel.get("id") for panel in dashboard["panels"]}) < len(dashboard["panels"]):
        yield "two panels have one id"
    for panel in dashboard["panels"]:
        yield from (f"panel {panel.get('id')}: {fault}" for fault in faults_of_panel(panel, source))
    yield from faults_of_layout(dashboard["panels"])
    used = set(re.findall(r"\$\{?([a-z]+)", json.dumps(dashboard)))
    if used != set(names):
        yield f"the variables {sorted(used)} are used, and {sorted(names)} are there"


@suite.case()
def dashboard(trial):
    """The structure of the dashboard."""
    dashboard = json.loads(read_text(DASHBOARD))
    yield from faults_of_dashboard(dashboard)
    dashboard["panels"][1]["gridPos"], dashboard["panels"][2]["type"] = dashboard["panels"][3]["gridPos"], "graph"
    dashboard["panels"][4]["targets"][0].pop("expr")
    trial.equal("faults of a wrong one", len(list(faults_of_dashboard(dashboard))), 3)
    trial.note(f"{len(dashboard['panels'])} panels; its structure alone: no Grafana is here")


@suite.case(programs=("promtool",))
def expressions(trial):
    """Each expression of the dashboard, as that of a rule."""
    exprs = [target["expr"] for panel in json.loads(read_text(DASHBOARD))["panels"] for target in panel.get("targets", ())]
    replaced = [expr.replace("$__rate_interval", "1m").replace("$machine", ".*").replace("$instance", ".*") for expr in exprs]
    trial.equal("variables", [expr for expr in replaced if "$" in expr], [])
    for name, listed, status in ("expressions", replaced, 0), ("a wrong one", ["rate(truetime_epoch)"], 1):
        rules = [{"record": f"panel:{number}", "expr": expr} for number, expr in enumerate(listed)]
        write(f"{trial.room}/{name}.yml", json.dumps({"groups": [{"name": "dashboard", "rules": rules}]}).encode())
        ran = run(["promtool", "check", "rules", f"{trial.room}/{name}.yml"])
        trial.check(name, ran.status == status, f"status {ran.status}\n{ran.said}{ran.error}")
    trial.note(f"{len(exprs)} expressions; {len(trial.result.wrong)} wrong")


@suite.last_line
def last_line(results):
    return f"{sum(len(result.checks) for result in results)} checks, {wrong_in(results)} wrong"
