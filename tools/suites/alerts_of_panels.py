"""Each panel of the dashboard, against a list that was written by hand: what it shows, in which unit, and how its lines are called."""
import json
import re

from harness.program import read_text
from suites.alerts import DASHBOARD, suite

# The panels of each row. A panel has its unit, and of each line its expression and what its name ends with. In expressions `NAME` is a metric
# of the hosts and machines that are chosen, `+NAME` its rate, and `99 NAME` that part of a hundred of a histogram.
ROWS = {
    "Alarms and lives": {
        "Alerts that fire": ("short", {'=count(ALERTS{alertname=~"Truetime.*", alertstate="firing"}) or vector(0)': "=alerts"}),
        "Machines": ("short", {"=count(truetime_epochS) or vector(0)": "=machines"}),
        "Epoch": ("short", {"epoch": ""}),
        "Age of the status": ("s", {
            '=timestamp(node_textfile_mtime_seconds{file=~".*truetime.*[.]prom", instance=~"$instance"}) - node_textfile_mtime_seconds':
                "={{instance}} {{file}}"}),
        "Broken assumptions, host asleep": ("short", {"=increase(truetime_broken_lives_totalS[1h])": "broken lives",
                                                      "=increase(truetime_assumption_breaks_totalS[1h])": "breaks",
                                                      "=increase(truetime_slept_seconds_totalS[1h])": "seconds asleep",
                                                      "sleep_unseen": "sleep unseen"}),
        "Versions": ("short", {"build_info": "="}),
    },
    "Readings": {
        "Width of a reading": ("s", {"width_seconds": "", "=truetime:max_width_seconds < Inf": "=max_width",
                                     "99 reading_width_seconds": "99 % of publications"}),
        "Age of the last fusion, and of n - f answers": ("s", {"fusion_age_seconds": "fusion", "needed_answer_age_seconds": "n - f answers",
                                                               "newest_answer_age_seconds": "newest answer"}),
        "Rounds and publications": ("ops", {"+rounds_total": "rounds", "+publications_total": "publications", "+rounds_stale_total": "stale rounds"}),
        "Refused fusions and answers": ("ops", {"+fusions_refused_total": "fusions {{number}}", "+answers_refused_total": "answers"}),
        "Rate of CLOCK_MONOTONIC": ("percentunit", {"slewed_clock_rate_ratio": ""}),
        "Readers by CLOCK_MONOTONIC": ("short", {"slewed_base_withdrawn": "told nothing",
                                                 "=increase(truetime_slewed_base_withdrawals_totalS[1h])": "times"}),
    },
    "Sources": {
        "Sources that are known, and suspects": ("short", {"sources": "all", "sources_known": "known",
                                                           "=sum by (machine, instance) (truetime_source_suspectS)": "suspects"}),
        "Age of the last answer": ("s", {"source_answer_age_seconds": "source {{source}}"}),
        "Round trip, last": ("s", {"source_round_trip_seconds": "source {{source}}"}),
        "Round trip, of all answers": ("s", {"50 round_trip_seconds": "50 %", "99 round_trip_seconds": "99 %"}),
        "Ends of the sources' spans": ("s", {"source_lower_seconds": "source {{source}} lower", "source_upper_seconds": "source {{source}} upper"}),
        "Rate of the clock": ("percentunit", {"source_clock_rate_ratio": "source {{source}}",
                                              "source_clock_rate_error_ratio": "source {{source}} error", "=truetime:drift_ratio": "=drift"}),
        "Rounds by what became of the source": ("ops", {
            '=rate(truetime_source_rounds_total{machine=~"$machine", instance=~"$instance", outcome!="accepted"}[$__rate_interval])':
                "source {{source}} {{outcome}}",
            "+source_rounds_refused_total": "source {{source}} {{number}}"}),
        "Packets that could not be sent": ("ops", {"+source_packets_unsent_total": "source {{source}}"}),
        "Packets that did not open, and strangers'": ("ops", {"+source_packets_unopened_total": "source {{source}} {{number}}",
                                                              "+strangers_total": "strangers"}),
        "Keys": ("short", {"source_key": "source {{source}}"}),
        "Addresses": ("short", {"source_info": "="}),
    },
    "Clients": {
        "Lines and sessions": ("ops", {"+lines_total": "lines", "+lines_refused_total": "refused", "+sessions_total": "sessions",
                                     "+connections_unserved_total": "unserved"}),
        "Open sessions, workers, and connections that wait": ("short", {
            "workers": "workers", "workers_busy": "busy", "connections_waiting": "connections waiting", "sessions_open": "sessions"}),
        "Commit wait": ("s", {
            "50 commit_wait_seconds": "50 %", "99 commit_wait_seconds": "99 %",
            "=rate(truetime_commit_wait_seconds_sumS[$__rate_interval]) / rate(truetime_commit_wait_seconds_countS[$__rate_interval])": "mean"}),
        "Commits that wait": ("short", {"commits_waiting": ""}),
        "Shared file": ("bool", {"sharing": ""}),
        "Records left out": ("ops", {"+records_left_out_total": ""}),
    },
    "Masters": {
        "Answers of masters": ("ops", {"+master_answers_total": "key {{key}}", "+master_dropped_total": "dropped {{number}}"}),
        "Packets that were not answered": ("ops", {"+master_unanswered_total": "{{number}}"}),
        "Width of answers": ("s", {"master_width_seconds": "last", "master_width_max_seconds": "greatest",
                                   "=truetime:warn_width_seconds < Inf": "=--warn-width"}),
        "Versions and keys of masters": ("short", {
            '=truetime_master_keys{instance=~"$instance"} * on (instance, source) group_left (version) truetime_master_build_info{instance=~"$instance"}':
                "={{instance}} {{source}} {{version}}",
            "=increase(truetime_master_keys_refused_totalS[1h])": "files refused"}),
        "Servers that give no time": ("short", {f"master_server_{name}": f"server {{{{server}}}} {name}" for name in ("silence", "stratum", "leap")}),
        "Widths of servers": ("s", {"master_server_root_distance_seconds": "server {{server}} root distance",
                                    "master_server_age_seconds": "server {{server}} age", "master_server_width_seconds": "server {{server}} width"}),
        "Requests and replies of servers": ("ops", {
            f"+master_server_{name}_total": f"server {{{{server}}}} {name}" for name in ("requests", "replies", "refused", "kisses")}),
    },
}
# Panels that are no lines over time: their type, the colours from which number on, and what else their questions have.
OTHERS = {
    "Alerts that fire": ("stat", [("green", None), ("red", 1)], [{}]),
    "Machines": ("stat", [], [{}]),
    **dict.fromkeys(("Versions", "Addresses"), ("table", [], [{"format": "table", "instant": True}])),
}
OF_MACHINE, OF_MASTER = '{machine=~"$machine", instance=~"$instance"}', '{instance=~"$instance"}'


def line_of(expr, name):
    """The expression and the name of a line, in full."""
    of, who = (OF_MASTER, "{{source}}") if "master_" in expr else (OF_MACHINE, "{{machine}}")
    full = f"{{{{instance}}}} {who} {name}".strip() if not name.startswith("=") else name[1:]
    if expr.startswith("="):
        return re.sub(r"(truetime_\w+?)S\b", lambda found: found[1] + of, expr[1:]), full
    if expr.startswith("+"):
        return f"rate(truetime_{expr[1:]}{of}[$__rate_interval])", full
    if found := re.fullmatch(r"(\d\d) (\w+)", expr):
        part = int(found[1]) / 100
        return f"histogram_quantile({part:g}, sum by (le, machine, instance) (rate(truetime_{found[2]}_bucket{of}[$__rate_interval])))", full
    return f"truetime_{expr}{of}", full


def kind_of(panel):
    """Its type, the colours from which number on, and what its questions have beside their expressions and names."""
    steps = panel["fieldConfig"]["defaults"].get("thresholds", {"steps": []})["steps"]
    asked = [{key: value for key, value in target.items() if key not in ("refId", "expr", "legendFormat")} for target in panel["targets"]]
    return panel["type"], [(step["color"], step["value"]) for step in steps], asked


@suite.case()
def panels(trial):
    """What each panel shows."""
    rows, lines = {}, 0
    for panel in sorted(json.loads(read_text(DASHBOARD))["panels"], key=lambda panel: (panel["gridPos"]["y"], panel["gridPos"]["x"])):
        if panel["type"] == "row":
            row = rows.setdefault(panel["title"], {})
        else:
            lined = "timeseries", [], [{} for _ in panel["targets"]]
            trial.equal(f"how {panel['title']} is shown", kind_of(panel), OTHERS.get(panel["title"], lined))
            row[panel["title"]] = panel["fieldConfig"]["defaults"]["unit"], [(target["expr"], target["legendFormat"]) for target in panel["targets"]]
    trial.equal("rows", list(rows), list(ROWS))
    for row, wanted in ROWS.items():
        found = rows.get(row, {})
        trial.equal(f"panels of {row}", list(found), list(wanted))
        for title, (unit, listed) in wanted.items():
            lines += len(listed)
            trial.equal(title, found.get(title), (unit, [line_of(expr, name) for expr, name in listed.items()]))
    trial.note(f"{sum(map(len, ROWS.values()))} panels with {lines} lines; {len(trial.result.wrong)} wrong")


SOURCE = {"type": "prometheus", "uid": "${datasource}"}
ALL = {"refresh": 2, "sort": 1, "includeAll": True, "multi": True, "allValue": ".*", "options": [],
       "current": {"text": ["All"], "value": ["$__all"]}}


def choice(name, label, query):
    """A choice of a label's values, which begins with all of them."""
    return {"name": name, "label": label, "type": "query", "datasource": SOURCE, "definition": query, **ALL,
            "query": {"query": query, "refId": name}}


# What stands around the panels: what is looked at by default and how often, and what can be chosen.
FRAME = {
    "uid": "truetime", "title": "Time service", "tags": ["truetime"], "schemaVersion": 38, "version": 1, "editable": True, "graphTooltip": 1,
    "refresh": "15s", "timezone": "browser", "time": {"from": "now-1h", "to": "now"}, "annotations": {"list": []}, "links": [],
    "templating": {"list": [
        {"name": "datasource", "label": "Prometheus", "type": "datasource", "query": "prometheus", "refresh": 1, "options": [], "current": {}},
        choice("instance", "Host", 'label_values({__name__=~"truetime_(master_)?build_info"}, instance)'),
        choice("machine", "Machine", "label_values(truetime_epoch, machine)")]},
}
LEGEND = {"legend": {"displayMode": "list", "placement": "bottom", "showLegend": True}, "tooltip": {"mode": "multi", "sort": "none"}}
RED_FROM_ONE = {"mode": "absolute", "steps": [{"color": "green", "value": None}, {"color": "red", "value": 1}]}


@suite.case()
def frame(trial):
    """What stands around the panels, and what each of them has beside its lines: its place in a row, its legend, and its colours."""
    dashboard = json.loads(read_text(DASHBOARD))
    panels_of_all = dashboard.pop("panels")
    trial.check("description", dashboard.pop("description", ""), "there is none")
    for name in sorted({*FRAME, *dashboard}):
        trial.equal(name, dashboard.get(name), FRAME.get(name))
    for panel in panels_of_all:
        title, is_row = panel["title"], panel["type"] == "row"
        size = (24, 1) if is_row else (8, 8)
        trial.equal(f"size of {title}", (panel["gridPos"]["w"], panel["gridPos"]["h"], panel["gridPos"]["x"] % size[0]), (*size, 0))
        if not is_row:
            trial.equal(f"options of {title}", panel["options"], LEGEND if panel["type"] == "timeseries" else {})
            rest = {key: value for key, value in panel["fieldConfig"]["defaults"].items() if key != "unit"}
            wanted = {"thresholds": RED_FROM_ONE} if title == "Alerts that fire" else {}
            trial.equal(f"fields of {title}", (rest, panel["fieldConfig"]["overrides"]), (wanted, []))
        else:
            trial.equal(f"row {title}", (panel["collapsed"], panel["panels"]), (False, []))
