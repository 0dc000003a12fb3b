"""Each rule against a list that was written by hand: when an alert fires, how long that has to last, whom it wakes, and what it tells."""
import re

from harness.program import read_text
from suites.alerts import RULES, alerts_in, settings_in, suite

MACHINES = 'node_textfile_mtime_seconds{file=~".*truetime.*[.]prom", file!~".*truetime-master.*"}'
MASTERS = 'node_textfile_mtime_seconds{file=~".*truetime-master.*[.]prom"}'
PAGE, TICKET, AT_ONCE = "page", "ticket", ""


def risen(metric, in_time="5m"):
    """That a counter has risen in this time."""
    return f"increase(truetime_{metric}[{in_time}]) > 0"


def not_within(metric, rounds=3):
    """That an age is above so many rounds, or none."""
    return f"truetime_{metric} unless truetime_{metric} <= {rounds} * scalar(truetime:round_seconds)"


def unwritten(files, seconds="4 * scalar(truetime:round_seconds)"):
    """That these files are older than four rounds, or than so many seconds."""
    return f"timestamp({files}) - node_textfile_mtime_seconds > {seconds}"


def gone(files):
    """That these files were there within a day, and are not now."""
    return f"last_over_time({files}[1d]) unless node_textfile_mtime_seconds"


def against_hour(now, before, more):
    """That what is now is above twice that of the hour before, and more."""
    return f"{now} > {more} + 2 * {before}"


def machines(expr, *labels):
    """How many machines of a fleet show this."""
    return f"count by ({', '.join(('job', *labels))}) ({expr})"


MEAN = "rate(truetime_commit_wait_seconds_sum[{0}]) / rate(truetime_commit_wait_seconds_count[{0}])"
PAST_DRIFT = "abs(truetime_source_clock_rate_ratio) - truetime_source_clock_rate_error_ratio > scalar(truetime:drift_ratio)"
WANTED = {
    "TruetimeStatusOld": (unwritten(MACHINES), "1m", PAGE),
    "TruetimeStatusGone": (gone(MACHINES), "1m", PAGE),
    "TruetimeMasterStatusOld": (f'{unwritten(MASTERS, "5")} or {gone(MASTERS)}', "1m", TICKET),
    "TruetimeAssumptionBroken": (f'{risen("broken_lives_total", "15m")} or {risen("assumption_breaks_total", "15m")}', AT_ONCE, PAGE),
    "TruetimeRestarted": ("changes(truetime_epoch[15m]) > 0", AT_ONCE, TICKET),
    "TruetimeEpochFell": ("resets(truetime_epoch[1d]) > 0", AT_ONCE, PAGE),
    "TruetimeSourcesOld": (not_within("needed_answer_age_seconds"), "30s", PAGE),
    "TruetimeRoundsStale": (risen("rounds_stale_total"), AT_ONCE, TICKET),
    "TruetimeSourceOld": (machines(not_within("source_answer_age_seconds"), "source"), "1m", TICKET),
    "TruetimeClockRate": (f"count without (source) ({PAST_DRIFT}) > scalar(truetime:faulty)", "1m", PAGE),
    "TruetimeSourceRate": (machines(f"{PAST_DRIFT} unless on (job, instance, machine, source) truetime_source_suspect == 1", "source"), "1m", TICKET),
    "TruetimeSourceSuspect": (machines("truetime_source_suspect == 1", "source"), "1m", TICKET),
    "TruetimeNoTimePossible": (risen('fusions_refused_total{number="504"}'), AT_ONCE, PAGE),
    "TruetimeFusionOld": (not_within("fusion_age_seconds"), "1m", PAGE),
    "TruetimeTooFewSources": (risen('fusions_refused_total{number="701"}'), "1m", PAGE),
    "TruetimeSourceRefused": (machines(risen("source_rounds_refused_total"), "source", "number"), AT_ONCE, TICKET),
    "TruetimeAnswersRefused": (machines(f'{risen("answers_refused_total")} unless on (job, instance, machine) {risen("source_rounds_refused_total")}'),
                               AT_ONCE, TICKET),
    "TruetimePacketsUnsent": (machines(risen("source_packets_unsent_total"), "source"), AT_ONCE, TICKET),
    "TruetimePacketsUnopened": (machines(risen("source_packets_unopened_total"), "source", "number"), AT_ONCE, TICKET),
    "TruetimeStrangers": (machines(risen("strangers_total")), AT_ONCE, TICKET),
    "TruetimeWide": ("truetime_width_seconds > 0.5 * scalar(truetime:max_width_seconds)", "15s", PAGE),
    "TruetimeMasterSilent": (risen('master_unanswered_total{number=~"24.."}', "2m"), "2m", TICKET),
    "TruetimeMasterWide": ("truetime_master_width_seconds > scalar(truetime:warn_width_seconds)", "1m", TICKET),
    "TruetimeMasterKeysRefused": (risen("master_keys_refused_total", "15m"), AT_ONCE, TICKET),
    "TruetimeNotSharing": ("truetime_sharing == 0", "1m", TICKET),
    "TruetimeSleepUnseen": ("truetime_sleep_unseen == 1", "1m", TICKET),
    "TruetimeSlewedTooFast": ("truetime_slewed_base_withdrawn == 1", "2m", TICKET),
    "TruetimeSessionsFull": ("truetime_sessions_open > 0.45 * 320 * truetime_workers", "1m", TICKET),
    "TruetimeConnectionsWaiting": ("truetime_connections_waiting > 0", "1m", TICKET),
    "TruetimeCommitsWaiting": (against_hour("avg_over_time(truetime_commits_waiting[5m])", "avg_over_time(truetime_commits_waiting[1h] offset 5m)", 1),
                               "5m", TICKET),
    "TruetimeCommitWait": (against_hour(MEAN.format("5m"), MEAN.format("1h").replace("]", "] offset 5m"), 0.001), "5m", TICKET),
    "TruetimeRecordsLeftOut": (risen("records_left_out_total"), AT_ONCE, TICKET),
    "TruetimeLinesRefused": (risen("lines_refused_total"), AT_ONCE, TICKET),
}
SETTINGS = {"truetime:round_seconds", "truetime:drift_ratio", "truetime:faulty", "truetime:max_width_seconds", "truetime:warn_width_seconds"}


@suite.case()
def list_of_rules(trial):
    """Each alert: its expression, how long that has to hold, and its severity."""
    text = read_text(RULES)
    found = {}
    for alert in alerts_in(text):
        lasting, severity = re.search(r"^(?:for: (\w+)\n +)?labels: \{severity: (\w+)\}\n", alert.text).groups()
        found[alert.name] = alert.expr, lasting or AT_ONCE, severity
    trial.equal("alerts", list(found), list(WANTED))
    for name, wanted in WANTED.items():
        trial.equal(name, found.get(name), wanted)
    trial.equal("settings", set(settings_in(text)), SETTINGS)
    trial.note(f"{len(WANTED)} alerts; {len(trial.result.wrong)} wrong")


# How a label is shown, so that no other one stands in its place.
PLACES = {"machine": "[Mm]achine %s", "source": "[Ss]ource %s", "job": "of job %s", "instance": "(on|of) %s", "number": r"\(%s\)",
          "file": "^%s of "}
# What the words of an alert show; where nothing stands here, the machine and its host. Of what comes for a fleet, how many machines show it.
OF_MACHINE, OF_MASTER, OF_FLEET = {"machine", "instance"}, {"source", "instance"}, {"job", "value"}
OF_SOURCE = OF_FLEET | {"source"}
SHOWN = {
    **dict.fromkeys(("TruetimeSourceOld", "TruetimeSourceRate", "TruetimeSourceSuspect", "TruetimePacketsUnsent"), OF_SOURCE),
    "TruetimeSourceRefused": OF_SOURCE | {"number"}, "TruetimePacketsUnopened": OF_SOURCE | {"number"},
    "TruetimeAnswersRefused": OF_FLEET, "TruetimeStrangers": OF_FLEET,
    "TruetimeStatusOld": {"file", "instance", "duration"}, "TruetimeStatusGone": {"file", "instance"},
    "TruetimeMasterStatusOld": {"file", "instance"}, "TruetimeRestarted": OF_MACHINE | {"value"},
    "TruetimeWide": OF_MACHINE | {"duration"}, "TruetimeMasterSilent": OF_MASTER | {"number"}, "TruetimeMasterWide": OF_MASTER | {"duration"},
    "TruetimeMasterKeysRefused": OF_MASTER,
    "TruetimeSessionsFull": OF_MACHINE | {"value"}, "TruetimeCommitWait": OF_MACHINE | {"duration"},
}
VALUES = {"$value": "value", "$value | humanizeDuration": "duration"}


@suite.case()
def words_of_alerts(trial):
    """Each alert names its place among the runbooks, says what to do, and shows whose it is, each label where it belongs, and how much.

    One that counts machines has the query that lists them.
    """
    for alert in alerts_in(read_text(RULES)):
        notes = dict(re.findall(r'^ +(\w+): "(.*)"$', alert.text, re.MULTILINE))
        trial.equal(f"{alert.name}: annotations", list(notes), ["runbook", "summary", "description"])
        trial.equal(f"{alert.name}: runbook", notes["runbook"], f"reference/alerts.md#{alert.name.lower()}")
        trial.check(f"{alert.name}: description", len(notes["description"].split()) >= 10, "it says too little of what to do")
        trial.equal(f"{alert.name}: what the description fills in", re.findall(r"\{\{.*?\}\}", notes["description"]), [])
        summary = notes["summary"]
        shown = {VALUES.get(one, one.removeprefix("$labels.")) for one in re.findall(r"\{\{ (.*?) \}\}", summary)}
        trial.equal(f"{alert.name}: what is shown", shown, SHOWN.get(alert.name, OF_MACHINE))
        for label in PLACES.keys() & shown:
            place = PLACES[label] % re.escape(f"{{{{ $labels.{label} }}}}")
            trial.check(f"{alert.name}: {label}", re.search(place, summary), f"it has no {place!r}: {summary}")
        if alert.counts_by:
            query = f"`{alert.expr.partition(') (')[2][:-1]}` lists the machines."
            trial.check(f"{alert.name}: query", notes["description"].endswith(query), f"it does not end with {query}")
            trial.check(f"{alert.name}: machines", re.search(r"\$value \}\} of (its|the) machines", summary), f"it has no number of them: {summary}")
            trial.check(f"{alert.name}: severity", "severity: ticket" in alert.text, "what one machine shows is a page for all")
