"""The metrics: name, type, labels and help of each, as the status of a machine and of a master have them, and the pages of a machine."""
import re

from pages.refusals import Faults
from pages.source import STRING, Missing, arms_in, function, sources, table, unescaped, words

NAME = "metrics.md"
HEAD = """\
# Metrics

This page, made by `tools/reference`, lists the metrics in the status of a machine and of a master, and the pages that they give over HTTP.

The status is in Prometheus' text format (0.0.4). Times are in seconds. `NaN` stands for what is not known yet. \
A counter never falls within a life of the machine. A histogram has samples by `_bucket` (with the label `le`), `_sum` and `_count`. \
The label `number` is that of a [refusal](refusals.md), and `server` counts from 0 in the order of the master's servers. \
[Alerts](alerts.md) says what to do when one is not as it should be.

"""
PAGES = """
## The pages over HTTP

A machine answers one request of HTTP/1.0 or 1.1 a connection, from this host, and from others where the address is not of loopback: GET, or HEAD for the head alone. Fields, and in a path what \
follows `?`, are ignored. A head has at most 4,096 bytes and 64 fields. A connection is closed after two seconds, and the first of eight if \
a ninth comes.

- `/`: 200 and a page for people: what `ttd top` draws, as SVG, read again each two seconds; made once a status at most
- `/metrics`: 200 and the status, of the type `text/plain; version=0.0.4; charset=utf-8`; 503 before the first round has ended
- `/evidence`: 200 and the evidence of the last publication; 404 before the first
- `/health`: 200 and `ok`, or 503 and a line for each reason (below)
- any other path gets 404, any other method 405 with `Allow: GET, HEAD`, what cannot become a request 400, and a longer head 431

An answer has `Content-Length`, `Connection: close` and a `Content-Type`, which is `text/plain; charset=utf-8` except for `/metrics` and `/` (`text/html`). The \
page runs and fetches nothing (`Content-Security-Policy`). A line of `/health` begins with

- `801:` nothing is published
- `1823:` `truetime_assumption_breaks_total` is above 0
- `1824:` `truetime_width_seconds` is above `max_width`
- `sources_stale:` `truetime_needed_answer_age_seconds` is above 3 (`poll` + `wait`), or NaN
- `sharing_ended:` `truetime_sharing` is 0, and `shared` is set
- `status_old:` the status is older than 10 (`poll` + `wait`) and a second

For ten minutes after a break (`truetime_last_break_timestamp_seconds`) it also has `last_life_broke N s ago: EVENT`, with either code.

A master does the same at `--http`, without evidence; `/` is a line of text. It looks once a second whether it would answer a poll. A line of its `/health` begins with

- `2401:` to `2407:` it answers none, by that [refusal](refusals.md)
- `clock_stepped:` it answers none (2408)
- `status_none:` it has no status yet
- `status_old:` the status is older than ten seconds
"""
CALLS = {"push_histogram": "Histogram", "push_width": "Gauge"}
# A label that a metric adds without a subject.
OWN_LABEL = re.compile(r'(?:text, "|",)(\w+)(?:"|=\\")')
METRIC = re.compile(rf'"(truetime_\w+)"(?=[,;][^"]*{STRING})')


class Metrics:
    """What the crate tt_status says of its metrics."""

    def __init__(self):
        self.files, self.faults = sources("tt_status"), Faults()
        self.labels = {patterns[0][1]: re.findall(r'text, "(\w+)"', answer) for patterns, answer in self.pushed()}
        self.words = words("metrics")

    def pushed(self):
        """The labels of each subject: what the arms of `push_labels` add."""
        text = " ".join(function(self.files["metrics.rt"], "push_labels"))
        for arm in re.split(r"(?=Subject::\w+[^=]*=>)", text):
            name = re.match(r"Subject::(\w+)", arm)
            if name:
                yield [("Subject", name[1])], arm

    def numbers(self, names):
        """The numbers of the faults that a text lists as variants."""
        return [str(self.faults.number_of(*name)) for name in names if name[0] in self.faults.arms]

    def listed(self, text, aspect):
        """The variants behind an aspect, in the list of a constant or in the text itself."""
        for name in re.findall(r"&([A-Z_]{2,})\b", text):
            text += re.search(rf"const {name}\b[^=]*= \[(.*?)\];", self.files["statuses.rt"], re.DOTALL)[1]
        return re.findall(rf"Aspect::{aspect}\((\w+)::(\w+)\)", text)

    def subjects(self, text):
        """The subjects of the samples of a metric, by its text: themselves, or by the aspects of a source."""
        by_aspect = {patterns[0][1]: answer for patterns, answer in arms_in(function(self.files["statuses.rt"], "subject", "Aspect"))}
        for aspect, answer in by_aspect.items():
            if aspect != "_" and self.listed(text, aspect):
                return [(re.search(r"Subject::(\w+)", answer)[1], self.listed(text, aspect))]
        if "aspects:" in text:
            return [("Source", [])]
        if "aspect:" in text:
            return [("Server", [])]
        return [(name, []) for name in re.findall(r"Subject::(\w+)", text)]

    def values(self, label, variants, text):
        """What a label may be, if that is a list."""
        if label == "outcome":
            return [answer.strip('"') for _, answer in arms_in(function(self.files["metrics.rt"], "word", "Outcome"))]
        if label != "number":
            return []
        found = self.numbers(variants) or self.numbers(re.findall(r"(\w+Fault)::(\w+)", text))
        if not found and "RefusedFusion::" in text:
            of = dict(re.findall(r"RefusedFusion::(\w+) => (\w+::\w+)", self.files["lines.rt"]))
            found = self.numbers([tuple(of[name].split("::")) for name in re.findall(r"RefusedFusion::(\w+)", text)])
        if not found and "NUMBERS[" in text:
            found = re.findall(r"\d+", re.search(r"const NUMBERS[^=]*= \[(.*?)\]", self.files["master_statuses.rt"], re.DOTALL)[1])
        return sorted(found, key=int)

    def row(self, first, name, text, help_text, found):
        """The row of a metric with this first label, by the text that makes it, its help and its type."""
        shown = [f"`{first}`"]
        for subject, variants in self.subjects(text):
            for label in self.labels[subject]:
                values = ", ".join(self.values(label, variants, text))
                cell = f"`{label}`" + (f" ({values})" if values else "")
                if label != "le" and cell not in shown:
                    shown.append(cell)
        shown += [f"`{label}`" for label in OWN_LABEL.findall(text)]
        kind = found.lower()
        if not kind:
            raise Missing(f"the metric {name} has no type")
        return [f"`{name}`", kind, ", ".join(shown), f"{unescaped(help_text)} {self.words.get(name, '')}".strip()]

    def rows(self, file, first):
        """The metrics of a source file, in its order."""
        text = self.files[file]
        starts = [found.start() for found in METRIC.finditer(text) if " " in found[2]]
        for start in starts:
            is_row = text[:start].endswith("name: ")
            part = re.match(r".*?(?=\n +\}\]?,)" if is_row else r".*?(?=\n\}\n)", text[start:], re.DOTALL)[0]
            after = [other - start for other in starts if start < other < start + len(part)]
            part = part[:min(after, default=len(part))]
            call = re.search(r"(push_\w+)\([^\"()]*$", text[:start])
            helpers = [] if is_row else helpers_of(text, part)
            kind = re.search(r"Kind::(\w+)", part)
            found = CALLS.get(call[1], "") if call and not is_row else ""
            part += "".join(" ".join(function(text, name)) for name in helpers)
            yield self.row(first, METRIC.match(text, start)[1], part, METRIC.match(text, start)[2], found or (kind[1] if kind else ""))


def helpers_of(text, part):
    """The functions of a source file that a part of it calls, and those that they call, in order."""
    found, parts = [], [part]
    for one in parts:
        for name in re.findall(r"(push_\w+)\(", one):
            if name not in found and f"fn {name}(" in text:
                found.append(name)
                parts.append(" ".join(function(text, name)))
    return found


def page():
    """The text of the page."""
    metrics = Metrics()
    heads = ["name", "type", "labels", "what it says"]
    machine = [*(row for file in ("statuses.rt", "breaks.rt", "slewings.rt", "services.rt", "infos.rt") for row in metrics.rows(file, "machine"))]
    master = [*metrics.rows("master_statuses.rt", "source"), *metrics.rows("server_statuses.rt", "source")]
    names = {row[0].strip("`") for row in machine + master}
    for name in metrics.words:
        if name not in names:
            raise Missing(f"words.toml has the metric {name}, which the program does not have")
    return f"{HEAD}## Of a machine\n\n{table(heads, machine)}\n## Of a master\n\n{table(heads, master)}{PAGES}"
