"""Reads a text of metrics, in the text format of Prometheus (version 0.0.4), and says what is wrong with it."""
import collections
import re
from decimal import Decimal

NAME = r"[a-zA-Z_:][a-zA-Z0-9_:]*"
SAMPLE = re.compile(rf'({NAME})(?:\{{(.*)\}})? (\S+)\Z')
LABEL = re.compile(r'([a-zA-Z_][a-zA-Z0-9_]*)="((?:[^"\\\n]|\\["\\n])*)"(?:,|\Z)')
VALUE = re.compile(r"NaN|-?[0-9]+(\.[0-9]+)?\Z")
OF_HISTOGRAMS = "_bucket", "_sum", "_count"
# Parts of names that are units, but no base units: seconds, bytes and ratios are.
OTHER_UNITS = {"nanoseconds", "microseconds", "milliseconds", "minutes", "hours", "days", "ns", "us", "ms", "sec", "bits", "kilobytes",
               "megabytes", "percent"}


class Metric:
    """What stands under one name: its help, its kind, and its samples, each with its name, its labels and its value. The names of those of a
    histogram have a word more."""

    def __init__(self):
        self.help = self.kind = None
        self.samples = []


def number_in(text):
    """A whole number, a decimal one, or nothing for `NaN`."""
    return None if text == "NaN" else Decimal(text) if "." in text else int(text)


def labels_in(text):
    """The labels in a text by their names, or nothing where it has another form."""
    found, at = {}, 0
    while at < len(text):
        if not (match := LABEL.match(text, at)) or match[1] in found:
            return None
        found[match[1]], at = match[2], match.end()
    return found


def read_metrics(text):
    """The metrics of a text by their names, and what is wrong with it."""
    metrics, wrong, open_name = collections.defaultdict(Metric), [], None
    if not text.endswith("\n"):
        wrong.append("no line feed at the end")
    for line in text.splitlines():
        comment = re.fullmatch(rf"# (HELP|TYPE) ({NAME}) (.+)", line)
        sample = None if comment else SAMPLE.match(line)
        labels = labels_in(sample[2] or "") if sample else None
        if not comment and (labels is None or not VALUE.fullmatch(sample[3])):
            wrong.append(f"not a line of this format: {line!r}")
            continue
        name = comment[2] if comment else sample[1]
        if not comment and open_name and metrics[open_name].kind == "histogram" and name in {open_name + word for word in OF_HISTOGRAMS}:
            name = open_name
        if name != open_name and name in metrics:
            wrong.append(f"{name}: its lines do not stand together")
        open_name, metric = name, metrics[name]
        if not comment:
            if metric.help is None or metric.kind is None:
                wrong.append(f"{name}: a sample before its help and its type")
            metric.samples.append((sample[1], labels, number_in(sample[3])))
        elif metric.samples or getattr(metric, "help" if comment[1] == "HELP" else "kind") is not None:
            wrong.append(f"{name}: a second {comment[1]}, or one behind a sample")
        else:
            setattr(metric, "help" if comment[1] == "HELP" else "kind", comment[3])
    return dict(metrics), wrong


def faults_in(text):
    """What is wrong with a text of metrics: its form, its names, and samples that stand twice."""
    metrics, wrong = read_metrics(text)
    for name, metric in metrics.items():
        parts = set(name.split("_"))
        if metric.kind not in ("counter", "gauge", "histogram", "summary", "untyped"):
            wrong.append(f"{name}: there is no type {metric.kind}")
        if (metric.kind == "counter") != name.endswith("_total"):
            wrong.append(f"{name}: the names of counters, and only those, end in _total")
        if name != name.lower() or name.endswith(("_count", "_sum", "_bucket")) or parts & {"counter", "gauge", metric.kind}:
            wrong.append(f"{name}: not a name for a {metric.kind}")
        if parts & OTHER_UNITS:
            wrong.append(f"{name}: not in a base unit")
        seen = [(sample, *sorted(labels.items())) for sample, labels, _ in metric.samples]
        wrong += [f"{name}: two samples {labels}" for labels in sorted(set(seen)) if seen.count(labels) > 1]
        wrong += [f"{name}: {value} of a counter" for _, _, value in metric.samples
                  if metric.kind == "counter" and not isinstance(value, Decimal if name.endswith("_seconds_total") else int)]
        if metric.kind == "histogram":
            wrong += [f"{name}: {what}" for what in faults_of_histogram(name, metric.samples)]
        if not metric.samples:
            wrong.append(f"{name}: no sample")
    return wrong


def faults_of_histogram(name, samples):
    """What is wrong with the buckets of a histogram: their bounds ascend, what they count does not fall, and the last one counts all."""
    found = collections.defaultdict(list)
    for sample, labels, value in samples:
        found[sample.removeprefix(name)].append((Decimal(labels.get("le", "0").replace("+Inf", "Infinity")), value))
    if found.keys() != set(OF_HISTOGRAMS) or len(found["_sum"]) != 1 or len(found["_count"]) != 1:
        yield f"its samples are {sorted(found)}"
        return
    bounds, counts = zip(*found["_bucket"])
    if list(bounds) != sorted(set(bounds)) or not bounds[-1].is_infinite():
        yield f"its bounds are {bounds}"
    if list(counts) != sorted(counts) or counts[-1] != found["_count"][0][1]:
        yield f"it counts {counts} of {found['_count']}"


def numbers_in(text):
    """The value of each sample by its name and its labels as they stand there, but for the label of the machine."""
    found = {}
    for metric in read_metrics(text)[0].values():
        for name, labels, value in metric.samples:
            rest = ",".join(f'{label}="{given}"' for label, given in labels.items() if label != "machine")
            found[f"{name}{{{rest}}}" if rest else name] = value
    return found
