"""The alerts by name: what each says, what to do, when it fires, and the case that provokes it."""
import re
import typing

from pages.source import Missing, read, words

NAME = "alerts.md"
RULES = "packaging/alerts.yml"
HEAD = """\
# Alerts

This page, made by `tools/reference` from `packaging/alerts.yml`, says for each alert by its name what to do.

An alert of the severity `page` says that readings may be wrong, widen, or cannot be had; a `ticket` is all else. \
n is the number of masters and f that of `faulty`. Names with capital letters alone stand for what the alert fills in. The settings at \
the top of the rules, as `truetime:round_seconds`, are those of the fleet of [OPERATING.md](../OPERATING.md): change them with yours. Its \
section 3 says how statuses reach Prometheus, [metrics](metrics.md) and [events](events.md) what each name means.

What machines see of one master is a ticket for each fleet, not for each machine. N is then how many of them see it, and the query at the \
end of what to do lists them; `truetime_source_info` has the address of each master. A fleet is the machines of one `job` of Prometheus, which ask the same masters.

"""
# How the labels and the value of an alert are shown.
SHOWN = {"$labels.instance": "HOST", "$value": "N", "$value | humanizeDuration": "TIME", "$value | humanize": "N"}


class Alert(typing.NamedTuple):
    """An alert of the rules."""
    name: str
    expr: str
    # How long that has to last, and whom it wakes.
    lasting: str
    severity: str
    summary: str
    description: str


def alerts_in(text):
    """The alerts of the rules, in their order."""
    for part in text.split("- alert: ")[1:]:
        name, expr = re.match(r"(\w+)\n.*?^ +expr: (?:>-\n +)?(.*?)\n +(?=for: |labels: )", part, re.DOTALL | re.MULTILINE).groups()
        lasting = re.search(r"^ +for: (\w+)$", part, re.MULTILINE)
        severity = re.search(r"severity: (\w+)", part)[1]
        notes = dict(re.findall(r'^ +(\w+): "(.*)"$', part, re.MULTILINE))
        for key in ("summary", "description"):
            if key not in notes:
                raise Missing(f"the alert {name} has no {key}")
        if notes.get("runbook") != f"reference/alerts.md#{name.lower()}":
            raise Missing(f"the runbook of {name} is {notes.get('runbook')}")
        yield Alert(name, " ".join(expr.split()), lasting[1] if lasting else "", severity, notes["summary"], notes["description"])


def shown(text):
    """A text of an alert with names for what it fills in."""
    return re.sub(r"\{\{ (.*?) \}\}", lambda found: SHOWN.get(found[1], found[1].rpartition(".")[2].upper()), text)


def marked(text):
    """A text with the names of alerts as links, and those of metrics and pages as code or links."""
    text = re.sub(r"\b(Truetime\w+)", lambda found: f"[{found[1]}](#{found[1].lower()})", text)
    text = re.sub(r"`[^`]+`|\btruetime_\w+", lambda found: f"`{found[0].strip('`')}`", text)
    text = text.replace("reference/refusals.md", "[refusals](refusals.md)")
    return re.sub(r"\b(OPERATING)\.md", r"[\1.md](../\1.md)", text)


def part_of(alert, cases):
    """What the page says of an alert."""
    cases = " and ".join(f"`{case}`" for case in cases.split())
    when = f"fires after this has held for {alert.lasting}" if alert.lasting else "fires as soon as this holds"
    return (f"## {alert.name}\n\n{shown(alert.summary)}\n\n**Do**: {marked(alert.description)}\n\n"
            f"- severity: {alert.severity}\n- {when}: `{alert.expr}`\n- tried by {cases} of `tools/check`\n\n")


def page():
    """The text of the page."""
    cases, alerts = words("alerts"), list(alerts_in(read(RULES)))
    for name in cases.keys() ^ {alert.name for alert in alerts}:
        raise Missing(f"{name} is an alert of {RULES} or has a case in words.toml, but not both")
    return (HEAD + "".join(part_of(alert, cases[alert.name]) for alert in alerts)).rstrip("\n") + "\n"
