"""The events of the log: level, name, numbers and meaning of each."""
import re

from pages.source import Missing, arms_in, enums_in, function, sentence, sources, table, value_of, words

NAME = "events.md"
HEAD = """\
# Events of the log

This page, made by `tools/reference`, lists the events in the log of a machine and of a master, by name.

A line is `time=2026-11-26T23:41:51.123456789Z level=L event=E` (UTC), and then ` NAME=VALUE` for each field, or the same as one object \
of JSON, with addresses and words as strings. Names that end in `_ns` are nanoseconds, in `_ppm` parts per million. `number` is that of a \
[refusal](refusals.md), and `text` behind it says it in words; `errno` is the system's number, or 0 if it has none. Behind a `source` or a `server` stands its \
`address`, as the settings have it. Where JOURNAL_STREAM names standard error, a line begins with its priority: `<3>`, `<4>` or `<6>`.

After an event, no second line of its kind follows for QUIET seconds, and each time that one follows within a pause's length of the end of the pause, for twice as \
long, up to LONGEST minutes. Sources, servers and the numbers of `fusion_refused` count apart. An event that says the contrary sets the pause back. The newest line that was left out comes when the pause ends, with its own time. A line is also left out if 256 lines \
wait to be written. The next line of the kind then has `left_out=N`.

*Ended by* names the event of the first moment at which a trouble is over. `started` and `master_started` end `address_awaited` and `start_paused`, the next \
publication `publication_slow`, and a new start `clock_stepped` and what is told at a start alone (`*_loose`, `descriptors`). All others tell of a moment.

"""


def kinds_in(lines):
    """Each arm of a match over events: these, and the kinds of lines that it answers."""
    text = re.sub(r"\w+\.min\(\d+\)", "", " ".join(" ".join(lines).split()))
    for patterns, answer in re.findall(r"((?:LogEvent::\w+(?: \{[^}]*\})?(?: \| )?)+) => (.*?)(?=LogEvent::|_ =>|$)", text):
        yield re.findall(r"LogEvent::(\w+)", patterns), re.findall(r"\b(?:[A-Z]{3,}|\d+)\b", answer)


class Events:
    """What the crate tt_status says of the events."""

    def __init__(self):
        self.text, self.words = sources("tt_status")["lines.rt"], words("events")
        self.variants = {variant.name: variant for variant in enums_in(self.text)["LogEvent"]}
        self.names = self.answers("name")
        self.levels = self.answers("level")

    def answers(self, name):
        """What a function of an event answers for each variant."""
        found = {}
        for patterns, answer in arms_in(function(self.text, name, "LogEvent")):
            for _, variant in patterns:
                found[variant] = answer.strip('"')
        return found

    def fields(self):
        """The names of the fields of each event."""
        body = "\n".join(function(self.text, "push_fields"))
        found = {}
        for arm in re.split(r"(?=LogEvent::\w+(?: \{[^}]*\})? =>)", body)[1:]:
            named = re.findall(r'push_(?:field|part)\(text, format, "(\w+)"|push_(address)\(', arm)
            found[re.match(r"LogEvent::(\w+)", arm)[1]] = [one or other for one, other in named]
        return found

    def ends(self):
        """The names of the events that end each trouble: they tell of the contrary, and are no warnings."""
        text, kinds, found = sources("tt_report")["limits.rt"], {}, {}
        for variants, told in kinds_in(function(text, "kind_of")):
            for kind in told:
                kinds.setdefault(kind, set()).update(variants)
        for variants, told in kinds_in(function(text, "turned_by")):
            ends = sorted(self.names[variant] for kind in told for variant in kinds.get(kind, ()) if self.level(variant) == "info")
            for variant in variants:
                found[variant] = ends if self.level(variant) != "info" else []
        return found

    def level(self, variant):
        """The level of an event."""
        return self.levels.get(variant, self.levels["_"])

    def rows(self):
        """The row of each event, by name."""
        fields, ends = self.fields(), self.ends()
        behind = {field: set(self.answers(name)) - {"_"} for field, name in (("text", "number"), ("address", "place"))}
        for variant, name in sorted(self.names.items(), key=lambda pair: pair[1]):
            meaning = " ".join(part for part in (sentence(self.variants[variant].doc), self.words.get(name, "")) if part)
            if not meaning:
                raise Missing(f"the event {name} has no meaning")
            told = fields.get(variant, []) + [field for field, variants in behind.items() if variant in variants]
            listed = ", ".join(f"`{field}`" for field in told)
            yield [f"`{name}`", self.level(variant), listed, ", ".join(f"`{end}`" for end in ends.get(variant, [])), meaning]


def page():
    """The text of the page."""
    events = Events()
    rows = list(events.rows())
    for name in events.words:
        if name not in events.names.values():
            raise Missing(f"words.toml has the event {name}, which the program does not have")
    limits = sources("tt_status")["limits.rt"]
    quiet, longest = (value_of(re.search(rf"const {name}: u64 = ([^;]+);", limits)[1], {}) for name in ("QUIET", "LONGEST"))
    return HEAD.replace("QUIET", str(quiet // 10**9)).replace("LONGEST", str(longest // 60 // 10**9)) + table(["event", "level", "fields", "ended by", "what it means, and what to do"], rows)
