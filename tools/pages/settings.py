"""The settings of a machine: each key with its kind, range, default and meaning."""
import re

from pages.source import STRING, Missing, arms_in, constants_of, function, sources, table, value_of, words

NAME = "settings.md"
HEAD = """\
# Settings of a machine

This page, made by `tools/reference`, lists the keys of a machine's configuration, the file that `ttd serve` is given.

The file is a document in TOML, with these keys alone. A length of time is a text: a whole number up to 1,000,000,000 and its unit, \
`ns`, `us`, `ms` or `s`. A time is a whole number of nanoseconds.

[FORMATS.md](../FORMATS.md), section 15, says how addresses are \
spelled and which fault is found first, [OPERATING.md](../OPERATING.md), section 1, how to choose.

"""
FOOT = """
## The clock and its drift

`CLOCK_MONOTONIC_RAW` is the counter of the host's clock source, by a rate that the kernel sets at its start and never changes. Crystals stay \
within 100 parts per million of their frequency over temperature and age, and the default of `drift` is twice that. To it comes how well the kernel \
knows the frequency. `/sys/devices/system/clocksource/clocksource0/current_clocksource` names the source:

| what the crystal drives | clock source | beside the crystal | `drift` |
|---|---|---|---|
| a counter of the processor | `tsc` | its frequency is stated by the processor, or measured at the start of the kernel: some parts per million | 200 |
| that counter of a guest's host | `kvm-clock`, `hyperv_clocksource_tsc_page`, `xen` | the frequency is what the host tells: what it measured at its own start | 200 |
| a timer of the chipset at 3.58 MHz | `acpi_pm` | nothing | 200 |
| another timer of the chipset | `hpet` | its specification allows 500 in all | 500 |

In a virtual machine the counter is that of the host's processor. While the guest is paused or moved, its clock stands or jumps: `vmclock` and \
[OPERATING.md](../OPERATING.md), section 6, are about that. `truetime_source_clock_rate_ratio` shows what the clock gains against each master, and \
[TruetimeClockRate](alerts.md#truetimeclockrate) fires where it is past `drift`.

With `clock = "monotonic"` what an NTP daemon slews counts as well: a clock that loses a part s of true time needs a drift of s / (1 - s). \
`rates` of `ttd serve --check` has what a drift covers.
"""
UNITS = (("s", 10**9), ("ms", 10**6), ("us", 10**3), ("ns", 1))
TABLE_KEYS = {"address", "key"}


def duration(nanoseconds):
    """A length of time as the file writes it."""
    unit, size = next((unit, size) for unit, size in UNITS if nanoseconds % size == 0)
    return f"`\"{nanoseconds // size}{unit}\"`"


class Settings:
    """What the crate tt_settings says of its keys."""

    def __init__(self):
        self.files = sources("tt_settings")
        self.constants = constants_of("tt_span", "tt_poll", "tt_daemon", "tt_connections", "tt_workers", "tt_settings")
        self.words = words("settings")
        self.text = "\n".join(self.files.values())
        self.kinds = {patterns[0][1]: answer for patterns, answer in self.described()}

    def described(self):
        """The description of each key."""
        for patterns, _ in arms_in(function(self.files["keys.rt"], "described", "Key")):
            line = next(line for line in function(self.files["keys.rt"], "described", "Key") if f"Key::{patterns[0][1]} =>" in line)
            yield patterns, line.partition("=> ")[2].rstrip(",")

    def number(self, text):
        """The number that an expression is."""
        return value_of(text, self.constants)

    def kind(self, variant):
        """The name of a key, its kind, its range, and the default if the kind has one."""
        call, rest = re.fullmatch(r"(\w+)\((.*)\)", self.kinds[variant]).groups()
        name, values = re.match(STRING, rest)[1], [part.strip() for part in rest.split(",")[1:]]
        if call == "number":
            return name, "number", f"{self.number(values[0]):,} to {self.number(values[1]):,}", None
        if call == "duration":
            return name, "length of time", " to ".join(duration(self.number(value)) for value in values), None
        if call == "form":
            options = [f"`\"{re.match(STRING, value)[1]}\"`" for value in values]
            return name, "text", " or ".join(options), options[0]
        kind = values[0].rpartition("::")[2]
        if kind not in self.words["kinds"]:
            raise Missing(f"words.toml has no kind {kind}")
        return name, *self.words["kinds"][kind], None

    def default(self, variant, kind):
        """The default of a key, as the program has it: `needed` where it has to be there."""
        found = re.search(rf"amount_or\(table, Key::{variant}, ([^)]+(?:\([^)]*\))?)\)\?", self.text)
        if found:
            value = found[1]
            if re.fullmatch("[a-z]+", value):
                value = re.search(rf"let {value} = ([^;]+);", self.text)[1]
                return f"{value}, rounded down"
            number = self.number(value)
            return duration(number) if kind == "length of time" else f"{number:,}"
        if re.search(rf"(?:optional_amount|optional_path|found_at)\((?:alloc, )?table, Key::{variant}\)", self.text):
            return "none"
        if re.search(rf"(?:amount_at|path_at|address_at|value_at)\((?:alloc, )?table, Key::{variant}\)", self.text):
            return "needed"
        raise Missing(f"no default of {variant}")

    def row(self, variant):
        """The row of a key."""
        name, kind, extent, default = self.kind(variant)
        by_hand = self.words["keys"].get(name)
        if not by_hand:
            raise Missing(f"words.toml has no meaning for the key {name}")
        default = by_hand.get("default") or default or self.default(variant, kind)
        extent, meaning = (self.filled(text) for text in (by_hand.get("range", extent), by_hand["meaning"]))
        return [f"`{name}`", kind, extent, default, meaning]

    def filled(self, text):
        """A text with the number of each constant that it names in braces."""
        return re.sub(r"\{([A-Z_]+)\}", lambda found: f"{self.number(found[1]):,}", text)


def page():
    """The text of the page."""
    settings = Settings()
    rows = [settings.row(variant) for variant in settings.kinds]
    names = {row[0].strip("`") for row in rows}
    for name in settings.words["keys"]:
        if name not in names:
            raise Missing(f"words.toml has the key {name}, which the program does not have")
    rows.sort(key=lambda row: list(settings.words["keys"]).index(row[0].strip("`")))
    heads = ["key", "kind", "range", "default", "meaning"]
    of_machine = [row for row in rows if row[0].strip("`") not in TABLE_KEYS]
    of_master = [row for row in rows if row[0].strip("`") in TABLE_KEYS]
    return HEAD + table(heads, of_machine) + "\nIn each table `[[master]]`:\n\n" + table(heads, of_master) + FOOT
