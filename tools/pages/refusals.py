"""The refusals by number: what the program says of each, what it means, and the status that the program ends with."""
import re

from contracts import functions_in
from pages.source import Missing, arms_in, crates, enums_in, sentence, sources, table, words

NAME = "refusals.md"
FOLDER = "crates/tt_refusals/src"
HEAD = """\
# Refusals by number

This page, made by `tools/reference`, lists each number with which the program, a machine, a client or a library refuses something.

`refused N` on standard output or in a reply names the number, `number=N` in the log or in a label of a metric too. The second column \
is what the program says of it, with `..` for what varies. The last column is the exit status of a command that ends by the \
refusal. With `ttd ask` a reply `refused N` is status 2, whatever the number. A dash stands for numbers that end no command: those of \
single packets, of library calls, and of the events of a script.

"""
# What answers the refusals that end a command, and those in the replies of a session.
COMMANDS = ("ServiceFault", "Fault")
SESSIONS = ("LineFault", "StationFault", "CommitFault", "SpanFault")
# Crates whose faults no user meets.
HIDDEN = {"tt_tests", "ttd_tests", "tt_example", "tt_stamp_rows", "tt_scenes"}


class Faults:
    """The enums of the crates that have numbers."""

    def __init__(self):
        self.variants, self.arms, self.device = {}, {}, set()
        for crate in crates():
            if crate not in HIDDEN:
                for text in sources(crate).values():
                    self.read(text)
        self.numbers = {(name, variant.name): self.number_of(name, variant.name) for name in self.arms for variant in self.variants[name]}

    def read(self, text):
        """Reads the enums of a source file, their numbers, and what ends the program with the status of a device."""
        numbered = {one.owner: one.lines for one in functions_in(text) if one.name == "number"}
        for name, variants in enums_in(text).items():
            if name in numbered and any(variant.sentence for variant in variants):
                self.variants[name], self.arms[name] = variants, list(arms_in(numbered[name]))
        for one in functions_in(text):
            if one.name == "status" or one.name.startswith("status_of_"):
                self.device.update(pattern for patterns, answer in arms_in(one.lines) if answer == "Status::Device" for pattern in patterns)
            if one.name == "status_at":
                self.device.update(re.findall(r"(\w+)::(\w+)\.number\(\)", " ".join(one.lines)))

    def number_of(self, name, variant):
        """The number of a variant, or None where it is that of the fault that it holds."""
        for patterns, answer in self.arms[name]:
            if (name, variant) in patterns or patterns == [("", "_")]:
                other = re.fullmatch(r"(\w+)::(\w+)\.number\(\)", answer)
                if other:
                    return self.number_of(*other.groups())
                return int(answer) if answer.isdecimal() else None
        raise Missing(f"{name}::{variant} has no number")

    def below(self, names):
        """These enums, and those that their variants hold."""
        found, waiting = set(), list(names)
        while waiting:
            name = waiting.pop()
            if name in self.variants and name not in found:
                found.add(name)
                waiting += [held for variant in self.variants[name] for held in variant.types]
        return found

    def rows(self):
        """The variants of each number, as enum and variant."""
        found = {}
        for (name, variant), number in self.numbers.items():
            if number is not None:
                found.setdefault(number, []).append((name, next(one for one in self.variants[name] if one.name == variant)))
        return found


def sentences_of(variants):
    """The different sentences of the variants of a number. One that only says more than another one is left out."""
    found = []
    for _, variant in variants:
        text = re.sub(r"(?:^|: )\{\w*\}$", "", variant.sentence)
        text = re.sub(r"\{\w*\}", "..", text)
        if text and text not in found:
            found.append(text)
    return [text for text in found if not any(text.startswith(f"{other}:") or other.startswith(f"{text},") for other in found)]


def status_of(number, variants, faults, command, session):
    """The statuses with which a command ends by this number."""
    found = {"4" if (name, variant.name) in faults.device else "2" for name, variant in variants if name in command}
    if number == 1:
        return "1"
    if not found and any(name in session for name, _ in variants):
        return "2"
    return ", ".join(sorted(found)) or "-"


def rows_of_refusals():
    """The row of each number, by number: its name in the program, what it says, what it means, and the status."""
    faults, known = Faults(), words("refusals")
    rows, others = faults.rows(), {int(number): row for number, row in words("refusals_elsewhere").items()}
    command, session = faults.below(COMMANDS), faults.below(SESSIONS)
    found = {}
    for number in sorted({*rows, *others}):
        if number in others:
            name, says, status, meaning = (others[number][key] for key in ("name", "says", "status", "meaning"))
        else:
            variants = rows[number]
            name = variants[0][1].name
            docs = list(dict.fromkeys(variant.doc for _, variant in variants if variant.doc))
            says, meaning = "; ".join(sentences_of(variants)) or "..", known.get(str(number)) or " ".join(map(sentence, docs))
            status = status_of(number, variants, faults, command, session)
        if not meaning:
            raise Missing(f"the refusal {number} has no meaning, in a comment or in words.toml")
        found[number] = name, says, meaning, status
    for number in known:
        if int(number) not in rows:
            raise Missing(f"words.toml has the refusal {number}, which no fault has")
    return found


def page():
    """The text of the page."""
    lines = [[str(number), says, meaning, status] for number, (_, says, meaning, status) in rows_of_refusals().items()]
    return HEAD + table(["number", "what the program says", "what it means, and what to do", "status"], lines)


def plain(number, text):
    """A text of a row as a string of the program, without links."""
    text = re.sub(r"\[([^][]*)\]\([^()]*\)", r"\1", text)
    if '"' in text or "\\" in text or "\n" in text:
        raise Missing(f"the refusal {number} has a text that a line of JSON cannot have: {text}")
    return f'"{text}"'


def tables():
    """The rows as files of the program, by the names of their files: the numbers, and functions that give the texts of each hundred."""
    rows = rows_of_refusals()
    lines = ["//! The numbers of refusals, which `tools/reference` writes.", "",
             "/// The numbers with which something is refused, the least first.", f"pub const NUMBERS: [u64; {len(rows)}] = [",
             *(f"    {', '.join(map(str, some))}," for some in by_tens(list(rows))), "];", ""]
    made = {f"{FOLDER}/numbers.rt": "\n".join(lines)}
    for name, hundreds in (("low", range(15)), ("high", range(15, 100))):
        lines = [f"//! The texts of the numbers {'below 1500' if name == 'low' else 'from 1500 on'}, which `tools/reference` writes.", "", "use crate::rows::Texts;"]
        for hundred in hundreds:
            some = {number: row for number, row in rows.items() if number // 100 == hundred}
            if some:
                lines += ["", *function_of(hundred, some)]
        made[f"{FOLDER}/{name}.rt"] = "\n".join([*lines, ""])
    return made


def function_of(hundred, rows):
    """The lines of the function that gives the texts of a hundred; of a number without a row it gives empty ones."""
    yield f"/// The texts of the numbers from {hundred * 100} to {hundred * 100 + 99}; empty ones of a number that is none of a refusal."
    yield f"pub(crate) fn texts_of_{hundred}(number: u64) -> Texts {{"
    yield "    match number {"
    for number, (name, says, meaning, _) in rows.items():
        yield f"        {number} => Texts {{"
        yield from (f"            {field}: {plain(number, text)}," for field, text in (("name", name), ("sentence", says), ("meaning", meaning)))
        yield "        },"
    yield "        _ => Texts::EMPTY,"
    yield "    }"
    yield "}"


def by_tens(numbers):
    """These numbers in lines, as the program's layout has them."""
    line = []
    for number in numbers:
        if len(", ".join(map(str, [*line, number]))) + 5 > 99:
            yield line
            line = []
        line.append(number)
    yield line
