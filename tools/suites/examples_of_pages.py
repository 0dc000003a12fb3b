"""Compares the pages of docs/reference/, which are made from the text of the crates, with what the program says and with the lists by hand."""
import re

from harness.program import read_text
from harness.refusals import SENTENCES
from suites.examples import suite
from suites.wiring_checks import BUCKETS, EVENTS, FIRST, LAST, OF_BREAKS, OF_MASTERS, OF_SOURCES, SETTINGS

# The metrics of a machine and of a master that the checks of `wiring` do not look at by a name.
OTHERS = {f"truetime_{name}" for name in ("build_info", "source_info", "master_build_info", "master_keys", "master_keys_refused_total", "master_answers_total", "master_dropped_total")}

# The names of some refusals, the first and the last among them.
KNOWN = {1: "Memory", 504: "NoPoint", 1605: "WriteFailed", 1709: "WriteLasts"}


def rows(page):
    """The cells of each row of a page's tables, without their heads, and without the signs of code."""
    lines = re.findall(r"^\| (.*) \|$", read_text(f"docs/reference/{page}.md"), re.MULTILINE)
    return [[cell.replace("`", "") for cell in line.split(" | ")] for line in lines if line[0] in "`0123456789"]


def options_in(text, form):
    """The options of a help or a page, with what is said of each."""
    return [(re.sub(r"[<>[\]]|\.\.+$", "", option), meaning) for option, meaning in re.findall(form, text, re.MULTILINE)
            if not option.startswith("--help")]


@suite.case()
def page_of_commands(trial):
    """Each command has in the page the options and the text of its help, in their order."""
    parts = read_text("docs/reference/commands.md").split("\n## ")[1:]
    listed = re.findall(r"^  ([a-z]+) ", trial.command("--help").said.split("\nOptions:")[0], re.MULTILINE)
    trial.equal("commands", [part.split("\n")[0].strip("`") for part in parts[1:]], [f"ttd {name}" for name in listed if name != "help"])
    for name, part in zip(["", *listed], parts):
        said = trial.command(*([name] if name else []), "--help").said
        told = re.search(r"```text\n(.*?)```", part, re.DOTALL)[1]
        trial.check(f"{name}: its text", said.endswith(f"\n\n{told}"), told[:80])
        head = said[:-len(told)]
        wanted = options_in(head, r"^ +(?:-\w, )?(--\S+(?: <\S+>)?|[<[]\S+)  +(.*)$") if name else []
        trial.equal(f"{name}: its options", options_in(part, r"^- `(.*?)`: (.*)$"), wanted)
    trial.count(pages=1)


@suite.case()
def explained_refusals(trial):
    """`explain` says of each number what the page says, and its name; of another word that no refusal has it."""
    for number, says, meaning, _ in rows("refusals"):
        ran = trial.command("explain", number)
        said = re.sub(r"\[([^][]*)\]\([^()]*\)", r"\1", f"{says}\n{meaning}\n")
        name, _, rest = ran.said.replace("`", "").partition("\n")
        right = re.fullmatch(rf"{number} [A-Z]\w+", name) and rest == said and ran.status == 0
        trial.check(f"explain {number}", right, f"{ran.said!r}, and {said!r} is wanted")
    for number, name in KNOWN.items():
        trial.equal(f"explain {number}", trial.command("explain", str(number)).said.split("\n")[0], f"{number} {name}")
    for word in ("0", "2", "505", "1500", "99999999999999999999", "-1", "NoPoint", ""):
        ran = trial.command("explain", word)
        told = f"ttd: refused 1601: invalid arguments (ttd explain 1601)\nerror: no refusal has the number '{word}'\n"
        trial.equal(f"explain {word}", (ran.answer, ran.error), (("refused 1601\n", 2), told))
    trial.equal("explain alone", trial.command("explain").answer, ("refused 1601\n", 2))
    trial.equal("explain of two", trial.command("explain", "1", "101").answer, ("refused 1601\n", 2))
    for words in (("help", "explain"), ("explain", "--help"), ("explain", "-h")):
        ran = trial.command(*words)
        trial.equal(" ".join(words), (ran.said.split("\n")[2], ran.status), ("Usage: ttd explain <NUMBER>", 0))
    trial.count(pages=1)


@suite.case()
def pages_of_names(trial):
    """The settings, events and metrics are those that the suite `wiring` looks at, and no refusal that a test knows is missing."""
    trial.equal("settings", [row[0] for row in rows("settings")], [*SETTINGS, "address", "key"])
    trial.equal("events", {row[0]: " ".join([row[1], *re.findall(r"\w+", row[2])]) for row in rows("events")}, EVENTS)
    names = [*FIRST.values(), *OF_SOURCES.values(), *LAST.values(), *OF_BREAKS.values(), *BUCKETS.values(), *OF_MASTERS.values()]
    wanted = {re.sub(r"_(bucket|sum|count)$", "", name.partition("{")[0]) for name in names} | OTHERS
    trial.equal("refusals that are not there", {str(number) for number in SENTENCES} - {row[0] for row in rows("refusals")}, set())
    trial.equal("metrics", {row[0] for row in rows("metrics")}, wanted)
    trial.count(pages=1)
