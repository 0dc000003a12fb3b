"""The crates, by subject and in the order of crates.txt: what each is."""
import re

from pages.source import Missing, crates, read, sources

NAME = "crates.md"
HEAD = """\
# The crates

This page, made by `tools/reference`, lists the crates of `crates.txt` by subject, lowest first, each with the first sentence of its \
own page. [ARCHITECTURE.md](../ARCHITECTURE.md) has the paths through them.
"""


def first_sentence(crate):
    """The first sentence of a crate's own page."""
    files = sources(crate)
    text = files.get("lib.rt") or files.get("main.rt", "")
    lines = re.match(r"(?://!.*\n)*", text)[0].replace("//! ", "").replace("//!", "")
    paragraph = " ".join(lines.split("\n\n")[0].split())
    paragraph = re.sub(r"\[(`[^`]+`)\](?:\([^)]*\))?", r"\1", paragraph)
    found = re.match(r".*?\.(?= [A-Z`]|$)", paragraph)
    if not found:
        raise Missing(f"the crate {crate} says nothing of itself")
    return found[0]


def subjects():
    """The crates of each subject: in crates.txt a subject is a line of comment behind an empty one."""
    found = {}
    for part in read("crates.txt").split("\n\n# ")[1:]:
        subject, _, lines = part.partition("\n")
        found[subject] = re.findall(r"^(\w+)[^:\n]*:", lines, re.MULTILINE)
    return found


def page():
    """The text of the page."""
    found = subjects()
    if strange := set(crates()) - {crate for names in found.values() for crate in names}:
        raise Missing(f"{min(strange)} has no subject")
    return HEAD + "".join(f"\n## {subject}\n\n" + "".join(f"- `{crate}`: {first_sentence(crate)}\n" for crate in names) for subject, names in found.items())
