"""Reads the text of the crates: strings, constants, enums, arms of a match, and the words by hand in words.toml."""
import pathlib
import re
import tomllib
import typing

from contracts import functions_in

ROOT = pathlib.Path(__file__).resolve().parent.parent.parent
WORDS = "tools/pages/words.toml"
STRING = r'"((?:[^"\\]|\\[\s\S])*)"'
CONSTANT = re.compile(r"^(?:pub(?:\([a-z]+\))? )?const (\w+): [^=]+ = ([^;]+);", re.MULTILINE)
ENUM = re.compile(r"^(?:pub(?:\([a-z]+\))? )?enum (\w+) \{\n(.*?)^\}", re.MULTILINE | re.DOTALL)
PATTERN = r"\w+::\w+(?:\([^)]*\)| \{[^}]*\})?"
ARM = re.compile(rf"((?:\| )?(?:{PATTERN}|_)(?: \| {PATTERN})*) => (?:\{{ )?([^,{{}}]+)")


class Missing(Exception):
    """What the program or the words by hand do not have."""


class Variant(typing.NamedTuple):
    """A variant of an enum."""
    name: str
    # What its comment says, and the sentence that it is shown as.
    doc: str
    sentence: str
    # The types that it holds.
    types: list


def read(name):
    """The text of a file of the repository."""
    return (ROOT / name).read_text(encoding="utf-8")


def words(page):
    """The words by hand for a page."""
    return tomllib.loads(read(WORDS))[page]


def crates():
    """The names of the crates, lowest first."""
    return re.findall(r"^(\w+)[^:\n]*:", read("crates.txt"), re.MULTILINE)


def sources(crate):
    """The text of each source file of a crate, by its name."""
    folder = ROOT / "crates" / crate / "src"
    return {str(path.relative_to(folder)): path.read_text(encoding="utf-8") for path in sorted(folder.glob("**/*.rt"))}


def unescaped(text):
    """What a string literal is, by what stands between its quotes."""
    text = re.sub(r"\\\n *", "", text)
    return re.sub(r"\\(.)", lambda found: {"n": "\n", "t": "\t"}.get(found[1], found[1]), text)


def comment(lines):
    """The text of lines that begin with `///`, without its links."""
    text = " ".join(line.strip()[3:].strip() for line in lines.splitlines() if line.strip().startswith("///"))
    text = re.sub(r"\[([^][]+)\]\([^)]*\)", r"\1", text)
    return re.sub(r"\[(`[^`]+`)\]", r"\1", text)


def parts_of(text):
    """The parts of a list between its commas, but for those within brackets."""
    parts, depth = [""], 0
    for letter in text:
        depth += (letter in "([{<") - (letter in ")]}>")
        if letter == "," and depth == 0:
            parts.append("")
        else:
            parts[-1] += letter
    return [part.strip() for part in parts if part.strip()]


def enums_in(text):
    """The variants of each enum of a source file."""
    found = {}
    for name, body in ENUM.findall(text):
        found[name] = []
        above, body = "", body.split("\n")
        for line in body:
            start = re.match(r"    (\w+)(?:\((.*)\))?(?:,| \{)", line)
            if not start or line.startswith("     "):
                above += line + "\n"
                continue
            sentence = re.search(r"#\[error\(\s*" + STRING, above)
            types = parts_of(start[2] or "")
            found[name].append(Variant(start[1], comment(above), unescaped(sentence[1]) if sentence else "", types))
            above = ""
    return found


def arms_in(lines):
    """Each arm of a match: its patterns, and what it answers."""
    text = " ".join(" ".join(line.split("//")[0] for line in lines).split())
    for patterns, answer in ARM.findall(text):
        yield re.findall(r"(\w+)::(\w+)", patterns) or [("", "_")], answer.strip()


def function(text, name, owner=""):
    """The lines of a function of a source file."""
    for one in functions_in(text):
        if (one.owner, one.name) == (owner, name):
            return one.lines
    raise Missing(f"no function {owner}::{name}")


def value_of(text, constants):
    """The number that an expression over constants is."""
    text = re.sub(r" as \w+|\w+::from\((\w+)\)|(?<=\d)_(?=\d)", r"\1", text)
    while names := set(re.findall(r"[A-Z][A-Z_0-9]*", text)):
        for name in names:
            if name not in constants:
                raise Missing(f"no constant {name}")
            text = re.sub(rf"\b{name}\b", f"({constants[name]})", text)
        text = re.sub(r" as \w+|(?<=\d)_(?=\d)", "", text)
    if not re.fullmatch(r"[\d+*/() -]+", text):
        raise Missing(f"{text} is no number")
    return eval(text.replace("/", "//"), {"__builtins__": {}})  # digits and signs alone


def constants_of(*names):
    """The constants of these crates, as texts."""
    return {name: value for crate in names for text in sources(crate).values() for name, value in CONSTANT.findall(text)}


def table(heads, rows):
    """A table of Markdown."""
    lines = [heads, ["---"] * len(heads), *rows]
    return "".join("| " + " | ".join(cell.replace("|", r"\|") for cell in line) + " |\n" for line in lines)


def sentence(text):
    """A text that begins in upper case and ends in a full stop."""
    text = text.strip()
    return text if not text else text[0].upper() + text[1:] + ("" if text.endswith((".", "`.")) else ".")
