"""Wrong bodies as edits: what they change, and what the prover said of it."""
import os
import re
import typing

from harness.prover import files_of

NAME = re.compile(r"[A-Za-z0-9_-][A-Za-z0-9_.-]*\.edit")
FUNCTION = re.compile(r"( *)(?:pub(?:\([a-z ]+\))? )?(?:const )?(?:unsafe )?fn (\w+)")
BLOCK = re.compile(r"(?:unsafe )?(?:impl|(?:pub )?trait)\b")
TYPE = re.compile(r"^(?:pub(?:\([a-z ]+\))? )?(?:struct|enum|union|trait) (\w+)", re.MULTILINE)
OWNER = re.compile(r"(?:unsafe )?impl +(?:(?P<trait>[\w:]+) +for +)?&?(?:mut +)?(?P<type>[\w:]+)")

# What a try comes to. The first two are kept.
REFUSED, AT_LIMIT, BAD, MISSED, UNKNOWN = "refused", "refused by a limit", "BAD EDIT", "NOT REFUSED", "NOT TRIED"


class BadEdit(Exception):
    """Why an edit cannot be applied."""


class Place(typing.NamedTuple):
    """A function: its file, the type that it is of, or "", with the trait that it is of behind it, its name, and the file of that type."""
    file: str
    owner: str
    name: str
    home: str

    def under(self, *above: str) -> str:
        module = self.home.removeprefix("src/").removesuffix(".rt").removesuffix("/mod").split("/")
        return "::".join([*(module if module not in (["lib"], ["main"]) else []), *above, *([self.owner] if self.owner else []), self.name])

    @property
    def path(self) -> str:
        """Its path below the crate, as a check names it."""
        return self.under()

    @property
    def closures(self) -> str:
        """What the names of its closures begin with."""
        return self.under("fn") + "::"


class Edit(typing.NamedTuple):
    """A wrong body: its name, its pairs of a file, the old line and the new one, and the functions that these change."""
    name: str
    path: str
    pairs: list[tuple[str, str, str]]
    places: frozenset[Place]


def names_in(folder: str) -> tuple[list[str], list[str]]:
    """The edits in a folder of wrong bodies, and what else is there that is not only to be read."""
    good, bad = [], []
    for at, _, names in sorted(os.walk(folder)):
        for name in sorted(names):
            path = os.path.join(at, name)
            if at == folder and os.path.isfile(path) and not os.path.islink(path) and NAME.fullmatch(name):
                good.append(path)
            elif not name.endswith(".md"):
                bad.append(path)
    return good, bad


def owner_in(line: str) -> str:
    """The name under which a check has the functions of this block: that of its type, behind it that of the trait. Functions of a type's own
    that it has only with some type in place of a parameter have what it is given behind it."""
    plain = without_angles(line)
    found = OWNER.match(plain)
    if not found:
        name = re.match(r"(?:pub )?trait (\w+)", plain)
        return name[1] if name else ""
    if found["trait"]:
        return found["type"].split("::")[-1] + found["trait"].split("::")[-1]
    heads = re.match(r"(?:unsafe )?impl(?:<(?P<parameters>.*?)>)? +&?(?:mut +)?[\w:]+(?:<(?P<given>.*)>)? *(?:where.*)?\{?$", line)
    parameters, given = (names_in_angles(heads[part]) if heads else [] for part in ("parameters", "given"))
    return "+".join([found["type"].split("::")[-1], *(given if set(given) - set(parameters) else [])])


def without_angles(text: str) -> str:
    """A text without what stands in angle brackets."""
    plain = text.replace("->", "")
    while (shorter := re.sub(r"<[^<>]*>", "", plain)) != plain:
        plain = shorter
    return plain


def names_in_angles(text: str | None) -> list[str]:
    """The names of parameters or types in a list, but for lifetimes."""
    items = [item.partition(":")[0].strip().removeprefix("const ") for item in without_angles(text or "").split(",")]
    return [item for item in items if item and not item.startswith("'")]


def homes_in(texts: dict[str, str]) -> dict[str, list[str]]:
    """The files in which each type of a crate is defined: a check names a type's own functions by that file, not by theirs."""
    homes: dict[str, list[str]] = {}
    for file, text in texts.items():
        for name in TYPE.findall(text):
            homes.setdefault(name, []).append(file)
    return homes


def functions_in(file: str, texts: dict[str, str]) -> list[tuple[int, int, Place]]:
    """The functions of a source file of a crate: their first and last lines, from 1, with contract and body."""
    lines, found, owner, homes = texts[file].split("\n"), [], "", homes_in(texts)
    for number, line in enumerate(lines):
        if BLOCK.match(line):
            owner = owner_in(line)
        elif line == "}":
            owner = ""
        head = FUNCTION.match(line)
        if head and len(head[1]) == (4 if owner else 0):
            ends = (f"{head[1]}}}", f"{head[1]}{{}}")
            behind = number if line.endswith("{}") else len(lines) - 1
            last = next((at for at in range(number, behind) if lines[at] in ends), behind)
            home = homes.get(owner.partition("+")[0], [file])
            found.append((number + 1, last + 1, Place(file, owner, head[2], file if file in home else home[0])))
    return found


def read_text(path: str) -> str:
    with open(path, encoding="utf-8") as file:
        return file.read()


def pairs_in(text: str) -> list[tuple[str, str, str]]:
    """The pairs of an edit, read as `rt` reads them."""
    file, old, pairs = "", None, []
    for line in text.split("\n"):
        if line.startswith("file: "):
            file = line[6:].strip()
            if os.path.normpath(file) != file or not file.startswith("src/") or not file.endswith(".rt"):
                raise BadEdit("a 'file:' line names no source file below src/")
        elif line.startswith("old: "):
            old = line[5:]
        elif line.startswith("new:"):
            if not file or not old:
                raise BadEdit("a 'new:' line stands before any 'file:' or 'old:' line")
            pairs.append((file, old, line[4:].removeprefix(" ")))
            old = None
    if not pairs:
        raise BadEdit("it has no 'old:' and 'new:' pair")
    return pairs


def apply(pairs: list[tuple[str, str, str]], texts: dict[str, str]) -> dict[str, str]:
    """The texts of a crate's sources with the edit, one after the other."""
    after = dict(texts)
    for file, old, new in pairs:
        if file not in after:
            raise BadEdit(f"there is no file {file}")
        if (count := after[file].count(old)) != 1:
            raise BadEdit(f"an 'old:' text is in {file} {count} times, and not once")
        after[file] = after[file].replace(old, new)
    if after == texts:
        raise BadEdit("it changes nothing")
    return after


def places_of(pairs: list[tuple[str, str, str]], texts: dict[str, str]) -> frozenset[Place]:
    """The functions that the edit changes; of a constant those of the crate that name it."""
    found, now = set(), dict(texts)
    for file, old, new in pairs:
        line = now[file][:now[file].index(old)].count("\n") + 1
        inside = [place for first, last, place in functions_in(file, now) if first <= line <= last]
        constant = re.match(r" *(?:pub(?:\([a-z ]+\))? )?(?:const|static) (\w+)", now[file].split("\n")[line - 1])
        if inside:
            found.add(inside[-1])
        elif constant:
            found |= set(users_of(constant[1], now))
        else:
            raise BadEdit(f"line {line} of {file} stands in no function")
        now[file] = now[file].replace(old, new)
    if not found:
        raise BadEdit("it changes no function")
    return frozenset(found)


def users_of(name: str, texts: dict[str, str]) -> typing.Iterator[Place]:
    """The functions that name this constant."""
    for file, text in texts.items():
        lines = text.split("\n")
        for first, last, place in functions_in(file, texts):
            if any(re.search(rf"\b{name}\b", line) for line in lines[first - 1:last]):
                yield place


def texts_of(folder: str) -> dict[str, str]:
    """The sources of the crate in this folder."""
    paths = [path for path in files_of(folder) if path.startswith(f"{folder}/src/") and path.endswith(".rt")]
    return {os.path.relpath(path, folder): read_text(path) for path in paths}


def read_edit(path: str, texts: dict[str, str]) -> Edit:
    """An edit of the crate with these sources, which can be applied."""
    try:
        pairs = pairs_in(read_text(path))
    except (OSError, ValueError) as fault:
        raise BadEdit(f"it cannot be read: {fault}") from fault
    apply(pairs, texts)
    return Edit(os.path.basename(path).removesuffix(".edit"), path, pairs, places_of(pairs, texts))


# What the prover said.

LOCATED = re.compile(r"(?P<head>(?:note|warning|error): )?(?:\./)?(?P<file>(?:src|specs|proofs)/\S+?):(?P<line>\d+):\d+: (?P<text>.*)")
# A proof file that names what an edit took away, and what cites that proof, as in `rt`.
NAMES = re.compile(r"has no field|is not in scope|has no `|was not admitted")
# A text that antt could not read, as in `rt`.
UNREADABLE = re.compile(r"is not in scope|has no field|is no name|operand is missing|expected the end|cannot continue")
# The prover's own limits, which it meets wherever it checks the same, as in `rt`.
LIMITS = re.compile(r"antt ran out of (?:stack|the (?:steps|memory) that the check of one declaration may (?:take|use))|"
                    r"(?:outgrew the memory limit|stopped at the step limit) \(")
STATE = re.compile(r"fn (\S+?): (proved|not proved|no proof|could not tell)(.*)")


class Said:
    """What a check said of functions, whose crate then has these sources."""

    def __init__(self, crate: str, text: str, texts: dict[str, str]):
        self.lines, self.texts = text.rstrip("\n").split("\n"), texts
        self.functions: dict[str, list[tuple[int, int, Place]]] = {}
        self.located = [found for line in self.lines if (found := LOCATED.match(line))]
        self.states = {found[1].removeprefix(f"{crate}::"): (found[2], found[3]) for line in self.lines if (found := STATE.match(line))}

    @property
    def reached_the_prover(self) -> bool:
        return bool(re.match(r"only=|logic=", self.lines[-1])) or any("no verdict" in line for line in self.lines[-3:])

    @property
    def limit(self) -> str:
        return next((line for line in self.lines if LIMITS.search(line)), "")

    def of(self, place: Place) -> list[tuple[str, str]]:
        """The states of this function, and of the closures in it."""
        return [state for name, state in self.states.items() if name == place.path or name.startswith(place.closures)]

    def is_in(self, found: re.Match, place: Place) -> bool:
        """Whether a line speaks of this function: of its text, or of its own proof files."""
        if found["file"].startswith("proofs/"):
            return any(found["file"].startswith(f"proofs/{name.replace('::', '/')}/") for name in (place.path, place.closures[:-2]))
        if found["file"] != place.file:
            return False
        if place.file not in self.functions:
            self.functions[place.file] = functions_in(place.file, self.texts)
        return any(first <= int(found["line"]) <= last for first, last, other in self.functions[place.file] if other == place)

    def unread(self, found: re.Match) -> bool:
        """Whether antt could not read a text there, where an edit that only makes a statement false reads well."""
        if found["file"].startswith("proofs/") or found["head"]:
            return False
        text = re.match(r"error: (?:(`[^`]*`): )?(.*)", found["text"])
        return bool(text) and (not text[1] or bool(UNREADABLE.search(re.sub(r"`[^`]*`", "", text[2]))))

    def open_goals(self, place: Place) -> list[str]:
        """The goals of this function that are open: in its text, in its own proof files, or in its line."""
        found = []
        for line in self.located:
            if not self.is_in(line, place) or self.unread(line):
                continue
            is_error = line["text"].startswith("error")
            if line["file"].startswith("proofs/"):
                found += [line[0]] if is_error and not NAMES.search(line["text"]) else []
            elif is_error or line["head"] == "note: " and line["text"].startswith("it is not proved that"):
                found.append(line[0])
        return found + [f"{place.path}: {state}{rest}" for state, rest in self.of(place) if state == "no proof" and "did not prove" in rest]

    def lost_names(self, place: Place) -> list[str]:
        """What its own proof files name that is not there."""
        own = [line for line in self.located if line["file"].startswith("proofs/") and self.is_in(line, place)]
        return [line[0] for line in own if NAMES.search(line["text"])]


def judge(edit: Edit, said: Said) -> tuple[str, str]:
    """What a check that reached the prover says of this edit, which may not be alone in it; and why."""
    if unread := [line[0] for line in said.located if said.unread(line) and any(said.is_in(line, place) for place in edit.places)]:
        return BAD, f"the prover cannot read the edited text, so no contract was tried: {unread[0][:200]}"
    for place in edit.places:
        if goals := said.open_goals(place):
            return REFUSED, goals[0][:200]
    states = [state for place in edit.places for state in said.of(place)]
    missing = [place.path for place in edit.places if not said.of(place)]
    if missing:
        return UNKNOWN, f"the check says nothing of {missing[0]}"
    if all(state.startswith("proved") for state, _ in states):
        return MISSED, "what it changes is still proved (what means the same as before cannot be refused: remove it)"
    if any(state == "could not tell" for state, _ in states) and said.limit:
        return AT_LIMIT, f"only by a limit of the prover, which gave no verdict, so this says less of the contract: {said.limit[:160]}"
    for place in edit.places:
        if names := said.lost_names(place):
            return MISSED, f"only a proof file names what the edit took away: change a value and keep the names: {names[0][:200]}"
    if calls := [rest for _, rest in states if "it calls" in rest]:
        return MISSED, f"no goal of its own is open, only what it calls is not proved: {calls[0].strip('; ')[:200]}"
    return UNKNOWN, f"no goal of its own is open: {'; '.join(state + rest for state, rest in states)[:200]}"
