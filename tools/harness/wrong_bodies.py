"""Tries the wrong bodies of crates: many in one check.

A check names each function that it refuses, and proves each against the contracts of what it calls, not their bodies. So wrong bodies of
different functions stand in one copy of a crate, and one check of these functions alone refuses them one by one. A wrong body counts as
refused only by an open goal of a function that it changes. What a common check does not refuse so is tried again alone.
"""
import contextlib
import dataclasses
import hashlib
import json
import os
import shutil
import signal
import tempfile
import typing

from harness import edits, prover
from harness.edits import AT_LIMIT, BAD, REFUSED, UNKNOWN, BadEdit, Edit, Said, apply, judge
from harness.prover import Ran, Task

FOLDER = "wrong"
# What is refused by a limit passes too, as in `rt`.
PASS = (REFUSED, AT_LIMIT)
# The part of what a check from nothing takes that a round was seen to take at most, and how many results are kept.
OF_NEED, MOST_KEPT = 0.6, 5_000
# What a line of the text below takes in bytes, where that is read.
LINE_BELOW = 60_000


@dataclasses.dataclass
class Tried:
    """What came of the wrong bodies of a crate."""
    crate: str
    #: Each wrong body: what its try came to, and why.
    came: dict[str, tuple[str, str]] = dataclasses.field(default_factory=dict)
    kept: int = 0
    rounds: int = 0
    cpu_s: float = 0.0
    #: Whether the text below was used in place of the built libraries.
    over_sources: bool = False

    @property
    def refused(self) -> int:
        return sum(kind in PASS for kind, _ in self.came.values())

    @property
    def wrong(self) -> dict[str, str]:
        """What is wrong, by name."""
        return {f"{self.crate}/{name}": f"{kind}: {why}" for name, (kind, why) in self.came.items() if kind not in PASS}

    @property
    def line(self) -> str:
        parts = [f"{len(self.came)} bodies", f"{self.refused} refused", f"{self.rounds} rounds", f"{self.cpu_s:.1f} processor s"]
        parts[2:2] = [f"{self.kept} of them in an earlier run"] if self.kept else []
        limits = [name for name, (kind, _) in self.came.items() if kind == AT_LIMIT]
        parts += ["over the text of the crates below"] * self.over_sources
        return ", ".join(parts) + "".join(f"; {name} only by a limit of the prover" for name in limits)


def crates_with_any() -> list[str]:
    """The crates that have a folder of wrong bodies, listed in crates.txt or not."""
    return sorted(name for name in os.listdir(prover.in_top("crates")) if os.path.isdir(f"{prover.folder_of(name)}/{FOLDER}"))


def count_of_files() -> int:
    """How many files the folders of wrong bodies have, by another walk."""
    folders = [f"{prover.folder_of(crate)}/{FOLDER}" for crate in crates_with_any()]
    return sum(not name.endswith(".md") for folder in folders for _, _, names in os.walk(folder) for name in names)


# What earlier runs refused.

def stores(crate: str) -> typing.Iterator[str]:
    """Where results may be kept: beside the kit, as `rt` does, and else in the crate's out/."""
    yield f"{os.path.dirname(prover.kit())}/wrong-bodies-kept"
    yield f"{prover.folder_of(crate)}/out/wrong-bodies-kept"


def store_of(crate: str) -> str | None:
    for folder in stores(crate):
        with contextlib.suppress(OSError):
            os.makedirs(folder, 0o700, exist_ok=True)
            if os.stat(folder).st_uid == os.geteuid() and os.access(folder, os.W_OK):
                return folder
    return None


def sum_of_crate(crate: str) -> str:
    """A sum of all that a try stands on but the edit: the kit, this tool, the crate, and the libraries below as they were built."""
    whole = hashlib.sha256(repr((prover.kit_line(), crate, prover.graph()[crate])).encode())
    tool = [prover.in_top(f"tools/harness/{name}.py") for name in ("edits", "prover", "wrong_bodies")]
    folder = prover.folder_of(crate)
    for path in [*tool, *prover.files_of(folder)]:
        with open(path, "rb") as file:
            whole.update(repr((os.path.relpath(path, prover.in_top(".")), file.read())).encode())
    for lower in prover.below(crate):  # the sums of a library's other files stand in its format
        for path in [f"{prover.rlib(lower)}/format", *prover.files_of(prover.folder_of(lower))]:
            with open(path, "rb") as file:
                whole.update(repr((os.path.relpath(path, folder), file.read())).encode())
    return whole.hexdigest()


class Store:
    """Results of a crate that hold wherever the same is tried: what was refused, never anything else."""

    def __init__(self, crate: str, anew: bool):
        self.crate, self.anew, self.folder = crate, anew, store_of(crate)
        self.began = self.sum()

    def sum(self) -> str | None:
        try:
            return sum_of_crate(self.crate)
        except OSError:  # a library is not built, so nothing is kept
            return None

    def name(self, edit: Edit) -> str:
        with open(edit.path, "rb") as file:
            return hashlib.sha256(repr((self.began, edit.name, file.read())).encode()).hexdigest()

    def known(self, edit: Edit) -> tuple[str, str] | None:
        if self.anew or not self.folder or not self.began:
            return None
        with contextlib.suppress(OSError, ValueError, KeyError, TypeError):
            with open(f"{self.folder}/{self.name(edit)}", encoding="utf-8") as file:
                found = json.load(file)
            if found["name"] == self.name(edit) and found["kind"] in PASS and isinstance(found["why"], str):
                return found["kind"], found["why"]
        return None

    def keep(self, edit: Edit, name: str, kind: str, why: str) -> None:
        """Keeps what was refused, if nothing that it stands on changed since."""
        if kind not in PASS or not self.folder or not self.began or self.name(edit) != name or self.sum() != self.began:
            return
        with contextlib.suppress(OSError):
            with tempfile.NamedTemporaryFile("w", prefix="new-", dir=self.folder, delete=False, encoding="utf-8") as file:
                json.dump({"name": name, "crate": self.crate, "edit": edit.name, "kind": kind, "why": why}, file)
            os.replace(file.name, f"{self.folder}/{name}")
            for path in sorted((entry.path for entry in os.scandir(self.folder)), key=os.path.getmtime)[:-MOST_KEPT]:
                os.remove(path)


# One crate.

class Crate:
    """The tries of one crate: rounds over a copy of its text."""

    def __init__(self, crate: str, room: str):
        self.crate, self.folder, self.room = crate, prover.folder_of(crate), room
        self.texts, self.tried, self.kept_work = edits.texts_of(self.folder), Tried(crate), f"{room}/incremental"

    def check(self, texts: dict[str, str], paths: list[str]) -> Ran:
        """Checks these functions of a copy with these sources, over what earlier rounds proved; all where the kit takes no --only."""
        copy = f"{self.room}/copy"
        shutil.rmtree(copy, ignore_errors=True)
        for part in prover.PARTS:
            if os.path.isdir(f"{self.folder}/{part}"):
                shutil.copytree(f"{self.folder}/{part}", f"{copy}/{part}")
        for file, text in texts.items():
            if text != self.texts[file]:
                with open(f"{copy}/{file}", "w", encoding="utf-8") as written:
                    written.write(text)
        call = prover.words(self.crate, copy, self.tried.over_sources)
        if prover.takes("--incremental"):
            os.makedirs(self.kept_work, exist_ok=True)
            call += ["--incremental", self.kept_work]
        if prover.takes("--only"):
            call += [word for path in paths for word in ("--only", path)]
        ran = prover.run(call, copy)
        if ran.status == -signal.SIGKILL:  # most likely for memory
            ran = prover.run(call, copy)
        self.tried.rounds += 1
        self.tried.cpu_s += ran.cpu_s
        return ran

    def is_proved(self, found: list[Edit]) -> str:
        """Why the functions that these edits change are not proved without them, or nothing."""
        ran = self.check(self.texts, paths_of(found))
        return "" if ran.status == 0 else f"without it its functions are not proved here: {told(ran)}"

    def round(self, now: list[Edit]) -> dict[str, tuple[str, str]]:
        """Tries edits that fit into one copy; what each came to. What the copy can't tell is left to a try of each alone."""
        texts = self.texts
        for edit in now:
            texts = apply(edit.pairs, texts)
        ran = self.check(texts, paths_of(now))
        said = Said(self.crate, ran.said, texts)
        if ran.status in (1, 3) and said.reached_the_prover:
            unread = [line[0] for line in said.located if said.unread(line)]
            came = {edit.name: judge(edit, said) for edit in now}
            if unread and len(now) > 1 and not any(kind == BAD for kind, _ in came.values()):
                return {}
            if unread and len(now) == 1:
                return {now[0].name: (BAD, f"the prover cannot read the edited text, so no contract was tried: {unread[0][:200]}")}
            return {name: it for name, it in came.items() if len(now) == 1 or it[0] == REFUSED}
        if len(now) > 1:
            return {}
        if ran.status == 0:
            return {now[0].name: (edits.MISSED, "it is still proved (what means the same as before cannot be refused: remove it)")}
        is_bad = ran.status == 1 and "error[" in ran.said
        return {now[0].name: (BAD, f"it did not reach the prover: {told(ran)}") if is_bad else (UNKNOWN, told(ran))}

    def drop_bad(self, now: list[Edit]) -> list[Edit]:
        """Of edits that a common check could not try those that compile, which takes seconds; the others are told."""
        good = []
        for edit in now:
            ran = self.check(apply(edit.pairs, self.texts), [""]) if prover.takes("--only") else None
            if ran and ran.status == 1 and "error[" in ran.said:
                self.tried.came[edit.name] = BAD, f"it did not reach the prover: {told(ran)}"
            else:
                good.append(edit)
        return good

    def tell(self, store: Store, edit: Edit, name: str, kind: str, why: str) -> None:
        self.tried.came[edit.name] = kind, why
        store.keep(edit, name, kind, why)

    def rounds(self, left: list[Edit], store: Store) -> None:
        """Tries these edits, together as far as they change different functions, and then one by one what is not refused so."""
        names, alone = {edit.name: store.name(edit) for edit in left}, []
        while left:
            now, left = fitting(left, self.texts)
            came = self.round(now)
            for edit in now:
                if edit.name in came:
                    self.tell(store, edit, names[edit.name], *came[edit.name])
            rest = [edit for edit in now if edit.name not in came]
            good = self.drop_bad(rest) if not came and len(now) > 1 else rest
            if len(good) < len(rest):
                left = good + left
            else:
                alone += good
        for edit in alone:
            self.tell(store, edit, names[edit.name], *self.round([edit])[edit.name])


def fitting(left: list[Edit], texts: dict[str, str]) -> tuple[list[Edit], list[Edit]]:
    """The edits that fit into one copy, as they change different functions, and the others."""
    now, later, used = [], [], set()
    for edit in left:
        try:
            after = apply(edit.pairs, texts)
        except BadEdit:  # a line of another edit is the same
            after = None
        if after is None or edit.places & used:
            later.append(edit)
        else:
            now, used, texts = [*now, edit], used | edit.places, after
    return now, later


def paths_of(found: list[Edit]) -> list[str]:
    return sorted({place.path for edit in found for place in edit.places})


def told(ran: Ran) -> str:
    """The first lines of what a check said that has not done what it was to do."""
    if ran.status is None:
        return f"its check had not ended after {prover.LONGEST_CPU_S} processor seconds, or {prover.LONGEST_S} s"
    lines = [line for line in ran.said.split("\n") if line and not line.startswith("by-macro:")]
    wrong = [line for line in lines if "error" in line or line.startswith(("rattle", "fn ")) and not line.endswith(": proved")]
    return f"its check ended with status {ran.status}: {' | '.join((wrong or lines[-4:])[:4])[:600]}"


def are_built(crate: str) -> bool:
    return all(os.path.isdir(prover.rlib(name)) for name in prover.below(crate))


def is_of_this_run(crate: str, since: float | None) -> bool:
    """Whether the libraries below are those of the `rt ci` that began then, and proved the crate over them. It gives a clone that had
    libraries before these back."""
    return since is not None and are_built(crate) and all(os.path.getmtime(prover.rlib(name)) >= since for name in prover.below(crate))


def try_crate(crate: str, since: float | None = None, anew: bool = False) -> Tried:
    """Tries all wrong bodies of a crate. `since` says when the `rt ci` began that proved it, if one did."""
    with tempfile.TemporaryDirectory(prefix="wrong-bodies-") as room:
        it = Crate(crate, room)
        good, bad = edits.names_in(f"{it.folder}/{FOLDER}")
        for path in bad:
            it.tried.came[os.path.relpath(path, f"{it.folder}/{FOLDER}")] = BAD, "a wrong body stands right in wrong/, and ends in .edit"
        if crate not in prover.graph():
            it.tried.came |= {os.path.basename(path): (UNKNOWN, "crates.txt has no such crate") for path in good}
            return it.tried
        found = []
        for path in good:
            try:
                found.append(edits.read_edit(path, it.texts))
            except BadEdit as fault:
                it.tried.came[os.path.basename(path).removesuffix(".edit")] = BAD, str(fault)
        store = Store(crate, anew)
        for edit in found:
            if known := store.known(edit):
                it.tried.came[edit.name], it.tried.kept = known, it.tried.kept + 1
        try_found(it, [edit for edit in found if edit.name not in it.tried.came], store, since)
        return it.tried


def try_found(it: Crate, found: list[Edit], store: Store, since: float | None) -> None:
    """Tries these edits over the libraries, or where these are not built, or do not fit the text, over the text below. Unless `rt ci` has
    just proved the crate over these libraries, the functions come first as they are."""
    if not found:
        return
    why = "" if is_of_this_run(it.crate, since) else "the libraries are not built"
    if why and are_built(it.crate):
        why = it.is_proved(found)
    if why and prover.below(it.crate):
        it.tried.over_sources, it.kept_work = True, f"{it.room}/over-sources"
        store.folder = None  # a result is kept over libraries
        why = it.is_proved(found)
    if why:
        it.tried.came |= {edit.name: (UNKNOWN, why) for edit in found}
    else:
        it.rounds(found, store)


def try_crates(crates: list[str], since: float | None = None, anew: bool = False) -> typing.Iterator[Tried]:
    """Tries the wrong bodies of these crates side by side; what came of each, as they end."""
    def task(crate: str) -> Task:
        if crate not in prover.graph():
            return Task(lambda: try_crate(crate), 0, 0)
        number = len(edits.names_in(f"{prover.folder_of(crate)}/{FOLDER}")[0])
        weight = prover.lines_of(crate, ".rt") * (1 + number / 10)
        needs = OF_NEED * prover.need(crate)
        if not are_built(crate):
            needs += LINE_BELOW * sum(prover.lines_of(name, ".rt") for name in prover.below(crate))
        return Task(lambda: try_crate(crate, since, anew), needs, weight)

    yield from prover.side_by_side([task(crate) for crate in crates])


def last_line(all_tried: list[Tried]) -> str:
    bodies, kept, wrong = (sum(number) for number in zip(*((len(tried.came), tried.kept, len(tried.wrong)) for tried in all_tried)))
    work = f"{sum(tried.rounds for tried in all_tried)} rounds, {sum(tried.cpu_s for tried in all_tried):.0f} processor s"
    of_kept = f" ({kept} in an earlier run)" if kept else ""
    return f"{bodies} bodies of {len(all_tried)} crates, {bodies - wrong} refused{of_kept}, {work}, {wrong} wrong"
