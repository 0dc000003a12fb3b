"""Compares `ttd judge` with a slow check over all pairs, on random histories.

There are 300 of them by seed 1, where no other --number and no other --seed is given. Each random history has up to 12 commits with few different times and stamps, so equal
ones meet, or some with numbers near 2^64; in two of three some commits name a shard and a term; every eighth text has a bad line.
"""
import random
import re

from harness.program import run
from harness.suite import Suite, total, wrong_in

suite = Suite(__name__)
MOST = 2**64 - 1
BAD_LINES = ["", "commit 1 2", "commit 2 1 3", "commit 01 2 3", "commit 1 2 3 4", "commit  1 2 3", "commit 1 2 -3", "commits 1 2 3",
             "commit 1 2 3\r", "commit 1 2 18446744073709551616", "Commit 1 2 3", "commit 1 2 3 4 05", "commit 1 2 3 4 5 6",
             "commit 1 2 3 4 18446744073709551616", "commit 1 2 3 4 5 "]


def judged(commits):
    """What a history of (began, ended, stamp) or (began, ended, stamp, shard, term) is worth, over all pairs: the lines, and the status."""
    lines = list(enumerate(commits, 1))

    def against(contradicts, order):
        """How many commits contradict another one, the first of them in this order, and the greatest stamp that it contradicts."""
        found = []
        for line, later in lines:
            if greatest := [(-earlier[2], other) for other, earlier in lines if contradicts(later, line, earlier, other)]:
                found.append((order(later, line), line, min(greatest)[1]))
        return len(found), min(found)[1:] if found else None

    def is_violated(later, _, earlier, __):
        return earlier[1] < later[0] and later[2] <= earlier[2]

    def crosses_term(later, _, earlier, __):
        return len(later) == len(earlier) == 5 and later[3] == earlier[3] and earlier[4] < later[4] and later[2] <= earlier[2]

    def repeats_stamp(later, line, earlier, other):
        return len(later) == len(earlier) == 5 and later[3] == earlier[3] and earlier[2] == later[2] and other < line

    rows = [("violations", "first", *against(is_violated, lambda commit, line: (commit[0], line)))]
    if any(len(commit) == 5 for commit in commits):
        rows.append(("term_violations", "first_term", *against(crosses_term, lambda _, line: line)))
        rows.append(("equal_stamps", "first_equal", *against(repeats_stamp, lambda _, line: line)))
    answer = [f"commits {len(commits)}"]
    for word, first_word, count, first in rows:
        answer.append(f"{word} {count}")
        if first:
            answer.append(f"{first_word} {first[0]} {first[1]}")
    return "".join(f"{line}\n" for line in answer), 3 if any(count for _, _, count, _ in rows) else 0


def text_of(commits):
    return "".join(f"commit {' '.join(map(str, commit))}\n" for commit in commits)


def random_history(chance):
    """Few different numbers, so that equal ones meet; sometimes the greatest ones."""
    most = chance.choice([2, 5, 20, 10**6])
    least = chance.choice([0, 0, MOST - most])
    named = chance.choice([0, 0.7, 1])
    commits = []
    for _ in range(chance.randrange(13)):
        began, ended = sorted((chance.randint(0, most), chance.randint(0, most)))
        # Half of the stamps lie within their commit, as those of a good history do.
        stamp = chance.choice([chance.randint(began, ended), chance.randint(0, most)])
        term = chance.choice([chance.randint(0, 3), chance.randint(0, 3), stamp * 3 // (most + 1), MOST])
        of_shard = (chance.choice([0, 1, MOST]), term) if chance.random() < named else ()
        commits.append((least + began, least + ended, least + stamp, *of_shard))
    return commits


def spoiled(text, chance):
    """The text with a bad line, or without its last line feed, and the number of its first bad line."""
    lines = text.splitlines()
    if lines and chance.random() < 0.3:
        return text[:-1], len(lines)
    place = chance.randint(0, len(lines))
    lines.insert(place, chance.choice(BAD_LINES))
    return "".join(f"{line}\n" for line in lines), place + 1


@suite.case()
def histories(trial):
    number, seed = trial.options.number or 300, 1 if trial.options.seed is None else trial.options.seed
    chance = random.Random(seed)
    for place in range(number):
        commits = random_history(chance)
        text, line, wanted = text_of(commits), 0, judged(commits)
        if place % 8 == 7:
            text, line = spoiled(text, chance)
            wanted = "refused 1603\n", 2
        ran = run([trial.program, "judge"], text.encode())
        is_told = not line or str(line) in re.findall("[0-9]+", ran.error.replace("1603", ""))
        trial.check(f"history {place} of seed {seed}", (ran.said, ran.status) == wanted and is_told,
                    f"status {ran.status}, {ran.said!r}, {ran.error!r} for\n{text}")
        trial.count(histories=1, violated=wanted[1] == 3, bad=line > 0)
    trial.result.seed = seed


@suite.last_line
def last_line(results):
    return (f"{total(results, 'histories')} histories by seed {', '.join(str(result.seed) for result in results)}, {total(results, 'violated')} with "
            f"violations, {total(results, 'bad')} with a bad line; {wrong_in(results)} judged otherwise")
