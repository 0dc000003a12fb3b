"""Compiles what only measures: bench/rows, without proofs, and bench/plain.rs. Of some rows it compares the sums of what all calls answered,
which both programs give.
"""
import re
import subprocess

from harness.program import in_top, run
from harness.suite import Suite

suite = Suite(__name__)
#: Rows of one thread and without a clock, which are measured within a second each.
ROWS = ["age", "decode2", "copy", "row_stamp", "stamp", "queue_1000"]


def sums_of(trial, what, command):
    """The sum in the line of each row."""
    ran = run([*command, *ROWS], seconds=120)
    lines = [re.fullmatch(r"(\w+) (\d+\.\d) (\d+)", line) for line in ran.said.splitlines()]
    trial.holds(ran.status == 0 and all(lines) and [line[1] for line in lines] == ROWS, f"{what}: status {ran.status}, {ran.said}{ran.error}")
    return {line[1]: int(line[3]) for line in lines if line}


@suite.case(programs=("rt", "rustc"))
def sums(trial):
    here, plain = f"{trial.room}/here", f"{trial.room}/plain"
    for words in [in_top("tools/build_texts"), in_top("bench/rows"), here, "-O0"], ["rustc", "--edition", "2024", "-C", "opt-level=1", "-o", plain, in_top("bench/plain.rs")]:
        built = run(words, seconds=600, stderr=subprocess.STDOUT)
        trial.holds(built.status == 0, f"{words}: status {built.status}: {built.said}")
        if built.status != 0:
            return
    listed = re.findall(r"^(\w+): ", run([here]).said, re.MULTILINE)
    trial.holds(set(ROWS) < set(listed), f"it lists {listed}")
    ours, theirs = sums_of(trial, "bench/rows", [here]), sums_of(trial, "bench/plain.rs", [plain])
    trial.holds(ours == theirs, f"its sums are {ours}, and those of plain Rust {theirs}")


@suite.last_line
def last_line(results):
    return f"{len(ROWS)} rows as in plain Rust, {sum(len(result.wrong) for result in results)} wrong"
