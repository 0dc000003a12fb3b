"""Tries from outside whether each setting, number and line of the log of the time service is wired to what its name says.

All scenarios run at once, but for a few that are bound to milliseconds and come first. One that was wrong is tried once more when nothing
runs beside it: the host may be busy, and a wrong wiring is wrong each time. What a busy host makes later is judged by counts, or by what was
measured beside it. Masters are scripts that keep what a machine sends.

- Each setting of a machine, each option of `master` and each of its acts has its effect, with a value that is no default.
- Each number of the status and of the shared file is that of what was done: rounds of a known kind, packets of each kind that is refused
  by its number, answers of known age, delay, span and rate, clients with known lines, calls that tools/spoil_calls.c spoils.
- What a master answers is known to the nanosecond where its clocks stand still, and move where they are told.
- Each kind of line of the log is provoked, with its numbers; one before which others were left out says how many.
- Each wait and deadline is as long as the list of times says, by what a command asks the system for (tools/note_calls.c), or by a clock that
  is moved on. What has to last is synced before and behind its rename. Files, folders and the socket have their modes and their owner.

The names are in wiring_checks.py, and each of them has to be checked. Not tried are the order of the refusals of settings (tests/), what
becomes of clients, files and networks that fail (the suite `faults`), and numbers that a run cannot reach: 402, 403, 805, counts at their ends.
"""
from harness.suite import Suite, wrong_in
from suites.wiring_checks import NAMES, Checks

suite = Suite(__name__, Checks, at_once=32, longest_s=40, again=1)


@suite.whole
def names(trial):
    checked = {name for result in trial.shared for name, _ in result.checks}
    for name in NAMES:
        if name not in checked:
            trial.check(name, False, "nothing checks it")


@suite.last_line
def last_line(results):
    return f"{sum(len(result.checks) for result in results)} checks, {wrong_in(results)} wrong"
