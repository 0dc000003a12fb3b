"""Tries the wrong bodies of all crates, `crates/NAME/wrong/*.edit`: the prover has to refuse each, by an open goal of a function that it
changes. `tools/wrong_bodies` tries those of one crate, and says more.

It uses the libraries that `rt ci` left, and wants to know by --proved that the crates are proved. Else it is left out where it is not asked
for: the proofs of the changed functions come first then, and where a library is not built the text of the crates is read.
"""
import dataclasses

from harness import prover, wrong_bodies
from harness.suite import Case, Suite, total, wrong_in
from harness.trial import Options, Result, Trial
from harness.wrong_bodies import Tried


def note(tried: Tried, result: Result) -> Result:
    """Writes what came of a crate into the result of its case."""
    print(f"wrong_bodies: {tried.crate}: {tried.line}", flush=True)
    result.checks += [(name, tried.wrong.get(name, "")) for name in (f"{tried.crate}/{short}" for short in tried.came)]
    result.counts.update(bodies=len(tried.came), refused=tried.refused, kept=tried.kept, rounds=tried.rounds, cpu_s=round(tried.cpu_s))
    result.seconds = tried.cpu_s
    return result


class SideBySide(Suite):
    """A suite whose cases run as many at once as processors and memory hold."""

    def run(self, cases: list[Case], options: Options, times: int = 1) -> list[Result]:
        return super().run(cases, dataclasses.replace(options, long=options.long or options.proved is not None), times)

    def run_once(self, cases: list[Case], options: Options, at_once: int) -> list[Result]:
        came = wrong_bodies.try_crates([case.name for case in cases], options.proved)
        return self.tell(note(tried, Result(self.name, tried.crate)) for tried in came)


suite = SideBySide(__name__)


def one(trial: Trial, crate: str) -> None:
    note(wrong_bodies.try_crate(crate, trial.options.proved), trial.result)


for name in wrong_bodies.crates_with_any():
    suite.found.append(Case(suite, name, one, (name,), missing=prover.missing_kit, long=True))


@suite.whole
def all_are_tried(trial: Trial) -> None:
    """Each file of each folder was tried."""
    if trial.shared:
        trial.equal("all are tried", total(trial.shared, "bodies"), wrong_bodies.count_of_files())


@suite.last_line
def last_line(results: list[Result]) -> str:
    parts = [f"{total(results, 'bodies')} bodies of {sum(result.counts['bodies'] > 0 for result in results)} crates"]
    parts += [f"{total(results, 'refused')} refused", f"{total(results, 'kept')} of them in an earlier run"]
    parts += [f"{total(results, 'rounds')} rounds", f"{total(results, 'cpu_s')} processor s", f"{wrong_in(results)} wrong"]
    return ", ".join(parts)
