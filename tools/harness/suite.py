"""Suites of cases: how they are declared, chosen and run."""
import contextlib
import dataclasses
import fnmatch
import functools
import glob
import importlib
import itertools
import os
import shutil
import signal
import tempfile
import time
import typing
from concurrent.futures import ProcessPoolExecutor

from harness.processes import Fault
from harness.program import in_top
from harness.trial import Options, Result, Trial

# All suites, in the order of the gate.
NAMES = ("wrong_bodies examples cases judge bench sweep simulation hostile clients clients_as_installed packages alerts service "
         "wiring faults sessions breaks slews epochs fuzz demo failover postgres valkey soak fleet masters").split()
SUITES: dict[str, "Suite"] = {}


@dataclasses.dataclass(frozen=True, eq=False)
class Case:
    """A call that makes checks, and gives what else is wrong, one after the other; and what it wants."""
    suite: "Suite"
    name: str
    call: typing.Callable[..., typing.Iterable[str] | None]
    #: What the call has behind the trial.
    words: tuple = ()
    root: bool = False
    programs: tuple[str, ...] = ()
    #: Why else it cannot run here, or nothing.
    missing: typing.Callable[[], str] = str
    #: It takes half a minute, and is run where it is asked for.
    long: bool = False
    #: Little else may run beside it.
    quiet: bool = False

    @property
    def path(self) -> str:
        return f"{self.suite.name}/{self.name}"

    def left_out(self, has_time: bool) -> str:
        """Why it cannot run here, or nothing."""
        if self.root and os.geteuid() != 0:
            return "it wants root"
        if missing := [program for program in self.programs if not shutil.which(program)]:
            return f"it wants {' and '.join(missing)}"
        return "it takes long" if self.long and not has_time else self.missing()

    def run(self, options: Options, shared: typing.Any = None) -> Result:
        """Runs it in a folder of its own."""
        result = Result(self.suite.name, self.name, left_out=self.left_out(options.long))
        if result.left_out:
            return result
        began = time.monotonic()
        with tempfile.TemporaryDirectory() as room, self.suite.trial(options, room, result) as trial:
            os.chmod(room, 0o755)
            trial.shared = shared
            try:
                with time_limit(self.suite.longest_s * (2 if self.long else 1)):
                    for what in self.call(trial, *self.words) or ():
                        trial.wrong(what)
                    trial.finish()
            except Exception as fault:  # whatever a wrong program leads to
                trial.wrong(str(fault) if isinstance(fault, Fault) else f"{type(fault).__name__}: {fault}")
        result.seconds = time.monotonic() - began
        return result


@contextlib.contextmanager
def time_limit(seconds: int):
    """A fault after so many seconds; 0 for none."""
    def give_up(*_):
        raise Fault(f"no end in {seconds} seconds")

    signal.signal(signal.SIGALRM, give_up)
    signal.alarm(seconds)
    try:
        yield
    finally:
        signal.alarm(0)


class Suite:
    """Cases, how many of them run at once and how long, and how often one that was wrong is tried again when nothing runs beside it,
    unless one of these words stands in what is wrong: no busy host does that. A suite that is not quick is left out by --quick. One with
    `beside_s`, the seconds that it takes, runs beside another such, behind those without."""

    def __init__(self, module: str, trial: type[Trial] = Trial, at_once: int = 1, longest_s: int = 0, again: int = 0, never: tuple[str, ...] = (),
                 quick: bool = True, beside_s: int = 0):
        self.name, self.trial, self.at_once, self.longest_s, self.again = module.rpartition(".")[2], trial, at_once, longest_s, again
        self.never, self.quick, self.beside_s = never, quick, beside_s
        self.found: list[Case] = []
        self.families: list[typing.Callable] = []
        self.common = self.of_all = None
        self.told = lambda results: f"{wrong_in(results)} wrong"
        SUITES[self.name] = self

    # How it is declared.

    def case(self, **wants):
        """The call that follows is a case of its name."""
        def register(call):
            self.found.append(Case(self, call.__name__, call, **wants))
            return call
        return register

    def family(self, make):
        """The call that follows gives more cases: a name, a call and further words for it."""
        self.families.append(make)
        return make

    def shares(self, make):
        """The call that follows makes what all cases share as `trial.shared`, as long as its block lasts. They run one after the other."""
        self.common = contextlib.contextmanager(make)
        return make

    def whole(self, call):
        """The call that follows is one more case where all others were run, whose results are its `trial.shared`."""
        self.of_all = Case(self, call.__name__, call)
        return call

    def last_line(self, call):
        """The call that follows says what stands in the last line, by the results."""
        self.told = call
        return call

    # How it is run.

    @functools.cached_property
    def cases(self) -> list[Case]:
        """All of its cases, in their order."""
        return self.found + [Case(self, name, call, tuple(words)) for make in self.families for name, call, *words in make()]

    def indices(self, cases: list[Case]) -> list[int]:
        """Where these cases stand, for another process."""
        return [self.cases.index(case) for case in cases]

    def sharing(self, options: Options, stack: contextlib.ExitStack) -> typing.Any:
        """What its cases share, until the stack ends."""
        if not self.common:
            return None
        room = stack.enter_context(tempfile.TemporaryDirectory())
        os.chmod(room, 0o755)
        return stack.enter_context(self.common(stack.enter_context(self.trial(options, room, Result(self.name, self.name)))))

    def run(self, cases: list[Case], options: Options, times: int = 1) -> list[Result]:
        """Runs these cases so many times, the quiet ones first, and prints what is wrong and the last line; the results."""
        left_out = [Result(self.name, case.name, left_out=reason) for case in cases if (reason := case.left_out(options.long))]
        if len(left_out) == len(cases) > 1 and len({result.left_out for result in left_out}) == 1:
            print(f"{self.name}: all of it is left out: {left_out[0].left_out}", flush=True)
        else:
            for result in left_out:
                print(f"{self.name}: {result.case} is left out: {result.left_out}", flush=True)
        chosen = sorted([case for case in cases if not case.left_out(options.long)] * times, key=lambda case: not case.quiet)
        results = self.run_once(chosen, options, self.at_once)
        for _ in range(self.again if times == 1 else 0):
            if wrong := [case for case, result in zip(chosen, results) if self.may_try_again(result)]:
                print(f"{self.name}: once more, one at a time: {' '.join(case.name for case in wrong)}", flush=True)
                anew = dict(zip(wrong, self.run_once(wrong, options, 1)))
                results = [anew.get(case, result) for case, result in zip(chosen, results)]
        if self.of_all and cases == self.cases:
            results += self.tell([self.of_all.run(options, results)])
        print(f"{self.name}: {self.told(results)}", flush=True)
        return results + left_out

    def may_try_again(self, result: Result) -> bool:
        return bool(result.wrong) and not any(word in what for what in result.wrong for word in self.never)

    def run_once(self, cases: list[Case], options: Options, at_once: int) -> list[Result]:
        results = []
        if at_once > 1 and len(cases) > 1:
            for _, group in itertools.groupby(cases, lambda case: case.quiet):
                with ProcessPoolExecutor(at_once) as pool:
                    results += self.tell(pool.map(functools.partial(run_in_process, self.name, options), map(self.cases.index, group)))
            return results
        with contextlib.ExitStack() as stack:
            try:
                shared = self.sharing(options, stack)
            except (Fault, OSError) as fault:
                return self.tell(Result(self.name, case.name, [(case.name, f"it cannot begin: {fault}")]) for case in cases)
            return self.tell(case.run(options, shared) for case in cases)

    def tell(self, results: typing.Iterable[Result]) -> list[Result]:
        """Prints what is wrong with each of these results as it comes, and gives them."""
        came = []
        for result in results:
            came.append(result)
            for what in result.wrong[:20]:
                print(f"{self.name}: {what}", flush=True)
        return came


def run_in_process(suite: str, options: Options, number: int) -> Result:
    """Runs a case in a process that was forked from the one that knows all suites."""
    return SUITES[suite].cases[number].run(options)


def wrong_in(results: list[Result]) -> int:
    return sum(len(result.wrong) for result in results)


def seeds(results: list[Result]) -> str:
    """The seeds, for the front of the last line."""
    return "".join(f"seed {result.seed}: " for result in results if result.seed is not None)


def total(results: list[Result], name: str) -> int:
    """The sum of what the cases counted under this name."""
    return sum(result.counts[name] for result in results)


def load(names: typing.Iterable[str] = NAMES) -> list[Suite]:
    """The suites of these names. More cases of one are in files that are named for it and for what they are of."""
    for name in names:
        for path in sorted(glob.glob(in_top(f"tools/suites/{name}.py")) + glob.glob(in_top(f"tools/suites/{name}_of_*.py"))):
            importlib.import_module(f"suites.{os.path.basename(path).removesuffix('.py')}")
    return [SUITES[name] for name in names]


def choose(patterns: list[str], quick: bool = False) -> list[tuple[Suite, list[Case]]]:
    """The suites, each with its cases, that these names choose: `SUITE`, or `SUITE/CASE`, which may have the signs of the shell. Without a
    name these are all, or the quick ones."""
    chosen = []
    for suite in load([name for name in NAMES if not patterns or any(name == pattern.partition("/")[0] for pattern in patterns)]):
        in_suite = [pattern for pattern in patterns if "/" in pattern and pattern.startswith(f"{suite.name}/")]
        if quick and not patterns and not suite.quick:
            continue
        cases = [case for case in suite.cases if case.path in in_suite or any(fnmatch.fnmatchcase(case.path, pattern) for pattern in in_suite)]
        chosen.append((suite, cases if in_suite and suite.name not in patterns else suite.cases))
    return chosen
