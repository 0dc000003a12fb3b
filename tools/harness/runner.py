"""The command `tools/check`."""
import argparse
import dataclasses
import os
import time
import typing
from concurrent.futures import ProcessPoolExecutor, as_completed
from xml.etree import ElementTree

from harness.program import PROGRAM, STAMPS
from harness.suite import NAMES, SUITES, Case, Suite, choose, wrong_in
from harness.trial import Options, Result


def write_junit(path: str, results: dict[str, list[Result]]) -> None:
    """Writes the results of each suite as a file of JUnit."""
    root = ElementTree.Element("testsuites")
    for name, of_suite in results.items():
        wrong, left_out = sum(bool(result.wrong) for result in of_suite), sum(bool(result.left_out) for result in of_suite)
        suite = ElementTree.SubElement(root, "testsuite", name=name, tests=str(len(of_suite)), failures=str(wrong), skipped=str(left_out),
                                       time=f"{sum(result.seconds for result in of_suite):.3f}")
        for result in of_suite:
            case = ElementTree.SubElement(suite, "testcase", classname=name, name=result.case, time=f"{result.seconds:.3f}")
            if result.left_out:
                ElementTree.SubElement(case, "skipped", message=result.left_out)
            if result.wrong:
                ElementTree.SubElement(case, "failure", message=printable(result.wrong[0])).text = printable("\n".join(result.wrong))
    ElementTree.ElementTree(root).write(path, encoding="utf-8", xml_declaration=True)


def printable(text: str) -> str:
    """A text without the signs that XML has no place for."""
    return "".join(sign if sign.isprintable() or sign == "\n" else repr(sign)[1:-1] for sign in text)


def parser(about: str) -> argparse.ArgumentParser:
    words = argparse.ArgumentParser(prog="tools/check", description=about, formatter_class=argparse.RawDescriptionHelpFormatter)
    words.add_argument("program", nargs="?", metavar="PROGRAM", help="the built ttd")
    words.add_argument("names", nargs="*", metavar="NAME", help="a suite, or SUITE/CASE, with * and ? as in a shell; all suites where none is given")
    words.add_argument("--quick", action="store_true", help="run the suites that do not take long alone, where none is named")
    words.add_argument("--list", action="store_true", help="print the cases in place of running them; PROGRAM may be left out")
    words.add_argument("--junit", metavar="FILE", help="write the results to a file of JUnit, too")
    words.add_argument("--times", type=int, default=1, metavar="N", help="how often each case is run")
    add_options(words.add_argument)
    return words


def add_options(add) -> None:
    """The options of the suites."""
    add("--stamps", metavar="FILE", help="the built tt_stamp_rows, for `clients`; that of this repository where it is left out and there")
    add("--seconds", type=float, metavar="N", help="how long `simulation`, `service`, `clients`, `fuzz`, `demo`, `failover`, `postgres`, `soak`, `fleet` and `masters` go on")
    add("--seed", type=int, metavar="N", help="the seed of `judge`, `sweep`, `simulation`, `epochs`, `fuzz`, `failover`, `postgres`, `soak`, `fleet` and `masters`, which is drawn else")
    add("--number", type=int, metavar="N", help="how many histories `judge` tries, and clients in Python `soak` has")
    add("--proved", type=float, metavar="SECONDS", help="when the `rt ci` began that proved the crates, by `date +%%s`, for `wrong_bodies`")
    add("--long", action="store_true", help="run the cases that take half a minute, too")


def options_of(given: argparse.Namespace) -> Options:
    """The options that were given."""
    stamps = given.stamps or (STAMPS if os.path.isfile(STAMPS) else None)
    return Options(program=os.path.realpath(given.program or PROGRAM), stamps=stamps, seconds=given.seconds, seed=given.seed,
                   number=given.number, long=given.long, proved=given.proved)


def main(about: str) -> int:
    words = parser(about)
    given = words.parse_intermixed_args()
    if given.list and given.program and not os.path.isfile(given.program):
        given.names.insert(0, given.program)
    elif not given.list and not given.program:
        words.error("PROGRAM is missing")
    if unknown := [name for name in given.names if name.partition("/")[0] not in NAMES]:
        words.error(f"there is no suite {' or '.join(unknown)}, only {' '.join(NAMES)}")
    chosen = choose(given.names, given.quick)
    if empty := [suite.name for suite, cases in chosen if not cases]:
        words.error(f"no case of {' and '.join(empty)} has such a name; --list prints them")
    if given.list:
        print("".join(f"{case.path}\n" for _, cases in chosen for case in cases), end="")
        return 0
    results, seconds = {}, {}
    for name, of_suite, took in run_all(chosen, options_of(given), max(1, given.times)):
        results[name], seconds[name] = of_suite, took
    if given.junit:
        write_junit(given.junit, results)
    wrong = [name for name, of_suite in results.items() if wrong_in(of_suite)]
    if len(results) > 1:
        tell_again(results, seconds)
        print(f"check: {len(results)} suites, {len(wrong)} wrong{': ' if wrong else ''}{' '.join(wrong)}")
    return bool(wrong)


def run_all(chosen: list[tuple[Suite, list[Case]]], options: Options, times: int) -> typing.Iterator[tuple[str, list[Result], float]]:
    """Runs these cases, two suites at once of those that wait more than they work; the results of each suite and its seconds, as it ends."""
    asked = [(suite.name, suite.indices(cases), options, times) for suite, cases in chosen]
    beside = [words for words in asked if SUITES[words[0]].beside_s]
    if len(beside) < 2:
        beside = []
    yield from (run_suite(*words) for words in asked if words not in beside)
    with ProcessPoolExecutor(2) as pool:
        longest_first = sorted(beside, key=lambda words: -SUITES[words[0]].beside_s)
        yield from (one.result() for one in as_completed([pool.submit(run_suite, *words) for words in longest_first]))


def run_suite(name: str, numbers: list[int], options: Options, times: int) -> tuple[str, list[Result], float]:
    """Runs these cases of a suite; its name, the results, and how long it took. A case that is named may take long."""
    began, suite = time.monotonic(), SUITES[name]
    cases = [suite.cases[number] for number in numbers]
    results = suite.run(cases, dataclasses.replace(options, long=options.long or cases != suite.cases), times)
    return name, results, time.monotonic() - began


def tell_again(results: dict[str, list[Result]], seconds: dict[str, float]) -> None:
    """Prints at the end how long each suite took, and what stayed wrong, since of a long run often only the last lines are kept."""
    print(f"check: seconds on {os.cpu_count()} processors: {', '.join(f'{name} {took:.0f}' for name, took in seconds.items())}")
    for name, of_suite in results.items():
        for result in of_suite:
            for what in result.wrong[:5]:
                print(f"check: {name}/{result.case}: {what[:300]}")
