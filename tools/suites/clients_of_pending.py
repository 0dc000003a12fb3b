"""Cases of the suite `clients`: the table of pending commits, in each language.

`PROBE pending` reads lines, and answers each:

    open PATH
        makes a table over a stamper with the whole of time, whose floors may be ten seconds ahead, by the file at this path
    begin FLOOR
        `begun STAMP`
    written STAMP, given_up STAMP
        `ended`, or `invalid` where no such commit is pending
    release STAMP MILLISECONDS, readable TIME MILLISECONDS
        `yes` or `no`; `invalid` where the commit is not written
    watermark
        a time, or `none`
    threads THREADS EACH
        so many commits in each of so many threads, beside a reader that takes snapshots at the watermark:
        `N stamps, N different, some snapshots, N torn`

A refusal is `refused NUMBER`.

What is right is what the proved program tt_stamp_rows answers to the same calls (crates/tt_stamp_rows/specs/Table.antt has the rule): it is
given for each call a reading within the time that the call took, by which a right table answers what came.
"""
import os
import random

from harness.program import run
from suites.clients import MAX, SECOND, Reader, suite
from suites.clients_of_stampers import Shared, timed

WIDTH = 1000
SCRIPTS, CALLS = 5, 80


def try_table(said, shared, path):
    """What a table said, and what it has to. The readings are narrow, and stamps are ahead of them by their floors."""
    def begin(floor):
        return int(said(f"begin {floor}").removeprefix("begun "))

    yield "open", said(f"open {path}"), "open"
    yield "a watermark of nothing", said("watermark"), "refused 801"
    yield "a commit of nothing", said("begin 0"), "refused 801"
    shared.publish(early=WIDTH, late=WIDTH)
    before = shared.now()
    mark = int(said("watermark"))
    yield "the watermark of no commits", before - WIDTH - 1 <= mark <= shared.now() - WIDTH - 1, True
    floor = shared.now() + 5 * SECOND
    one, two, three = begin(floor), begin(0), begin(floor + 9)
    yield "stamps", (one, two, three), (floor, floor + 1, floor + 9)
    yield "one that is not there", (said(f"written {floor + 2}"), said(f"given_up {floor + 2}")), ("invalid", "invalid")
    yield "one that is not written", said(f"release {one} 0"), "invalid"
    # The time goes on to where all three have passed.
    shared.publish(early=WIDTH, late=WIDTH, ahead=6 * SECOND)
    yield "the watermark of three", said("watermark"), str(one - 1)
    yield "what is below all", said(f"readable {one - 1} 0"), "yes"
    yield "what one of them is at", said(f"readable {one} 20"), "no"
    yield "the second is written", said(f"written {two}"), "ended"
    yield "it is released, though the first is not written", said(f"release {two} 0"), "yes"
    yield "the watermark, as before", said("watermark"), str(one - 1)
    yield "the first is given up", said(f"given_up {one}"), "ended"
    yield "twice", said(f"given_up {one}"), "invalid"
    yield "the watermark of the third", said("watermark"), str(three - 1)
    yield "what is below the third", (said(f"readable {two} 0"), said(f"readable {three - 1} 0"), said(f"readable {three} 20")), ("yes", "yes", "no")
    yield "the third is written", said(f"written {three}"), "ended"
    before = shared.now() + 6 * SECOND
    mark = int(said("watermark"))
    yield "the watermark of none", before - WIDTH - 1 <= mark <= shared.now() + 6 * SECOND - WIDTH - 1, True
    yield "what has not passed", said(f"readable {before + 60 * SECOND} 20"), "no"
    stamp = begin(0)
    yield "a stamp behind a watermark", stamp > mark, True
    yield "it is written", said(f"written {stamp}"), "ended"
    yield "what will have passed", timed(said, f"readable {shared.now() + 6 * SECOND + SECOND // 20} 20000", 49, 50, 2000), "yes in time"
    yield "what no commit ever reaches", said(f"readable {MAX} 10"), "no"
    shared.publish(usable=0)
    for line in "watermark", "readable 5 10", "begin 0", f"release {stamp} 10":
        yield f"nothing any more: {line}", said(line), "refused 801"
    # The end of time.
    shared.publish(clock=(clock := shared.clock()), ahead=MAX - shared.offset - clock)
    yield "the watermark at the end of time", said("watermark"), str(MAX - 1)


def within(number, bounds):
    """The number in these bounds that is nearest."""
    return min(max(number, bounds[0]), bounds[1])


def a_call(chance, begun, base):
    """A call: its name, and its numbers but those of its reading. `begun` are the stamps so far, `base` is about the time."""
    stamps = begun or [base]
    a_stamp = chance.choice(stamps) + chance.choice([0, 0, 0, 0, -1, 1])
    floor = chance.choice([0, 0, max(stamps) + chance.randrange(1, 9), base + chance.randrange(6 * SECOND), base + 60 * SECOND])
    name = chance.choice(["begin", "begin", "begin", "written", "written", "given_up", "watermark", "watermark", "readable", "readable", "release"])
    numbers = {"begin": [floor], "watermark": [], "readable": [chance.choice([a_stamp, a_stamp, base - chance.randrange(SECOND)])]}
    return name, numbers.get(name, [a_stamp])


def asked_again(name, numbers, came, bounds):
    """The line for the program that asks the same, by the reading in these bounds by which what came is right, if one is. The bounds are those of
    the middle of the reading."""
    earliest, latest = [at - WIDTH for at in bounds], [at + WIDTH for at in bounds]
    if name == "begin":
        stamp = int(came.removeprefix("begun ")) if came.startswith("begun ") else 0
        return f"begin 0 {within(stamp, latest)} {numbers[0]}"
    if name == "watermark":
        return f"watermark {within(int(came) + 1 if came.isdigit() else 0, earliest)}"
    if name in ("readable", "release"):
        return f"{name} {numbers[0]} {earliest[came == 'yes']}"
    return f"{name} {numbers[0]}"


def a_script(said, shared, chance):
    """Calls of a table whose time goes on by leaps; each line for the program, and what came."""
    ahead, begun = 0, []
    for _ in range(CALLS):
        if chance.random() < 0.2:
            ahead += chance.randrange(2 * SECOND)
            shared.publish(early=WIDTH, late=WIDTH, ahead=ahead)
        name, numbers = a_call(chance, begun, shared.now() + ahead)
        before = shared.now() + ahead
        came = said(" ".join(map(str, [name, *numbers, *([0] if name in ("readable", "release") else [])])))
        yield asked_again(name, numbers, came, (before, shared.now() + ahead)), came
        if came.startswith("begun "):
            begun.append(int(came.removeprefix("begun ")))


def try_scripts(trial, name, words, path):
    """Random calls beside the program; their number."""
    if not trial.options.stamps:
        trial.note("no random calls are tried: --stamps names no program, and tt_stamp_rows is not built here")
        return 0
    calls = []
    for number in range(SCRIPTS):
        with Shared(path, name) as shared, Reader(words, "pending") as probe:
            shared.publish(early=WIDTH, late=WIDTH)
            calls += [("table", probe.say(f"open {path}")), *a_script(probe.say, shared, random.Random(number))]
    ran = run([trial.options.stamps], "".join(f"{line}\n" for line, _ in calls).encode(), 60)
    answers = ran.said.splitlines()
    trial.check(name, len(answers) == len(calls), f"{len(answers)} answers to {len(calls)} calls: {ran.error}")
    for (line, came), answer in zip(calls, answers):
        trial.check(name, came == answer, f"{line}: {came} in place of {answer}")
    for some in "begun ", "ended", "invalid", "yes", "no", "refused 902":
        trial.check(name, any(came.startswith(some) for _, came in calls), f"no call is answered {some}")
    return len(calls)


@suite.case()
def pending_tables(trial):
    """A table of pending commits, call by call, and beside a reader of snapshots."""
    for name, words in trial.shared:
        before, checks, path = len(trial.result.wrong), 0, os.path.join(trial.room, "pending")
        with Shared(path, name) as shared, Reader(words, "pending") as probe:
            for what, came, answer in try_table(probe.say, shared, path):
                checks += 1
                trial.check(name, came == answer, f"{what}: {came} in place of {answer}")
        checks += try_scripts(trial, name, words, path)
        with Shared(path, name) as shared, Reader(words, "pending") as probe:
            shared.publish(early=WIDTH, late=WIDTH)
            trial.equal(name, probe.say(f"open {path}"), "open")
            said = probe.say("threads 4 500")
            if "no snapshots" in said:  # on a busy host the reader may have had no processor meanwhile
                said = probe.say("threads 4 500")
            trial.equal(name, said, "2000 stamps, 2000 different, some snapshots, 0 torn")
        trial.note(f"{name}: {checks} answers, {len(trial.result.wrong) - before} wrong")
