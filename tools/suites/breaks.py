"""Breaks an assumption of the time service, one at a time, and looks what clients get, what the log and the status say, and within how many
rounds.

Masters are scripts by this host's clock. The machine sees a clock that tools/spoil_calls.c spoils, and is started again whenever it ends by
a break, as its unit does; a client reads and one commits all the while, over TCP and the Unix socket. Each reading has to hold a time
between two looks at the real-time clock around it, but for those from when an assumption broke until the line of the log that says so;
from then on no session has a reading until the next life, whose first one has to come within 0.3 seconds of the end, or,
on a busy host, within a tenth and four times as long as another machine takes to start then.

- The clock stands still, jumps, or runs fast; the host sleeps; a guest is disrupted.
- More than f sources lie together, by more or by less than the width; all are silent; a whole fleet breaks at once.
- What follows: pauses of the starts, the evidence, `on_break = "warn"`, `max_width`, and time namespaces.

The scenarios are in breaks_of_clocks.py, breaks_of_sources.py and breaks_of_settings.py. One that was wrong is tried once more
when nothing runs beside it.
"""
from harness.suite import Suite, wrong_in
from suites.breaks_world import Breaks

suite = Suite(__name__, Breaks, at_once=6, longest_s=60, again=1)


@suite.last_line
def last_line(results):
    return f"{len(results)} scenarios, {wrong_in(results)} wrong"
