"""Lets one thing go wrong round a machine of the time service at a time, and looks whether the machine goes on.

One that was wrong is tried once more when nothing runs beside it: some are bound to milliseconds, and the host may be busy.
The measure:
whatever happens to at most f sources, to files, pipes, descriptors and clients, a machine publishes each round as long as enough sources
answer, answers its clients, and ends within a second of the end of its input.

- Sources: no route, a firewall, a closed port, a stopped process, junk, floods, forged answers; and `wait` is exact and cheap.
- Standard error is full, closed or broken. FIFOs and symlinks lie where files are written; a path cannot be written, and later can.
- The shared file or its lock is removed, replaced, shortened, held, or was prepared by another user.
- Settings that cannot serve are refused by `--check` and by a start, which takes no epoch then, and deletes no file.
- Clients break off, close one side, wait in turn. `ttd ask` has bad servers. Masters are flooded.

Those that want root, nft or more time are left out without it, with a line each. Networks are namespaces of the scenario's own. A worker that
is stopped within a reading is not tried: nothing outside can choose the moment. The scenarios are in faults_of_sources.py, faults_of_files.py
and faults_of_clients.py.
"""
from harness.suite import Suite
from harness.trial import Trial


class Machines(Trial):
    """The machines of a scenario, which end with their input where that is not yet closed."""

    def finish(self):
        for node in self.nodes:
            running = node.running if "--until-eof" in node.words else None
            if running and running.poll() is None and running.stdin and not running.stdin.closed:
                for what in node.ends():
                    self.wrong(what)


suite = Suite(__name__, Machines, at_once=8, longest_s=30, again=1)


@suite.last_line
def last_line(results):
    return f"{len(results)} scenarios, {sum(bool(result.wrong) for result in results)} wrong"
