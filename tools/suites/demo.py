"""Runs demo/run for 20 seconds, or as many as --seconds says: a database on two machines, by several kinds of timestamps."""
import importlib.util
import subprocess
import threading

from harness.program import in_top, run
from harness.suite import Suite

suite = Suite(__name__, beside_s=18)


class Passed:
    """A place whose writer still writes, and a session and a stamper by which each moment has passed."""

    def __init__(self):
        self.changing = threading.Lock()

    def after(self, _):
        return True

    def wait_past(self, _):
        pass


@suite.case()
def snapshots(trial):
    """A snapshot is taken once who began a commit before its moment has written it, by sessions and by a stamper."""
    found = importlib.util.spec_from_file_location("client", in_top("demo/client.py"))
    client = importlib.util.module_from_spec(found)
    found.loader.exec_module(client)
    for make_readable in client.make_readable, client.make_readable_by_stamper:
        place = Passed()
        reading = threading.Thread(target=make_readable, args=(place, place, 1), daemon=True)
        with place.changing:
            reading.start()
            reading.join(0.1)
            trial.holds(reading.is_alive(), f"{make_readable.__name__} waits for no writer")
        reading.join(10)
        trial.holds(not reading.is_alive(), f"{make_readable.__name__} does not end")
    trial.result.last = "snapshots wait for writers"


@suite.case()
def rows(trial):
    seconds = trial.options.seconds or 20
    ran = run([in_top("demo/run"), "--seconds", str(seconds), trial.program], seconds=seconds + 120, stderr=subprocess.STDOUT)
    *table, trial.result.last = ran.said.splitlines() or [""]
    print("\n".join(table))
    trial.holds(ran.status == 0, f"status {ran.status}: {trial.result.last}")


@suite.last_line
def last_line(results):
    return "; ".join(result.last.removeprefix("demo: ") for result in results)
