"""Consumers of changes: the program of clients/postgres/merge, which merges those of both servers in the order of stamps, and a built-in
subscription."""
import json
import os
import queue
import subprocess
import sys
import threading
import time

from harness import postgres
from harness.databases import FORK, gather
from harness.processes import Fault
from harness.program import in_top, run
from suites.postgres import case, commits, later, move, suite

PYTHON, FOLDER = "/usr/bin/python3", in_top("clients/postgres/merge")


def missing():
    """Why the program cannot be tried here, or nothing."""
    lacking = postgres.missing()
    if not lacking and (not os.path.exists(PYTHON) or run([PYTHON, "-c", "import psycopg2.extras"]).status != 0):
        lacking = "it wants python3-psycopg2"
    return lacking


class Merging:
    """The program over these clusters, and the lines that it writes."""

    def __init__(self, clusters, after=()):
        for cluster in clusters:
            wait_for_slot(cluster)
        infos = [f"host={cluster.sockets} port={postgres.PORT} user=reader dbname={postgres.DATABASE}" for cluster in clusters]
        words = [*(["--after", *map(str, after)] if after else []), "--every", "0.02", "merged", "merged", *infos]
        self.process = subprocess.Popen([PYTHON, os.path.join(FOLDER, "truetime_merge.py"), *words], stdin=subprocess.DEVNULL,
                                        stdout=subprocess.PIPE, stderr=subprocess.PIPE, text=True)
        self.lines, self.errors = queue.Queue(), []
        self.readers = [threading.Thread(target=self.read, daemon=True),
                        threading.Thread(target=lambda: self.errors.extend(self.process.stderr), daemon=True)]
        for reader in self.readers:
            reader.start()

    def read(self):
        for line in self.process.stdout:
            self.lines.put(json.loads(line))

    def take(self, is_enough, seconds=30):
        """The commits until there are enough."""
        found, end = [], time.monotonic() + seconds
        while not is_enough(found):
            try:
                found.append(self.lines.get(timeout=max(0.01, end - time.monotonic())))
            except queue.Empty:
                raise Fault(f"{len(found)} commits came, and more are wanted: {self.errors[-5:]}") from None
        return found

    def close(self):
        """Kills it, and gives what it had written by then."""
        self.process.kill()
        self.process.wait()
        for reader in self.readers:
            reader.join()
        return [self.lines.get() for _ in range(self.lines.qsize())]


def wait_for_slot(cluster):
    """A server may take a moment to see that who read is gone."""
    end = time.monotonic() + 20
    while cluster.run("SELECT active FROM pg_replication_slots WHERE slot_name = 'merged'") != [("f",)]:
        if time.monotonic() > end:
            raise Fault("the slot stays in use")
        time.sleep(0.02)


@case
def merge_alone(trial):
    """The module's own test, which wants no server."""
    ran = run([sys.executable, "-W", "error", "-m", "unittest", "-q"], cwd=FOLDER, env={**os.environ, "PYTHONDONTWRITEBYTECODE": "1"})
    trial.holds(ran.status == 0, ran.said + ran.error)


def write_beside(clusters, mode, seconds):
    """What writers of this mode, and transfers beside those with the wait, did."""
    out, of_movers, stop = FORK.Queue(), FORK.Queue(), FORK.Event()
    movers = [FORK.Process(target=move, args=(clusters, me, stop, of_movers), daemon=True) for me in range(2 if mode == "on" else 0)]
    writers = [FORK.Process(target=commits, args=(clusters, mode, me, seconds, out, "changed"), daemon=True) for me in range(4)]
    later(seconds, stop.set)
    for writer in writers:
        writer.start()
    transfers = [one for given in gather(movers, of_movers) for one in given]
    history = [one for given in (out.get(timeout=60) for _ in writers) for one in given]
    return history, transfers


def rows_of(commit):
    """The rows of the writers that a commit has."""
    rows = [change["row"] for change in commit["changes"] if change["table"] == "public.changed"]
    return [(row["mode"], int(row["who"]), int(row["n"])) for row in rows]


def mark_end(clusters):
    """A last commit of each server."""
    for cluster in clusters:
        cluster.run("SET truetime.stamp = 'all'; INSERT INTO changed VALUES (DEFAULT, 'end', 0, 0)")


def is_ended(found):
    return sum(("end", 0, 0) in rows_of(commit) for commit in found[-50:]) == 2


@suite.case(missing=missing)
def merges(trial):
    """The program gives each commit of both servers once, in the order of stamps, also where it is killed between. With the wait no client
    sees another order, and the parts of a transfer stand together; without it some do: a control."""
    clusters, seconds = trial.shared.clusters, trial.options.seconds or 1
    for cluster in clusters:
        cluster.run("DROP TABLE IF EXISTS account; CREATE TABLE account(delta int); "
                    "CREATE TABLE changed(seq bigserial PRIMARY KEY, mode text, who int, n int); CREATE PUBLICATION merged FOR TABLE changed, account")
        cluster.run("SELECT pg_create_logical_replication_slot('merged', 'pgoutput')")
        cluster.run("CREATE ROLE reader LOGIN REPLICATION; GRANT USAGE ON SCHEMA truetime TO reader; "
                    "GRANT EXECUTE ON FUNCTION truetime.emit_watermark() TO reader")
    confirmed = "SELECT (confirmed_flush_lsn - '0/0')::bigint FROM pg_replication_slots WHERE slot_name = 'merged'"
    begun = [int(cluster.run(confirmed)[0][0]) for cluster in clusters]
    first = trial.keep(Merging(clusters))
    history, transfers = write_beside(clusters, "on", seconds)
    found = first.take(lambda found: len(found) > len(history) // 2)
    found += first.close()
    second = trial.keep(Merging(clusters, (found[-1]["stamp"], found[-1]["server"])))
    without, _ = write_beside(clusters, "off", seconds)
    mark_end(clusters)
    found += second.take(is_ended)
    second.close()
    for cluster, before in zip(clusters, begun):
        trial.check("confirmed", int(cluster.run(confirmed)[0][0]) > before, "the server keeps what was merged")
        wait_for_slot(cluster)
        cluster.run("SELECT pg_drop_replication_slot('merged')")
    look_at_merged(trial, found, history + without)
    look_at_transfers(trial, found, transfers)
    place = {row: number for number, commit in enumerate(found) for row in rows_of(commit)}
    out_of_order = [trial.judge([(began, ended, place.get(row, 0)) for began, ended, _, _, row in of_mode]) for of_mode in (history, without)]
    trial.note(f"{len(found)} commits merged, {len(transfers)} of them transfers; {out_of_order[0]} of {len(history)} out of order by clients; "
               f"without the wait {out_of_order[1]} of {len(without)}")
    trial.equal("with the wait: merged out of order by clients", out_of_order[0], 0)
    trial.check("without the wait", out_of_order[1] > 0, "the judge sees nothing")


def look_at_merged(trial, found, history):
    """Each commit is there once, with the stamp that its client was told, behind all lower ones."""
    places = [(commit["stamp"], commit["server"]) for commit in found]
    trial.equal("behind a higher stamp", sum(one >= other for one, other in zip(places, places[1:])), 0)
    stamps = {}
    for commit in found:
        for row in rows_of(commit):
            stamps.setdefault(row, []).append((commit["stamp"], commit["server"]))
    other = [row for _, _, stamp, server, row in history if stamps.get(row) != [(stamp, server)]]
    trial.equal("lost, or merged with another stamp than the client was told, or twice", other[:5], [])


def look_at_transfers(trial, found, transfers):
    """Whoever applies all of one stamp at once never sees a half of a transfer."""
    sums = {}
    for commit in found:
        for change in commit["changes"]:
            if change["table"] == "public.account":
                sums.setdefault(commit["stamp"], []).append((commit["server"], int(change["row"]["delta"])))
    trial.check("transfers", len(transfers) > 2, f"only {len(transfers)}")
    wrong = [stamp for _, _, stamp in transfers if [server for server, _ in sums.get(stamp, [])] != [0, 1] or sum(delta for _, delta in sums[stamp]) != 0]
    trial.equal("transfers that are not merged whole", wrong[:5], [])


@case
def subscriptions(trial):
    """On a built-in subscriber the rows have the publisher's stamps as commit times, and no stamps of its own."""
    here, there = trial.shared.clusters
    for cluster in (here, there):
        cluster.run("CREATE TABLE subscribed(id int PRIMARY KEY)")
    here.run("CREATE PUBLICATION subscribed FOR TABLE subscribed")
    there.run(f"CREATE SUBSCRIPTION subscribed CONNECTION 'host={here.sockets} port={postgres.PORT} user={postgres.USER} "
              f"dbname={postgres.DATABASE}' PUBLICATION subscribed WITH (copy_data = off)")
    with here.connect() as session, there.connect() as reader:
        session.run("BEGIN; INSERT INTO subscribed VALUES (1); SELECT truetime.request(); COMMIT")
        end = time.monotonic() + 20
        while reader.value("SELECT count(*) FROM subscribed") == "0" and time.monotonic() < end:
            time.sleep(0.01)
        shown = "SELECT pg_xact_commit_timestamp(xmin) = truetime.to_timestamptz({}), truetime.stamp_of(xmin) = {} FROM subscribed"
        stamp = session.last_commit()
        trial.equal("on the publisher", session.run(shown.format(stamp, stamp)), [("t", "t")])
        trial.equal("on the subscriber", reader.run(shown.format(stamp, stamp)), [("t", None)])
    there.run("DROP SUBSCRIPTION subscribed")
