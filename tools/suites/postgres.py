"""Builds the extension of clients/postgres without a warning, and tries it on two clusters of PostgreSQL over two machines, whose masters
are off by 2.7 ms in opposite directions, within their uncertainty of 3 ms.

- Its own tests, by pg_regress.
- Writers commit on both servers. What each client, a reader and a decoder of each server knew is judged: with the wait nothing is out of
  order. By two controls the judge is seen to see: without the wait clients see commits out of order, and with a wait behind the commit
  readers and decoders do, and clients do not.
- Backends, servers and machines are killed by signal 9 under load. Nothing that was acknowledged is lost, each row has the stamp that its
  client was told, and no stamp is given twice.
- Transfers between the servers in two phases under one stamp: no snapshot at a time, of both, has half of one. Without make_readable some have.
- What ends a wait, idle and prepared transactions, a machine without readings, a lease that is used up, too few origins, postgres_fdw.
- Restarts, a bound that is lost, copies, a standby that serves snapshots and is promoted; recovery to a point in time, pg_upgrade, and a
  pooler (postgres_of_recoveries.py).
- Consumers: the changes of both servers merged in the order of stamps, and a subscription (postgres_of_merges.py).

All is copied, built and started in a temporary folder. fsync is off: no power failure is tried, but what is synced is looked at. Where PostgreSQL 15 or its headers are
missing it is left out, with a line.
"""
import contextlib
import itertools
import os
import random
import re
import shutil
import struct
import subprocess
import threading
import time
import types

from harness import postgres
from harness.databases import FORK, gather, judge_order, machines_apart
from harness.postgres import Cluster, Failed
from harness.processes import SECOND, Fault
from harness.program import read_text, run
from harness.suite import Suite, total, wrong_in

# What no busy host does: then a case is not tried again.
NEVER = ("with the wait:", "lost", "given twice", "another stamp", "without a stamp", "torn snapshots:", "behind a watermark", "panicked",
         "is not above")
suite = Suite(__name__, longest_s=600, again=1, never=NEVER, quick=False, beside_s=51)
WRITERS = 8
# PostgreSQL counts microseconds since 2000.
EPOCH_US = 946_684_800_000_000
ORIGINS = "SELECT max((remote_lsn - '0/0')::bigint) FROM pg_replication_origin_status WHERE external_id LIKE 'truetime/%'"


@suite.shares
def rig(trial):
    """Two machines, and a cluster beside each."""
    if postgres.missing():
        yield None
        return
    machines = machines_apart(trial)
    with contextlib.ExitStack() as stack:
        room = stack.enter_context(postgres.fast_room(trial.room))
        installed = postgres.install(room)
        clusters = [stack.enter_context(contextlib.closing(Cluster(installed, room, name.lower(), machine.path("shared"), fsync="off")))
                    for name, machine in machines.items()]
        for cluster in clusters:
            cluster.run("CREATE EXTENSION truetime; CREATE EXTENSION postgres_fdw")
        yield types.SimpleNamespace(installed=installed, machines=list(machines.values()), clusters=clusters, room=room)


def case(call):
    return suite.case(missing=postgres.missing)(call)


def later(seconds, call, *words):
    timer = threading.Timer(seconds, call, words)
    timer.daemon = True
    timer.start()
    return timer


@case
def regress(trial):
    """make installcheck."""
    cluster = trial.shared.clusters[0]
    ran = run(["make", f"PG_CONFIG={postgres.CONFIG}", "installcheck"], seconds=100, cwd=trial.shared.installed.source,
              env={**os.environ, "PGHOST": cluster.sockets, "PGPORT": str(postgres.PORT), "PGUSER": postgres.USER}, stderr=subprocess.STDOUT)
    diffs = os.path.join(trial.shared.installed.source, "regression.diffs")
    trial.holds(ran.status == 0, f"status {ran.status}\n{ran.said[-1500:]}\n{read_text(diffs)[:3000] if os.path.exists(diffs) else ''}")


# What whoever knows of a commit knows.

def commits(clusters, mode, me, seconds, out, table="seen"):
    """A writer's commits, on the one server or the other: when each began and ended, its stamp, its server and its row."""
    chance, history, sessions = random.Random(me), [], [cluster.connect() for cluster in clusters]
    for session in sessions:
        session.run(f"SET truetime.stamp = 'all'; SET truetime.commit_wait = {'on' if mode == 'on' else 'off'}")
    end = time.monotonic() + seconds
    for number in itertools.count():
        if time.monotonic() > end:
            break
        server = chance.randrange(2)
        session, began = sessions[server], time.monotonic_ns()
        session.run(f"INSERT INTO {table} VALUES (DEFAULT, '{mode}', {me}, {number})")
        stamp = session.last_commit()
        if mode == "behind":
            session.run(f"SELECT truetime.wait_past({stamp})")
        history.append((began, time.monotonic_ns(), stamp, server, (mode, me, number)))
    out.put(history)


def look(cluster, stop, out):
    """A reader: when it first saw each row. From time to time it writes a watermark."""
    first, top = {}, 0
    with cluster.connect() as session:
        for turn in itertools.count():
            is_last = stop.is_set()
            if turn % 20 == 0:
                session.run("SELECT truetime.emit_watermark()")
            rows = session.run(f"SELECT seq, mode, who, n FROM seen WHERE seq > {top - 200}")
            now = time.monotonic_ns()
            for seq, mode, who, number in rows:
                first.setdefault((mode, int(who), int(number)), now)
                top = max(top, int(seq))
            if is_last:
                break
            time.sleep(0.0003)
    out.put(("reader", "ab".index(cluster.name), first, {}, 0, 0))


def decode(cluster, stop, out):
    """A consumer of changes, by pgoutput: when each row came, the commit time that its transaction has, how many watermarks came, and how
    many transactions behind one that is not below their stamp."""
    first, stamps, stamp, mark, marks, late = {}, {}, 0, 0, 0, 0
    with cluster.connect(replication=True) as session:
        session.stream("changes", "p")
        while True:
            message = session.streamed(0.3)
            if message is None:
                if stop.is_set():
                    break
            elif message[:1] == b"B":
                stamp = (struct.unpack(">q", message[9:17])[0] + EPOCH_US) * 1000
                late += stamp <= mark
            elif message[:1] == b"M" and message[10:].startswith(b"truetime.watermark\0"):
                mark, marks = int(message[10 + 19 + 4:]), marks + 1
            elif message[:1] == b"I":
                _, mode, who, number = texts_in(message[6:])
                first[mode, int(who), int(number)] = time.monotonic_ns()
                stamps[mode, int(who), int(number)] = stamp
    out.put(("decoder", "ab".index(cluster.name), first, stamps, marks, late))


def texts_in(tuple_data):
    """The columns of a row of pgoutput, all of which are texts."""
    at = 2
    for _ in range(struct.unpack(">H", tuple_data[:2])[0]):
        length = struct.unpack(">I", tuple_data[at + 1:at + 5])[0]
        yield tuple_data[at + 5:at + 5 + length].decode()
        at += 5 + length


@case
def order(trial):
    """Commits of two servers are judged by clients, readers and decoders, with the wait and by both controls."""
    clusters, out, stop = trial.shared.clusters, FORK.Queue(), FORK.Event()
    for cluster in clusters:
        cluster.run("CREATE TABLE seen(seq bigserial PRIMARY KEY, mode text, who int, n int); CREATE PUBLICATION p FOR TABLE seen")
        cluster.run("SELECT pg_create_logical_replication_slot('changes', 'pgoutput')")
    watchers = [FORK.Process(target=call, args=(cluster, stop, out), daemon=True) for cluster in clusters for call in (look, decode)]
    for watcher in watchers:
        watcher.start()
    time.sleep(0.3)
    history, of_writers, seconds = {}, FORK.Queue(), trial.options.seconds or 2
    for mode, lasts in ("on", seconds), ("off", min(seconds, 4)), ("behind", min(seconds, 4)):
        writers = [FORK.Process(target=commits, args=(clusters, mode, me, lasts, of_writers), daemon=True) for me in range(WRITERS)]
        history[mode] = [commit for given in gather(writers, of_writers, lasts) for commit in given]
    stop.set()
    seen = [out.get(timeout=60 + 2 * seconds) for _ in watchers]
    for cluster in clusters:
        cluster.run("SELECT pg_drop_replication_slot('changes')")
    judge_all(trial, history, seen)


def judge_all(trial, history, seen):
    stamps = {row: stamp for _, _, _, times, *_ in seen for row, stamp in times.items()}
    trial.equal("transactions behind a watermark above their stamps", sum(given[5] for given in seen), 0)
    trial.check("watermarks", all(given[4] > 5 for given in seen if given[0] == "decoder"), "few came")

    for mode, of_mode in history.items():
        for server in 0, 1:
            given = [commit[2] for commit in of_mode if commit[3] == server]
            trial.equal(f"{mode}: equal stamps on server {server}", len(given) - len(set(given)), 0)
        trial.equal(f"{mode}: stamps in the stream", sum(stamps.get(commit[4]) == commit[2] for commit in of_mode), len(of_mode))
    judge_order(trial, history, seen, ("reader", "decoder"), "commit")


# Kills.

def connected(cluster):
    session = cluster.connect(seconds=20)
    session.run("SET truetime.patience = '5s'")
    return session


def commit_under_kills(clusters, me, stop, out):
    """A writer that connects anew. What was acknowledged, what was told before its commit, and when each row was begun."""
    chance, sessions = random.Random(me), [None, None]
    acknowledged, told, began, refused = {}, {}, {}, set()
    for number in itertools.count():
        if stop.is_set():
            break
        server, row = chance.randrange(2), (me, number)
        try:
            if sessions[server] is None:
                sessions[server] = connected(clusters[server])
            session, began[row] = sessions[server], time.monotonic_ns()
            session.run(f"BEGIN; INSERT INTO killed VALUES ({me}, {number})")
            if number % 5 == 0:
                told[row] = server, session.number("SELECT truetime.commit_timestamp()")
            session.run("COMMIT" if number % 5 == 0 else "SELECT truetime.request(); COMMIT")
            acknowledged[row] = time.monotonic_ns(), server, session.last_commit()
        except (Failed, OSError) as fault:
            if isinstance(fault, Failed) and fault.state[:2] not in ("57", "08", "25", "53"):
                refused.add(str(fault))
            if sessions[server] is not None:
                sessions[server].close()
            sessions[server] = None
            time.sleep(0.02)
    out.put((acknowledged, told, began, refused))


def kill_one(chance, shared, kills):
    kind, place = chance.choice(("backend", "server", "machine")), chance.randrange(2)
    kills[kind] = kills.get(kind, 0) + 1
    cluster, machine = shared.clusters[place], shared.machines[place]
    if kind == "backend":
        cluster.kill_backend(chance.choice)
    elif kind == "server":
        cluster.kill()
        cluster.start()
    else:
        machine.kill()
        time.sleep(chance.random() / 5)
        machine.start()


@case
def kills(trial):
    """What is killed at any moment loses nothing and gives no stamp twice."""
    shared, chance, out, stop, kinds = trial.shared, random.Random(trial.seed()), FORK.Queue(), FORK.Event(), {}
    for cluster in shared.clusters:
        cluster.run("CREATE TABLE killed(who int, n int, PRIMARY KEY (who, n))")
    writers = [FORK.Process(target=commit_under_kills, args=(shared.clusters, me, stop, out), daemon=True) for me in range(WRITERS)]
    for writer in writers:
        writer.start()
    end = time.monotonic() + (trial.options.seconds or 6)
    while time.monotonic() < end:
        time.sleep(chance.uniform(0.2, 0.6))
        kill_one(chance, shared, kinds)
    time.sleep(1)
    stop.set()
    given = [out.get(timeout=60) for _ in writers]
    ended, rows = time.monotonic_ns(), []
    for cluster in shared.clusters:
        cluster.wait_until_up()
        found = cluster.run("SELECT who, n, truetime.stamp_of(xmin) FROM killed")
        rows.append({(int(who), int(number)): stamp and int(stamp) for who, number, stamp in found})
    look_at_kills(trial, given, rows, ended)
    trial.count(kills=sum(kinds.values()))
    for cluster in shared.clusters:
        trial.check("the log", not re.search("PANIC|signal 11|signal 6", read_text(cluster.log)), "a server panicked or crashed by itself")


def look_at_kills(trial, given, rows, ended):
    acknowledged, told, began, refused = ({}, {}, {}, set())
    for of_writer in given:
        for whole, part in zip((acknowledged, told, began, refused), of_writer):
            whole.update(part)
    trial.equal("refused", refused, set())
    lost = [row for row, (_, server, _) in acknowledged.items() if row not in rows[server]]
    trial.equal("acknowledged and lost", lost[:5], [])
    other = [row for row, (_, server, stamp) in acknowledged.items() if rows[server].get(row, stamp) != stamp]
    other += [row for row, (server, stamp) in told.items() if rows[server].get(row, stamp) != stamp]
    trial.equal("rows with another stamp than their client was told", other[:5], [])
    for server in 0, 1:
        trial.equal("rows without a stamp", sum(stamp is None for stamp in rows[server].values()), 0)
        stamps = list(rows[server].values()) + [stamp for row, (where, stamp) in told.items() if where == server and row not in rows[server]]
        trial.equal("stamps given twice", len(stamps) - len(set(stamps)), 0)
    history = [(began[row], acknowledged.get(row, (ended,))[0], stamp) for of_server in rows for row, stamp in of_server.items() if stamp]
    trial.equal("out of order", trial.judge(history), 0)
    trial.check("commits", len(acknowledged) > 50, f"only {len(acknowledged)} were acknowledged")
    trial.count(killed_commits=len(acknowledged))


# Two phases.

def move(clusters, me, stop, out):
    """Transfers from one server to the other in two phases under one stamp."""
    chance, history = random.Random(me), []
    sessions = [cluster.connect() for cluster in clusters]
    for number in itertools.count():
        if stop.is_set():
            break
        first, amount, gid, prepared = chance.randrange(2), chance.randrange(1, 100), f"move-{me}-{number}", set()
        began = time.monotonic_ns()
        try:
            for place, session in enumerate(sessions):
                session.run(f"BEGIN; INSERT INTO account VALUES ({-amount if place else amount})")
            floor = max(session.number("SELECT latest FROM truetime.now()") for session in sessions)
            stamp = sessions[first].number(f"SELECT truetime.commit_timestamp({floor})")
            sessions[1 - first].run(f"SELECT truetime.adopt({stamp})")
            for place, session in enumerate(sessions):
                session.run(f"PREPARE TRANSACTION '{gid}'")
                prepared.add(place)
            for session in sessions:
                session.run(f"COMMIT PREPARED '{gid}'")
            history.append((began, time.monotonic_ns(), stamp))
        except Failed:
            for place, session in enumerate(sessions):
                session.run(f"ROLLBACK PREPARED '{gid}'" if place in prepared else "ROLLBACK")
    out.put(history)


def sum_up(clusters, call, stop, out):
    """Snapshots of both servers at one time: how many, and how many had a part of a transfer."""
    sessions, number, torn = [cluster.connect() for cluster in clusters], 0, 0
    while not stop.is_set():
        t = sessions[number % 2].number("SELECT latest FROM truetime.now()")
        for session in sessions:
            session.run(f"SELECT truetime.{call}({t})")
        whole = f"SELECT coalesce(sum(delta), 0) FROM account WHERE truetime.stamp_of(xmin) <= {t}"
        torn += sum(session.number(whole) for session in sessions) != 0
        number += 1
    out.put((number, torn))


@case
def phases(trial):
    """Transfers, and snapshots of both servers."""
    clusters, seen = trial.shared.clusters, {}
    for call in "make_readable", "wait_past":
        for cluster in clusters:
            cluster.run("DROP TABLE IF EXISTS account; CREATE TABLE account(delta int)")
        stop, of_movers, of_readers = FORK.Event(), FORK.Queue(), FORK.Queue()
        movers = [FORK.Process(target=move, args=(clusters, me, stop, of_movers), daemon=True) for me in range(4)]
        readers = [FORK.Process(target=sum_up, args=(clusters, call, stop, of_readers), daemon=True) for _ in range(2)]
        later(trial.options.seconds or 2, stop.set)
        for process in readers:
            process.start()
        history = [transfer for given in gather(movers, of_movers) for transfer in given]
        seen[call] = [sum(parts) for parts in zip(*(of_readers.get(timeout=60) for _ in readers))]
        trial.note(f"{call}: {len(history)} transfers, {seen[call][0]} snapshots, {seen[call][1]} torn")
        trial.check("transfers", len(history) > 10, f"only {len(history)} transfers")
        trial.equal("transfers out of order", trial.judge(history), 0)
        for cluster in clusters:
            trial.equal("rows without a stamp", cluster.run("SELECT count(*) FROM account WHERE truetime.stamp_of(xmin) IS NULL"), [("0",)])
    trial.equal("torn snapshots", seen["make_readable"][1], 0)
    trial.check("torn snapshots without make_readable", seen["wait_past"][1] > 0, f"none of {seen['wait_past'][0]}")
    trial.count(snapshots=seen["make_readable"][0])


# Edges.

def far(ns):
    return f"SELECT truetime.request(latest + {ns}) FROM truetime.now()"


def state_of(call, *words):
    """The SQLSTATE with which a call fails, or nothing."""
    try:
        call(*words)
    except Failed as failed:
        return failed.state
    return ""


@case
def waits(trial):
    """What ends a wait, and whom it holds up."""
    cluster = trial.shared.clusters[0]
    cluster.run("CREATE TABLE waited(id int PRIMARY KEY)")

    def rows():
        return [int(row[0]) for row in cluster.run("SELECT id FROM waited ORDER BY id")]

    with cluster.connect() as session, cluster.connect() as other:
        def long(number, ns=800_000_000):
            return session.fails(f"BEGIN; INSERT INTO waited VALUES ({number}); {far(ns)}; COMMIT")

        later(0.2, cluster.run, f"SELECT pg_cancel_backend({session.pid})")
        trial.equal("a cancel in the wait", (long(1), rows(), other.run("TABLE truetime.pending")), ("57014", [], []))
        session.run("SET truetime.max_wait = '100ms'")
        trial.equal("max_wait", (long(2), rows()), ("TW001", []))
        session.run("RESET truetime.max_wait; SET statement_timeout = '50ms'")
        trial.equal("statement_timeout ends no wait", (long(3, 200_000_000), rows()), ("", [3]))
        session.run("RESET statement_timeout; BEGIN; INSERT INTO waited VALUES (4)")
        told = session.number("SELECT truetime.commit_timestamp()")
        other.run("SET truetime.max_wait = '100ms'")
        trial.equal("a snapshot that a told transaction holds up", other.fails(f"SELECT truetime.make_readable({told})"), "TW002")
        trial.equal("one that it does not", other.fails(f"SELECT truetime.make_readable({told - 1})"), "")
        trial.check("a watermark", other.number("SELECT truetime.emit_watermark()") < told, "it is above a pending stamp")
        session.run("COMMIT")
        session.run("SET truetime.max_wait = '200ms'; BEGIN; INSERT INTO waited VALUES (5); SELECT truetime.commit_timestamp()")
        time.sleep(0.6)
        trial.equal("a told transaction that is idle", (state_of(session.finish), rows()), ("25P03", [3, 4]))
        trial.equal("what it held up", other.run("TABLE truetime.pending"), [])
    with cluster.connect() as session:
        later(0.2, cluster.run, f"SELECT pg_terminate_backend({session.pid})")
        trial.equal("a session that is ended in the wait",
                    (state_of(session.run, f"BEGIN; INSERT INTO waited VALUES (6); {far(900_000_000)}; COMMIT"), rows()), ("57P01", [3, 4]))


@case
def machines(trial):
    """A machine that is killed, ends, and comes again."""
    cluster, machine = trial.shared.clusters[0], trial.shared.machines[0]
    write = "BEGIN; INSERT INTO late VALUES (1); SELECT truetime.request(); COMMIT"
    with cluster.connect() as session:
        session.run("CREATE TABLE late(id int); SET truetime.patience = '100ms'")
        machine.kill()
        trial.equal("a machine that is killed: readings widen", session.fails(write), "")
        machine.start()
        machine.wait_until_ready()
        machine.kill()
        os.truncate(machine.shared, 0)
        trial.equal("a file that is truncated", (session.fails(write), session.value("SELECT count(*) FROM late")), ("T1701", "1"))
        session.run("SET truetime.patience = '20s'")
        begun = later(0.3, machine.start)
        trial.equal("a patient commit", (session.fails(write), session.value("SELECT count(*) FROM late")), ("", "2"))
        begun.join()
        machine.wait_until_ready()
        trial.equal("a session that is new", state_of(cluster.run, write), "")


@case
def elsewhere(trial):
    """postgres_fdw commits on the other server behind the wait, also where it connects first in the transaction."""
    here, there = trial.shared.clusters
    there.run("CREATE TABLE moved(id int)")
    here.run("CREATE SERVER b FOREIGN DATA WRAPPER postgres_fdw "
             f"OPTIONS (host '{there.sockets}', port '{postgres.PORT}', dbname '{postgres.DATABASE}');"
             f"CREATE USER MAPPING FOR {postgres.USER} SERVER b OPTIONS (user '{postgres.USER}'); "
             "CREATE FOREIGN TABLE moved(id int) SERVER b; CREATE TABLE raised(stamp bigint)")
    # The floor of the transaction before lifts the stamp of the next one, which has no call that could put us first.
    lift = f"SET truetime.stamp = 'all'; SET truetime.commit_wait = off; BEGIN; {far(800_000_000)}; COMMIT; SET truetime.commit_wait = on"
    for number, write in enumerate(("WITH local AS (INSERT INTO raised VALUES (0) RETURNING stamp) INSERT INTO moved SELECT stamp FROM local",
                                    "BEGIN; INSERT INTO raised VALUES (1); INSERT INTO moved VALUES (1); COMMIT",
                                    "BEGIN; INSERT INTO moved VALUES (2); SELECT truetime.commit_timestamp(); COMMIT")):
        with here.connect(seconds=20) as session:
            session.run(lift)
            session.send(write)
            time.sleep(0.3)
            early = there.run("SELECT id FROM moved")
            session.finish()
            late = there.run("SELECT id FROM moved")
            trial.equal(f"{write}: seen in the wait, and afterwards", (len(early), len(late)), (number, number + 1))


# Leases, restarts and copies.

def stamp_in(session):
    """A stamp that is not waited for, so that the end of a server may come before its time."""
    session.run("SET truetime.commit_wait = off; BEGIN; INSERT INTO kept VALUES (1); SELECT truetime.request(); COMMIT")
    return session.last_commit()


def stamp_of_new_session(cluster):
    with cluster.connect() as session:
        return stamp_in(session)


def adopt_above_now(cluster):
    """Commits under a stamp above the latest of the server, as another server would give it."""
    with cluster.connect() as session:
        session.run("BEGIN; INSERT INTO kept VALUES (0)")
        stamp = session.number("SELECT latest FROM truetime.now()") // 1000 * 1000 + 1000
        session.run(f"SELECT truetime.adopt({stamp}); COMMIT")


@case
def restarts(trial):
    """Restarts, a bound that is lost or damaged, a copy, a lease that is used up, and too few origins."""
    shared = trial.shared
    few = {"fsync": "off", "max_replication_slots": 2}
    cluster = trial.keep(Cluster(shared.installed, shared.room, "r", shared.machines[1].path("shared"), **few))
    cluster.run("CREATE EXTENSION truetime; CREATE TABLE kept(id int)")
    bound = os.path.join(cluster.data, "truetime.bound")
    with contextlib.ExitStack() as stack:
        sessions = [stack.enter_context(cluster.connect()) for _ in range(3)]
        trial.equal("more sessions than origins", [state_of(stamp_in, session) for session in sessions], ["", "", "53400"])
    last = stamp_of_new_session(cluster)
    cluster.stop()
    copy = shutil.copytree(cluster.data, os.path.join(shared.room, "copied"), copy_function=shutil.copy2)
    run(["chown", "-R", str(cluster.uid), copy])
    cluster.start()
    trial.equal("a restart in order goes on", cluster.run("SELECT next_least FROM truetime.status()"), [(str(last + 1),)])
    trial.equal("the first stamp behind a restart is adopted", state_of(adopt_above_now, cluster), "")
    last = stamp_of_new_session(cluster)
    cluster.kill()
    cluster.start()
    trial.equal("a restart behind kill -9 goes on above the bound",
                cluster.run(f"SELECT next_least = bound + 1, bound >= {last} FROM truetime.status()"), [("t", "t")])
    trial.check("its stamps", stamp_of_new_session(cluster) > last, "a stamp is not above the last")
    other = trial.keep(Cluster(shared.installed, shared.room, "c", shared.machines[0].path("shared"), source=copy, **few))
    trial.equal("a copy gives no stamps", (state_of(stamp_of_new_session, other), other.run("SELECT bound_state FROM truetime.status()")),
                ("TB001", [("copied",)]))
    other.run("SELECT truetime.claim_lease()")
    trial.check("a copy whose lease was claimed", stamp_of_new_session(other) > last, "a stamp is not above the last of the other")
    last = stamp_of_new_session(cluster)
    cluster.stop()
    os.unlink(bound)
    cluster.start()
    trial.equal("a bound that is lost", state_of(stamp_of_new_session, cluster), "TB001")
    cluster.run("SELECT truetime.claim_lease()")
    trial.check("stamps behind claim_lease", stamp_of_new_session(cluster) > last, "a stamp is not above the last")
    cluster.stop()
    os.truncate(bound, 0)
    trial.check("a bound that is damaged", "holds no bound" in fault_of(cluster.start), "the server starts")
    os.unlink(bound)
    cluster.settings["truetime.lease"] = f"0 {time.time_ns() + 3 * SECOND}"
    cluster.start()
    cluster.run("SELECT truetime.claim_lease()")
    used = [state_of(stamp_of_new_session, cluster)]
    while not used[-1] and len(used) < 200:
        time.sleep(0.1)
        used.append(state_of(stamp_of_new_session, cluster))
    trial.equal("a lease that is used up", (used[0], used[-1]), ("", "T0903"))


def fault_of(call):
    try:
        call(10)
    except Fault as fault:
        return str(fault)
    return ""


@case
def standbys(trial):
    """A standby serves snapshots up to the watermark, and is promoted: its stamps are above those of the primary."""
    shared = trial.shared
    settings = {"fsync": "off", "truetime.log_bound": "on"}
    primary = trial.keep(Cluster(shared.installed, shared.room, "p", shared.machines[0].path("shared"), **settings))
    primary.run("CREATE EXTENSION truetime; CREATE TABLE kept(id int)")
    copy = os.path.join(shared.room, "based")
    os.mkdir(copy, 0o700)
    os.chown(copy, primary.uid, -1)
    made = primary.command("pg_basebackup", "-D", copy, "-h", primary.sockets, "-p", str(postgres.PORT), "-U", postgres.USER, "-R",
                           "-c", "fast", "-X", "stream", "--no-slot", "--no-sync")
    trial.equal("pg_basebackup", (made.status, made.error), (0, ""))
    standby = trial.keep(Cluster(shared.installed, shared.room, "s", shared.machines[1].path("shared"), source=copy, **settings,
                                 primary_conninfo=f"host={primary.sockets} port={postgres.PORT} user={postgres.USER}"))
    with primary.connect() as session, standby.connect() as reader:
        stamp = stamp_in(session)
        reader.run("SET truetime.max_wait = '300ms'")
        trial.equal("a snapshot without a watermark", reader.fails(f"SELECT truetime.make_readable({stamp})"), "TW002")
        reader.run("SET truetime.max_wait = '10s'")
        session.run(f"SELECT truetime.wait_past({stamp})")  # of a new server it may be a second ahead
        session.run("SELECT truetime.emit_watermark()")
        reader.run(f"SELECT truetime.make_readable({stamp})")
        trial.equal("a snapshot behind it", reader.run("SELECT truetime.stamp_of(xmin) FROM kept"), [(str(stamp),)])
        trial.equal("a stamp of a standby", reader.fails("SELECT truetime.commit_timestamp()"), "25006")
        session.run("BEGIN; INSERT INTO kept VALUES (2); SELECT truetime.request(); PREPARE TRANSACTION 'over'")
        prepared = session.last_commit()
        session.run(f"BEGIN; {far(900_000_000)}; COMMIT")
        for _ in range(20):
            last = stamp_in(session)
        while reader.number("SELECT count(*) FROM kept") < 21:
            time.sleep(0.01)
    trial.equal("the greatest stamp in the origins of the standby", standby.run(ORIGINS), [(str(last),)])
    primary.kill()
    standby.run("SELECT pg_promote()")
    trial.check("a promoted standby", (first := stamp_of_new_session(standby)) > last, f"its stamp {first} is not above {last}")
    trial.equal("what was prepared", standby.run("SELECT stamp, gid FROM truetime.pending"), [(str(prepared), "over")])
    standby.run("COMMIT PREPARED 'over'")
    trial.equal("its stamp", standby.run("SELECT truetime.stamp_of(xmin) FROM kept WHERE id = 2"), [(str(prepared),)])
    standby.kill()
    standby.start()
    trial.check("a restart of it", stamp_of_new_session(standby) > first, "a stamp is not above the last")


@suite.last_line
def last_line(results):
    if not results:
        return "nothing is tried"
    return (f"{total(results, 'commits')} commits of two servers, {total(results, 'out_of_order')} out of order; "
            f"{total(results, 'killed_commits')} acknowledged under {total(results, 'kills')} kills; "
            f"{total(results, 'snapshots')} snapshots of both; {wrong_in(results)} wrong")
