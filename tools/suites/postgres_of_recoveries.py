"""What else is done with a cluster: recovery to a point in time, a failback by pg_rewind, pg_upgrade, and a pooler in front of it."""
import contextlib
import os
import subprocess
import time

from harness import postgres
from harness.notes import Notes
from harness.postgres import Cluster, Connection, Failed
from harness.processes import Fault
from harness.program import read_text, write
from suites.postgres import case, stamp_of_new_session, state_of, suite

BOUNCER = "/usr/sbin/pgbouncer"
STAMPS = "SELECT truetime.stamp_of(xmin) FROM kept ORDER BY 1"


def folder_for(cluster, name):
    """A folder in that of the clusters, of the user of the servers."""
    made = os.path.join(os.path.dirname(cluster.data), name)
    os.mkdir(made, 0o700)
    os.chown(made, cluster.uid, -1)
    return made


def archived(cluster):
    """Returns once all that is written until now is archived."""
    last = cluster.run("SELECT pg_walfile_name(pg_switch_wal())")[0][0]
    end = time.monotonic() + 30
    while (cluster.run("SELECT last_archived_wal FROM pg_stat_archiver")[0][0] or "") < last:
        if time.monotonic() > end:
            raise Fault(f"{last} is not archived")
        time.sleep(0.02)


@case
def recoveries(trial):
    """Recovery to a point in time: what was committed by then has its stamps, and no stamp is given before the lease was claimed."""
    shared = trial.shared
    archive = folder_for(shared.clusters[0], "archive")
    settings = {"fsync": "off", "archive_mode": "on", "archive_command": f"cp %p {archive}/%f"}
    primary = trial.keep(Cluster(shared.installed, shared.room, "t", shared.machines[0].path("shared"), **settings))
    primary.run("CREATE EXTENSION truetime; CREATE TABLE kept(id int)")
    copy = folder_for(primary, "copy-of-t")
    made = primary.command("pg_basebackup", "-D", copy, "-h", primary.sockets, "-p", str(postgres.PORT), "-U", postgres.USER, "-c", "fast",
                           "-X", "none", "--no-sync")
    trial.equal("pg_basebackup", (made.status, made.error.replace("NOTICE:  all required WAL segments have been archived\n", "")), (0, ""))
    stamps = [stamp_of_new_session(primary)]
    primary.run("SELECT pg_create_restore_point('here')")
    stamps.append(stamp_of_new_session(primary))
    archived(primary)
    primary.kill()
    write(os.path.join(copy, "recovery.signal"), b"")
    os.chown(os.path.join(copy, "recovery.signal"), primary.uid, -1)
    point = {"restore_command": f"cp {archive}/%f %p", "recovery_target_name": "here", "recovery_target_action": "promote"}
    recovered = trial.keep(Cluster(shared.installed, shared.room, "u", shared.machines[1].path("shared"), source=copy, fsync="off", **point))
    recovered.wait_until_writable()
    trial.equal("what is recovered", recovered.run(STAMPS), [(str(stamps[0]),)])
    trial.equal("a stamp", state_of(stamp_of_new_session, recovered), "TB001")
    recovered.run("SELECT truetime.claim_lease()")
    trial.check("a stamp behind claim_lease", stamp_of_new_session(recovered) > stamps[1], "a stamp is not above one of the old server")


@case
def synced(trial):
    """Each bound of stamps is synced before it counts, and the folder behind the first one: no loss of power takes back that a stamp was given. With
    truetime.log_bound the WAL has it before. Here alone fsync is on."""
    shared, notes = trial.shared, Notes(trial.room, "server")
    write(notes.path, b"")
    os.chmod(notes.path, 0o666)  # the server is another user's
    behind = ["env", *(f"{name}={notes.environment[name]}" for name in ("LD_PRELOAD", "NOTES"))]
    # Nobody else writes the WAL meanwhile.
    settings = {"truetime.log_bound": "on", "wal_writer_delay": "10s"}
    cluster = trial.keep(Cluster(shared.installed, shared.room, "y", shared.machines[0].path("shared"), behind=behind, **settings))
    sync, folder = ["fdatasync", os.path.join(cluster.data, "truetime.bound")], ["fsync", cluster.data]

    def look():
        """The bound that counts, and how many were synced before."""
        return cluster.run("SELECT bound FROM truetime.status()"), notes.calls().count(sync)

    cluster.run("CREATE EXTENSION truetime")
    calls = notes.calls()
    trial.check("the first bound", sync in calls and folder in calls[calls.index(sync):], "the file is not synced, and then its folder")
    seen, rose = [look()], []
    while len(rose) < 2 and len(seen) < 40:
        time.sleep(0.2)
        cluster.run("BEGIN; SELECT truetime.commit_timestamp(); ROLLBACK")
        seen.append(look())
        if seen[-1][0] != seen[-2][0]:
            rose.append(seen[-1][1] > seen[-2][1])
    trial.equal("bounds that are set anew, and whether each is synced", rose, [True, True])
    syncs = [call for call in notes.calls()[len(calls):] if call == sync or (call[0] == "fdatasync" and "/pg_wal/" in call[1])]
    has_wal = [earlier != sync for earlier, later in zip([sync, *syncs], syncs) if later == sync]
    trial.equal("bounds, and whether the WAL has each before", has_wal[:2], [True, True])
    cluster.stop()
    trial.equal("syncs at an end in order", notes.calls().count(sync), seen[-1][1] + 1)


def replayed(standby, rows):
    """Returns once the standby has so many rows."""
    end = time.monotonic() + 30
    while standby.run("SELECT count(*) FROM kept") != [(str(rows),)]:
        if time.monotonic() > end:
            raise Fault(f"the standby does not get row {rows}\n{read_text(standby.log)[-2000:]}")
        time.sleep(0.02)


# pg_rewind wants hints in the WAL, and that from before the promotion.
REWOUND = {"fsync": "off", "wal_log_hints": "on", "wal_keep_size": "64MB"}


def following(primary):
    """The setting by which a standby follows this server."""
    return {"primary_conninfo": f"host={primary.sockets} port={postgres.PORT} user={postgres.USER}"}


@case
def failbacks(trial):
    """A primary is killed, its standby promoted, the old one rewound, and promoted when the other is killed: stamps ascend."""
    shared = trial.shared
    first = trial.keep(Cluster(shared.installed, shared.room, "v", shared.machines[0].path("shared"), **REWOUND))
    first.run("CREATE EXTENSION truetime; CREATE TABLE kept(id int)")
    copy = folder_for(first, "copy-of-v")
    made = first.command("pg_basebackup", "-D", copy, "-h", first.sockets, "-p", str(postgres.PORT), "-U", postgres.USER, "-R", "-c", "fast",
                         "-X", "stream", "--no-slot", "--no-sync")
    trial.equal("pg_basebackup", (made.status, made.error), (0, ""))
    second = trial.keep(Cluster(shared.installed, shared.room, "w", shared.machines[1].path("shared"), source=copy, **REWOUND, **following(first)))
    stamps = [stamp_of_new_session(first)]
    replayed(second, 1)
    first.kill()
    second.run("SELECT pg_promote()")
    stamps.append(stamp_of_new_session(second))
    second.run("CHECKPOINT")
    rewound = first.command("pg_rewind", "-D", first.data, f"--source-server=host={second.sockets} port={postgres.PORT} user={postgres.USER} "
                            f"dbname={postgres.DATABASE}", "--no-sync")
    if rewound.status != 0:
        raise Fault(f"pg_rewind ends with status {rewound.status}\n{rewound.said}{rewound.error}")
    write(os.path.join(first.data, "standby.signal"), b"")
    os.chown(os.path.join(first.data, "standby.signal"), first.uid, -1)
    first.settings.update(following(second))
    first.start()
    stamps.append(stamp_of_new_session(second))
    replayed(first, 3)
    second.kill()
    first.run("SELECT pg_promote()")
    stamps.append(stamp_of_new_session(first))
    trial.equal("stamps", first.run(STAMPS), [(str(stamp),) for stamp in sorted(set(stamps))])
    trial.equal("stamps in the order of commits", stamps, sorted(stamps))


@case
def upgrades(trial):
    """pg_upgrade leaves out stamps, and the bound and the origins, which is refused with words."""
    shared = trial.shared
    pair = [trial.keep(Cluster(shared.installed, shared.room, name, shared.machines[0].path("shared"), fsync="off")) for name in ("old", "new")]
    old, new = pair
    old.run("CREATE EXTENSION truetime; CREATE TABLE kept(id int)")
    last = stamp_of_new_session(old)
    for cluster in pair:
        cluster.stop()
    room = folder_for(old, "upgrade")
    ran = old.command("pg_upgrade", "-b", old.installed.bin, "-B", new.installed.bin, "-d", old.data, "-D", new.data, "-s", room, "-U",
                      postgres.USER, "--link", "--no-sync", seconds=120, cwd=room)
    trial.check("pg_upgrade", ran.status == 0, f"status {ran.status}\n{ran.said[-2000:]}{ran.error}")
    new.start()
    trial.equal("stamps of before", new.run(STAMPS), [(None,)])
    trial.equal("a stamp", state_of(stamp_of_new_session, new), "TB001")
    new.run("SELECT truetime.claim_lease()")
    trial.equal("without origins", state_of(stamp_of_new_session, new), "55000")
    new.run("SELECT truetime.create_origins()")
    trial.check("a stamp behind claim_lease and create_origins", stamp_of_new_session(new) > last, "a stamp is not above the last")


# A pooler.

def without_bouncer():
    return postgres.missing() or ("" if os.path.exists(BOUNCER) else "it wants pgbouncer")


@contextlib.contextmanager
def pooler(cluster):
    """pgbouncer in transaction mode, with two sessions of the server; its folder."""
    folder = folder_for(cluster, "pooler")
    settings = os.path.join(folder, "pgbouncer.ini")
    write(settings, (f"[databases]\n{postgres.DATABASE} = host={cluster.sockets} port={postgres.PORT} user={postgres.USER}\n"
                     f"[pgbouncer]\nunix_socket_dir = {folder}\nlisten_port = {postgres.PORT}\nauth_type = any\npool_mode = transaction\n"
                     "default_pool_size = 2\nserver_lifetime = 3600\n").encode())
    log = os.path.join(folder, "log")
    with open(log, "wb") as file:
        process = subprocess.Popen([*cluster.front, BOUNCER, settings], stdin=subprocess.DEVNULL, stdout=file, stderr=file, cwd="/")
    try:
        end = time.monotonic() + 20
        while state_of(lambda: connected(folder)) == "none":
            if time.monotonic() > end or process.poll() is not None:
                raise Fault(f"no pooler: {read_text(log)[-1000:]}")
            time.sleep(0.02)
        yield folder
    finally:
        process.terminate()
        process.wait(20)


def connected(folder):
    try:
        Connection(folder).close()
    except OSError:
        raise Failed({"C": "none"}) from None


@suite.case(missing=without_bouncer)
def poolers(trial):
    """Behind a pooler in transaction mode each client is told its own stamps: with the answer to COMMIT, and by commit_timestamp(). What a
    session keeps is that of others."""
    cluster = trial.shared.clusters[0]
    cluster.run("CREATE TABLE pooled(who int, n int, told bigint)")
    with pooler(cluster) as folder, contextlib.ExitStack() as stack:
        clients = [stack.enter_context(Connection(folder)) for _ in range(6)]
        own, shown = {}, 0
        for number in range(10):
            for who, client in enumerate(clients):
                client.send(f"BEGIN; INSERT INTO pooled VALUES ({who}, {number}); SELECT truetime.request(); COMMIT")
            for who, client in enumerate(clients):
                client.finish()
                own[who, number] = client.last_commit()
        for who, client in enumerate(clients):
            client.run("BEGIN")
            client.run(f"INSERT INTO pooled VALUES ({who}, 10)")
            own[who, 10] = client.number("SELECT truetime.commit_timestamp()")
            client.run("COMMIT")
        for who, client in enumerate(clients):
            shown += client.value("SHOW truetime.last_commit") != str(own[who, 10])
        found = cluster.run("SELECT who, n, truetime.stamp_of(xmin) FROM pooled")
        trial.equal("stamps that clients were told", {(int(who), int(number)): int(stamp) for who, number, stamp in found}, own)
        trial.check("SHOW truetime.last_commit", shown > 0, "each of six clients of two sessions has its own")
