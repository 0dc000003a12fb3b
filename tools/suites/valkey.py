"""Builds the module of clients/valkey without a warning, and tries it on two servers of Redis over two machines, whose masters are off by
2.7 ms in opposite directions, within their uncertainty of 3 ms.

- What each command does, and what it refuses.
- Writers commit on both servers. What each client, a reader and a reader of a replica of each server knew is judged: with the wait nothing
  is out of order. By two controls the judge is seen to see: without the wait, and with a wait behind the command, which readers see through.
- Servers are killed by signal 9 under load: their append-only files have all that was acknowledged, in the order of stamps.
- A replica is promoted, and a master becomes a replica.
- Snapshots at a time, of both.
- What waits while the readings end is given up ten seconds after it came.

All is on Unix sockets and ports of the loopback. Where redis-server or a C compiler is missing it is left out, with a line.
"""
import contextlib
import itertools
import os
import random
import re
import shutil
import time
import types
from concurrent.futures import ThreadPoolExecutor

from harness import redis
from harness.databases import FORK, gather, judge_order, machines_apart
from harness.redis import Failed, Server
from harness.suite import Suite, total, wrong_in

suite = Suite(__name__, longest_s=90, again=1, never=("with the wait:", "lost", "given twice", "another stamp", "torn snapshots:", "not above"),
              quick=False, beside_s=20)
WRITERS = 6


def missing():
    lacking = [name for name in (redis.SERVER, "make", "cc") if not shutil.which(name)]
    return f"it wants redis-server, make and a C compiler: {lacking[0]} is missing" if lacking else ""


@suite.shares
def rig(trial):
    """Two machines, a server beside each, and a replica of each."""
    if missing():
        yield None
        return
    with ThreadPoolExecutor(1) as pool, contextlib.ExitStack() as stack:
        building = pool.submit(redis.build, trial.room)
        machines = machines_apart(trial)
        module = building.result()

        def server(name, machine):
            return stack.enter_context(contextlib.closing(Server(module, trial.room, name, machine.path("shared"))))

        servers = [server(name.lower(), machine) for name, machine in machines.items()]
        replicas = [server(name, machine) for name, machine in zip(("ra", "rb"), machines.values())]
        for replica, master in zip(replicas, servers):
            replica.follow(master)
        yield types.SimpleNamespace(machines=list(machines.values()), servers=servers, replicas=replicas, module=module)


def case(call):
    return suite.case(missing=missing)(call)


@case
def commands(trial):
    """What each command answers, and what is refused."""
    with trial.shared.servers[0].connect() as client:
        earliest, latest, fresh = client.ask("TT.NOW")
        trial.check("TT.NOW", earliest < latest and fresh == 1, f"{earliest} {latest} {fresh}")
        stamp, said = client.ask("TT.EXEC", "SET", "key", "$STAMP")
        trial.equal("TT.EXEC", (said, int(client.ask("GET", "key"))), ("OK", stamp))
        trial.between("its stamp has passed", latest, stamp, client.ask("TT.NOW")[0] - 1)
        stamp, said = client.ask("TT.MULTI", 3, "SET", "a", "$STAMP", 2, "INCR", "key", 2, "INCR", "list:none", 2, "GET", "a")
        trial.equal("TT.MULTI", (said[0], said[2:], int(client.ask("GET", "a"))), ("OK", [1, str(stamp)], stamp))
        stamp, said = client.ask("TT.EXEC", "EVAL", "redis.call('set', KEYS[1], ARGV[1]) return redis.call('get', KEYS[1])", 1, "key", "$STAMP")
        trial.equal("a script in it", said, str(stamp))
        stamp, said = client.ask("TT.EXEC", "LPUSH", "key", "x")
        trial.equal("a command that fails", said.kind, "WRONGTYPE")
        trial.equal("TT.AT", client.ask("TT.AT", client.ask("TT.NOW")[1], "GET", "a"), client.ask("GET", "a"))
        trial.equal("a snapshot that is over", client.fails("TT.AT", stamp - 1, "GET", "a"), "TRUETIME")
        trial.equal("a time far ahead", client.fails("TT.AT", client.ask("TT.NOW")[1] + 1_500_000_000, "GET", "a"), "ERR")
        trial.check("a write in TT.AT", isinstance(client.ask("TT.EXEC", "GET", "a")[1], str) and
                    client.fails("TT.AT", client.ask("TT.NOW")[1], "SET", "a", 1), "it is executed")
        for words in (("TT.EXEC",), ("TT.EXEC", "GET"), ("TT.EXEC", "nothing"), ("TT.MULTI", 2, "GET"), ("TT.MULTI", 2, "GET", "a", 1, "GET"),
                      ("TT.MULTI", "x", "GET"), ("TT.MULTI",), ("EVAL", "return redis.call('tt.exec', 'get', 'a')", 0), ("MODULE", "UNLOAD", "truetime")):
            trial.equal(f"{words}", client.fails(*words), "ERR")
        for words in (("MULTI",), ("SUBSCRIBE", "x"), ("TT.EXEC", "GET", "a"), ("SHUTDOWN",), ("CONFIG", "GET", "dir")):
            trial.check(f"TT.EXEC {words}", isinstance(client.ask("TT.EXEC", *words)[1], Failed), "it is executed")
        client.ask("MULTI")
        client.ask("TT.EXEC", "GET", "a")
        trial.equal("TT.EXEC in MULTI", [failed.kind for failed in client.ask("EXEC")], ["ERR"])
        rights(trial, client)


def rights(trial, client):
    """A user has by the module no right more."""
    client.ask("ACL", "SETUSER", "eve", "on", "nopass", "~eve*", "+tt.exec", "+tt.multi", "+set", "+eval", "+auth")
    with trial.shared.servers[0].connect() as eve:
        eve.ask("AUTH", "eve", "x")
        trial.equal("what a user may do", eve.ask("TT.EXEC", "SET", "eve1", "x")[1], "OK")
        for words in (("TT.EXEC", "GET", "eve1"), ("TT.EXEC", "SET", "a", "x"), ("TT.MULTI", 3, "SET", "eve2", "x", 2, "GET", "eve1"), ("TT.NOW",)):
            trial.equal(f"what he may not: {words}", eve.fails(*words), "NOPERM")
        trial.check("nor by a script", isinstance(eve.ask("TT.EXEC", "EVAL", "return redis.call('get', 'eve1')", 0)[1], Failed), "it is executed")
    trial.equal("several, one of which he may not", client.ask("GET", "eve2"), None)


# Order.

def commits(servers, mode, me, seconds, out):
    """A writer's commits, on the one server or the other: when each began and ended, its stamp, its server and its row."""
    chance, history, clients = random.Random(me), [], [server.connect() for server in servers]
    end = time.monotonic() + seconds
    for number in itertools.count():
        if time.monotonic() > end:
            break
        place, row, began = chance.randrange(2), f"{mode} {me} {number}", time.monotonic_ns()
        client = clients[place]
        if mode == "on":
            stamp, _ = client.ask("TT.EXEC", "RPUSH", "seen", "$STAMP", row)
        else:
            stamp = client.ask("TT.NOW")[1]
            client.ask("RPUSH", "seen", stamp, row)
        while mode == "behind" and client.ask("TT.NOW")[0] <= stamp:
            time.sleep(0.0003)
        history.append((began, time.monotonic_ns(), stamp, place, row))
    out.put(history)


def look(server, kind, place, stop, out):
    """A reader: when it first saw each row; and all stamps and rows."""
    first, rows, is_last = {}, [], False
    with server.connect() as client:
        while not is_last:
            is_last = stop.is_set()
            new = client.ask("LRANGE", "seen", len(rows), -1)
            now = time.monotonic_ns()
            rows += new
            for row in new[1::2]:
                first[row] = now
            time.sleep(0.0003)
    out.put((kind, place, first, rows))


@case
def order(trial):
    """Commits of two servers are judged by clients, readers and readers of replicas, with the wait and by both controls."""
    shared, out, stop = trial.shared, FORK.Queue(), FORK.Event()
    for server in shared.servers:
        server.ask("DEL", "seen")
    watchers = [FORK.Process(target=look, args=(server, kind, place, stop, out), daemon=True)
                for kind, servers in (("reader", shared.servers), ("replica", shared.replicas)) for place, server in enumerate(servers)]
    for watcher in watchers:
        watcher.start()
    history, of_writers, seconds = {}, FORK.Queue(), trial.options.seconds or 1
    for mode in "on", "off", "behind":
        writers = [FORK.Process(target=commits, args=(shared.servers, mode, me, seconds, of_writers), daemon=True) for me in range(WRITERS)]
        history[mode] = [commit for given in gather(writers, of_writers) for commit in given]
    for server, replica in zip(shared.servers, shared.replicas):
        replica.catch_up(server)
    stop.set()
    judge_all(trial, history, [out.get(timeout=60) for _ in watchers])


def judge_all(trial, history, seen):
    told = {commit[4]: commit[2] for commit in history["on"]}
    for kind, place, _, rows in seen:
        stamps = [int(stamp) for stamp, row in zip(rows[::2], rows[1::2]) if row in told]
        trial.equal(f"{kind} {place}: rows", len(stamps), sum(commit[3] == place for commit in history["on"]))
        trial.check(f"{kind} {place}: stamps", all(a < b for a, b in itertools.pairwise(stamps)), "they do not rise, or one was given twice")
        trial.equal(f"{kind} {place}: another stamp", [row for stamp, row in zip(rows[::2], rows[1::2]) if told.get(row, int(stamp)) != int(stamp)], [])
    judge_order(trial, history, seen, ("reader", "replica"), "command")


# Files and replicas.

def commit_under_kills(servers, me, stop, out):
    """A writer that connects anew: what was acknowledged, and when each row was begun."""
    chance, clients, acknowledged, began = random.Random(me), [None, None], {}, {}
    for number in itertools.count():
        if stop.is_set():
            break
        place, row = chance.randrange(2), f"{me} {number}"
        began[row] = time.monotonic_ns()
        try:
            clients[place] = clients[place] or servers[place].connect()
            stamp, _ = clients[place].ask("TT.MULTI", 4, "RPUSH", "killed", "$STAMP", row, 2, "INCR", "rows")
            acknowledged[row] = time.monotonic_ns(), place, stamp
        except (Failed, OSError):
            clients[place] = None
            time.sleep(0.01)
    out.put((acknowledged, began))


@case
def kills(trial):
    """What was acknowledged is in the append-only file of a server that was killed, each command whole, in the order of stamps."""
    servers, chance, out, stop = trial.shared.servers, random.Random(trial.seed()), FORK.Queue(), FORK.Event()
    writers = [FORK.Process(target=commit_under_kills, args=(servers, me, stop, out), daemon=True) for me in range(WRITERS)]
    for writer in writers:
        writer.start()
    for number in range(4):
        time.sleep(chance.uniform(0.2, 0.4))
        servers[number % 2].kill()
        servers[number % 2].start()
    time.sleep(0.2)
    stop.set()
    acknowledged, began, ended = {}, {}, time.monotonic_ns()
    for of_writer in [out.get(timeout=60) for _ in writers]:
        acknowledged.update(of_writer[0])
        began.update(of_writer[1])
    rows = [found_in(server) for server in servers]
    look_at_kills(trial, acknowledged, rows)
    history = [(began[row], acknowledged.get(row, (ended,))[0], stamp) for of_server in rows for row, stamp in of_server]
    trial.equal("out of order", trial.judge(history), 0)
    trial.count(killed_commits=len(acknowledged))


def found_in(server):
    """The rows of a server, each with its stamp."""
    found = server.ask("LRANGE", "killed", 0, -1)
    return [(row, int(stamp)) for stamp, row in zip(found[::2], found[1::2])]


def look_at_kills(trial, acknowledged, rows):
    trial.check("commits", len(acknowledged) > 50, f"only {len(acknowledged)} were acknowledged")
    for place, server in enumerate(trial.shared.servers):
        stamps = [stamp for _, stamp in rows[place]]
        of_rows = dict(rows[place])
        mine = {row: stamp for row, (_, where, stamp) in acknowledged.items() if where == place}
        trial.equal("acknowledged and lost", [row for row in mine if row not in of_rows][:5], [])
        trial.equal("rows with another stamp than their client was told", [row for row in mine if of_rows.get(row, mine[row]) != mine[row]][:5], [])
        trial.equal("stamps given twice, or out of order", sum(a >= b for a, b in itertools.pairwise(stamps)), 0)
        trial.equal("halves of a command", int(server.ask("GET", "rows")) - len(stamps), 0)
        in_file = [int(stamp) for stamp in re.findall(r"killed\r\n\$19\r\n(\d{19})\r\n", server.appended())]
        trial.equal("the append-only file", in_file, stamps)


@case
def replicas(trial):
    """A replica takes no stamps, and is promoted: its stamps are above. A master that becomes a replica writes nothing that waited."""
    shared = trial.shared
    master, replica = shared.servers[0], shared.replicas[0]
    machine = shared.machines[1]
    replica.kill()
    replica.words[-2] = machine.path("shared")  # its time is behind that of the master
    replica.start()
    replica.follow(master)
    for words in ("TT.EXEC", "SET", "held", "x"), ("TT.MULTI", 3, "SET", "held", "x"), ("TT.AT", time.time_ns(), "GET", "held"):
        with replica.connect() as client:
            trial.equal(f"a replica: {words[0]}", client.fails(*words), "READONLY")
    with master.connect() as client:
        told = [client.ask("TT.EXEC", "RPUSH", "held", "$STAMP")[0] for _ in range(20)]
    replica.catch_up(master)
    replica.ask("REPLICAOF", "NO", "ONE")
    trial.equal("what the replica has", [int(stamp) for stamp in replica.ask("LRANGE", "held", 0, -1)], told)
    stamp, _ = replica.ask("TT.EXEC", "RPUSH", "held", "$STAMP")
    trial.check("a promoted replica", stamp > told[-1], f"its stamp {stamp} is not above {told[-1]}")
    for number in range(5):
        master.ask("REPLICAOF", "NO", "ONE")
        with master.connect() as client:
            client.send("TT.EXEC", "SET", f"late{number}", "x")
            master.ask("REPLICAOF", "127.0.0.1", replica.port)
            came = refusal_in(client)
            trial.check("a master that becomes a replica", came in ("", "READONLY", "UNBLOCKED"), came)
        master.catch_up(replica)
        trial.equal("what waited then", master.ask("GET", f"late{number}"), None)
    trial.equal("it has what the new master has", master.ask("LRANGE", "held", 0, -1), replica.ask("LRANGE", "held", 0, -1))
    master.ask("REPLICAOF", "NO", "ONE")


def refusal_in(client):
    """The first word of the error that comes, or nothing."""
    reply = client.reply()
    return reply.kind if isinstance(reply, Failed) else ""


# Snapshots.

def count_on(servers, stop, out):
    """Counts on the first server, and then, once that is acknowledged, on the second; and moves from one key to another."""
    clients, number = [server.connect() for server in servers], 0
    while not stop.is_set():
        number += 1
        clients[0].ask("TT.MULTI", 3, "SET", "count", number, 2, "INCR", "plus", 2, "DECR", "minus")
        clients[1].ask("TT.EXEC", "SET", "count", number)
    out.put(number)


def snapshot(clients, times):
    """The count of each server at its time, the first server's first; whether the sum of two keys is not 0; or None where one is over."""
    for client, t in zip(clients, times):
        client.send("TT.AT", t, "MGET", "count", "plus", "minus")
    replies = [client.reply() for client in clients]
    if any(isinstance(reply, Failed) for reply in replies):
        return None
    (first, plus, minus), (second, *_) = replies
    return int(first) < int(second) or int(plus) + int(minus) != 0


@case
def snapshots(trial):
    """Snapshots at a time, of both servers, have no count of the second whose cause on the first they lack. At two times some have."""
    servers, stop, out = trial.shared.servers, FORK.Event(), FORK.Queue()
    for server in servers:
        server.ask("MSET", "count", 0, "plus", 0, "minus", 0)
    counting = FORK.Process(target=count_on, args=(servers, stop, out), daemon=True)
    counting.start()
    clients, one, two, end = [server.connect() for server in servers], [], [], time.monotonic() + 30
    while (len(one) < 20 or not any(two)) and time.monotonic() < end:
        t = clients[len(one) % 2].ask("TT.NOW")[1]
        one.append(snapshot(clients, (t, t)))
        t = clients[1].ask("TT.NOW")[1]
        two.append(snapshot(clients, (t, t + 100_000_000)))
    stop.set()
    taken = [is_torn for is_torn in one if is_torn is not None]
    trial.note(f"{out.get(timeout=60)} commits on each, {len(taken)} snapshots at a time, {sum(taken)} torn; {sum(filter(None, two))} at two times")
    trial.equal("torn snapshots", sum(taken), 0)
    trial.check("snapshots", len(taken) > 3, f"only {len(taken)}")
    trial.check("snapshots at two times", any(two), "none is torn")
    for client in clients:
        client.close()
    trial.count(snapshots=len(taken))


@case
def machines(trial):
    """A file of the machine that is truncated refuses, and a machine that comes again goes on."""
    machine, server = trial.shared.machines[0], trial.shared.servers[0]
    with server.connect() as client:
        machine.kill()
        trial.equal("a machine that is killed: readings widen", client.ask("TT.EXEC", "SET", "late", "1")[1], "OK")
        os.truncate(machine.shared, 0)
        trial.equal("a file that is truncated", client.fails("TT.EXEC", "SET", "late", "2"), "TRUETIME")
        machine.start()
        machine.wait_until_ready()
        end = time.monotonic() + 20
        while client.fails("TT.EXEC", "SET", "late", "3") and time.monotonic() < end:
            time.sleep(0.05)
        trial.equal("a machine that is back", client.ask("GET", "late"), "3")


@case
def readings_that_end(trial):
    """What waits while the readings end is refused ten seconds after it came, and not before; what comes then is refused at once."""
    path = os.path.join(trial.room, "time")
    shutil.copy(trial.shared.machines[0].shared, path)
    server = trial.keep(Server(trial.shared.module, trial.room, "late", path))
    with server.connect() as client:
        began = time.monotonic()
        client.send("TT.AT", client.ask("TT.NOW")[1] + 900_000_000, "GET", "a")
        time.sleep(0.1)
        os.truncate(path, 0)
        trial.equal("a command that waits", refusal_in(client), "TRUETIME")
        trial.between("seconds until it is refused", 10, time.monotonic() - began, 12)
        trial.equal("a command without readings", client.fails("TT.EXEC", "SET", "a", "x"), "TRUETIME")


@suite.last_line
def last_line(results):
    if not results:
        return "nothing is tried"
    return (f"{total(results, 'commits')} commits of two servers, {total(results, 'out_of_order')} out of order; "
            f"{total(results, 'killed_commits')} acknowledged under kills; {total(results, 'snapshots')} snapshots of both; {wrong_in(results)} wrong")
