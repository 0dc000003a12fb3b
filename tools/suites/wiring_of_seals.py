"""Scenarios of the suite `wiring`: polls that are sealed, of masters with addresses and with names."""
import contextlib
import os
import shutil
import socket
import subprocess
import time

from harness.faults import NOBODY, Network, Spoils, answer, honest, silent
from harness.metrics import faults_in
from harness.processes import SECOND
from harness.program import read_text, run, write
from harness.wire import REQUEST, sealed
from suites.wiring import suite
from suites.wiring_checks import SealedMaster, eventually, put_keys, status_of
from suites.wiring_of_pages import get, with_pages

FIRST, SECOND_KEY, THIRD, OTHER = (bytes(range(start, start + 32)) for start in (0, 50, 100, 150))
KEYS = [f"7 {FIRST.hex()} a", f"8 {SECOND_KEY.hex()}", "# no key", f"4294967295 {THIRD.hex()}"]


def keys_at(trial, lines=KEYS):
    """A file of keys."""
    path = os.path.join(trial.room, "keys")
    put_keys(path, *lines)
    return path


def table(master, key, name=None):
    """The table of a master, at its address or at its port of a name."""
    port = master.address.rpartition(":")[2]
    return {"address": f"{name}:{port}" if name else master.address, "key": key}


def scripted(trial, keys, *acts, **where):
    """A master with these keys."""
    return trial.keep(SealedMaster(keys, *acts, **where))


@suite.case()
def sealed_polls(trial):
    """Polls are sealed under the first key of each master, and answers open under each; one master has none."""
    first = scripted(trial, {7: FIRST, 8: SECOND_KEY}, honest)
    last, [plain] = scripted(trial, {4294967295: THIRD}, honest), trial.scripts(honest)
    masters = [table(first, [8, 7]), {"address": plain.address}, table(last, 4294967295)]
    node = trial.running_node(masters, faulty=0, keys=keys_at(trial))
    status = trial.numbers(node, key=[8, None, 4294967295], strangers=0, answers_refused=0, **{f"unopened_{number}": [0] * 3 for number in (2201, 2202, 2203)})
    trial.equal("setting keys", ({*first.numbers}, first.strange), ({8}, []))
    trial.equal("setting master", ({*last.numbers}, last.strange, plain.strange), ({4294967295}, [], []))
    trial.equal("setting master", [{poll.source for poll in master.polls} for master in (first, plain, last)], [{0}, {1}, {2}])
    trial.check("setting master", status["known"] == 3, "a master is not heard")

    # The master answers under its other key, as one that does not have the new one yet.
    first.acts = [lambda fake, poll: fake.send_open(sealed(answer(poll), 7, FIRST))]
    trial.numbers(node, key=[7, None, 4294967295])


def spoils_of(poll):
    """Packets that do not open, by the numbers of the reasons."""
    good = sealed(answer(poll), 7, FIRST)
    return {2201: [b"", b"x", answer(poll)[:19], good + b"x"], 2202: [sealed(answer(poll), 8, SECOND_KEY), answer(poll)],
            2203: [sealed(answer(poll), 7, OTHER), good[:-1] + bytes([good[-1] ^ 1]), bytes([good[0] ^ 1]) + good[1:]]}


def sends_spoiled(fake, poll):
    """It sends each of them twice, and then the answer."""
    for packet in 2 * sum(spoils_of(poll).values(), []):
        fake.send_open(packet)
    honest(fake, poll)


@suite.case()
def sealed_sources(trial):
    """They are counted, and end no wait and take no turn: the answer behind them is heard. They are no refused answers."""
    masters = [scripted(trial, {8: SECOND_KEY}, honest), scripted(trial, {7: FIRST}, sends_spoiled)]
    node = trial.running_node([table(masters[0], 8), table(masters[1], 7)], faulty=0, poll="200ms", wait="2s", keys=keys_at(trial))
    wanted = {number: len(packets) * 2 for number, packets in spoils_of(bytes(REQUEST.size)).items()}
    seen = []

    def look():
        polls, status = len(masters[1].polls), status_of(node)
        seen.append({name: status[name] for name in ("accepted", "refused", "silent", "answers_refused", "key", *(f"unopened_{number}" for number in wanted))})
        return seen[-1] == {"accepted": [polls] * 2, "refused": [0, 0], "silent": [0, 0], "answers_refused": 0, "key": [8, 7],
                            **{f"unopened_{number}": [0, polls * each] for number, each in wanted.items()}}

    is_right = eventually(look)
    for number in wanted:
        trial.check(f"status unopened_{number}", is_right, f"{seen[-2:]}, with {wanted} for each poll of source 1")


@suite.case()
def answers_of_another(trial):
    """An answer under the key of another master, and an open one, leave their source silent."""
    masters = [scripted(trial, {7: FIRST}, lambda fake, poll: fake.send_open(sealed(answer(poll), 8, SECOND_KEY))),
               scripted(trial, {8: SECOND_KEY}, lambda fake, poll: fake.send_open(answer(poll))), scripted(trial, {4294967295: THIRD}, honest)]
    node = trial.node([table(master, *master.keys) for master in masters], wait="100ms", keys=keys_at(trial))
    node.run()
    eventually(lambda: len(masters[2].polls) > 4)
    status = trial.numbers(node, key=[None, None, 4294967295])
    rounds, is_late = status["rounds"], status["silent"][2] > 0
    trial.equal("status accepted", status["accepted"], [0, 0, rounds - status["silent"][2]])
    trial.check("status accepted", status["accepted"][2] > rounds // 2, f"{status['accepted'][2]} of {rounds}")
    trial.equal("status silent", status["silent"][:2], [rounds] * 2)
    trial.equal("log source_silent", {line["source"] for line in node.said("source_silent")}, {"0", "1", *("2" * is_late)})


@suite.case()
def strangers(trial):
    """A packet from another address than those of the masters is logged by it, and ends no wait."""
    masters = [scripted(trial, {7: FIRST}, honest), scripted(trial, {8: SECOND_KEY}, honest)]
    node = trial.running_node([table(masters[0], 7), table(masters[1], 8)], faulty=0, keys=keys_at(trial), wait="3s")
    trial.numbers(node, strangers=0)
    with socket.socket(socket.AF_INET, socket.SOCK_DGRAM) as door:
        door.bind(("127.0.0.1", 0))
        door.sendto(b"x" * 60, masters[0].machine)
        trial.logs(node, "stranger", address="127.0.0.1:%d" % door.getsockname()[1])
        trial.numbers(node, strangers=1)
    trial.has_form("setting log", node, "text")
    status = status_of(node)
    trial.equal("status unopened_2202", (status["unopened_2202"], status["silent"]), ([0, 0], [0, 0]))


@suite.case()
def sealed_after_renewal(trial):
    """Over a socket that took the place of one that failed, polls are sealed as before, and answers are opened."""
    masters = [scripted(trial, {7: FIRST}, honest), scripted(trial, {8: SECOND_KEY}, honest)]
    node, spoils = trial.spoilable([table(masters[0], 7), table(masters[1], 8)], faulty=0, poll="200ms", wait="100ms", keys=keys_at(trial))
    with spoils.spoiled("receive"):
        trial.logs(node, "socket_renewed", number=1501, pause_ns=100_000_000)
    before = [(len(master.numbers), accepted) for master, accepted in zip(masters, status_of(node)["accepted"])]

    def look():
        after = zip(masters, status_of(node)["accepted"])
        return all(len(master.numbers) > polls + 2 and heard > accepted + 2 for (master, heard), (polls, accepted) in zip(after, before))

    trial.check("renewal", eventually(look), f"no sealed polls and answers behind {before}")
    trial.equal("renewal", [({*master.numbers}, master.strange) for master in masters], [({7}, []), ({8}, [])])


@suite.case()
def nonces_of_lives(trial):
    """They begin elsewhere in each life, also where the folder of the state is lost: an answer of the life before is refused."""
    kept = []
    master = scripted(trial, {7: FIRST}, lambda fake, poll: [kept.append(sealed(answer(poll), 7, FIRST)), honest(fake, poll)])
    node = trial.running_node([table(master, 7)], keys=keys_at(trial))
    eventually(lambda: len(master.polls) > 4)
    node.kill()
    first, old = master.polls[:], kept[:]
    shutil.rmtree(node.path("state"))
    master.acts = [lambda fake, poll: [fake.send_open(packet) for packet in old[:3]]]
    node.run()
    trial.check("nonces", eventually(lambda: len(master.polls) > len(first) + 3 and status_of(node)["rounds"] > 2), "no polls")
    later = master.polls[len(first):]
    for polls in (first, later):
        nonces = sorted(poll.nonce for poll in polls)
        trial.check("nonces", nonces[0] > 2**32 and nonces[-1] < 2**63 + 2**32, f"they are {nonces[:3]}")
        trial.equal("nonces", nonces, list(range(nonces[0], nonces[0] + len(nonces))))
    trial.check("nonces", abs(first[0].nonce - later[0].nonce) > 2**32, "both lives begin at much the same")
    trial.equal("nonces", ({poll.epoch for poll in first + later}), {1})
    status = status_of(node)
    trial.equal("nonces", (status["publications"], status["accepted"], status["unopened_2203"]), (0, [0], [0]))
    trial.check("nonces", status["refused_406"][0] > 0, "the old answers are not refused by 406")


# Names.

@suite.case()
def names_of_masters(trial):
    """A name is looked up at the start. One that has no address leaves its source silent, and holds up nothing."""
    host = socket.getaddrinfo("localhost", 0, type=socket.SOCK_DGRAM)[0][4][0]
    local, last = scripted(trial, {7: FIRST}, honest, host=host), scripted(trial, {4294967295: THIRD}, honest)
    masters = [table(local, 7, "localhost"), {"address": "nowhere.invalid:5701", "key": [8]}, table(last, 4294967295)]
    node = trial.running_node(masters, keys=keys_at(trial), log="json")
    trial.logs(node, "source_resolved", source=0, address=local.address)
    trial.logs(node, "source_unresolved", 30, source=1)
    trial.check("setting master", eventually(lambda: local.polls), "the master with a name is not asked")
    trial.numbers(node, key=[7, None, 4294967295], known=2)
    said, status = trial.command("serve", "--check", node.path("node.toml")).answer
    lines = [line for line in said.splitlines() if line.split()[0] in ("master", "threads", "keys", "key", "resolved", "unresolved", "warning")]
    wanted = [f"master {masters[0]['address']} key 7", "master nowhere.invalid:5701 key 8", f"master {last.address} key 4294967295",
              "threads 11", f"keys {keys_at(trial)}", "key 7", "key 8", "key 4294967295", f"resolved localhost {local.address}", "unresolved nowhere.invalid"]
    # A name may have further addresses.
    lines = [" ".join(line.split()[:3]) if line.startswith("resolved ") else line for line in lines]
    trial.equal("--check", (status, lines), (0, wanted))
    for fault in node.ends(2):
        trial.check("log ended", False, fault)
    trial.equal("log source_resolved", [line["source"] for line in node.said("source_resolved")], ["0"])
    trial.has_form("setting log", node, "json")


@suite.case()
def addresses_in_the_status(trial):
    """The status file and the page of it end with the address of each source as the settings have it, whatever a name stands for."""
    host = socket.getaddrinfo("localhost", 0, type=socket.SOCK_DGRAM)[0][4][0]
    local, six = scripted(trial, {7: FIRST}, honest, host=host), scripted(trial, {8: SECOND_KEY}, honest, host="::1")
    [plain] = trial.scripts(honest)
    masters = [table(local, 7, "LocalHost"), table(six, 8), {"address": plain.address}]
    node, port = with_pages(trial, masters, keys=keys_at(trial), machine=5)
    node.run()
    trial.numbers(node, known=3)
    wanted = [f'truetime_source_info{{machine="5",source="{source}",address="{master["address"]}"}} 1' for source, master in enumerate(masters)]
    for text in read_text(node.path("status")), get(port, "/metrics").text:
        lines = text.splitlines()
        trial.equal("status source_info", lines[-3:], wanted)
        trial.equal("status source_info", [line for line in lines[:-5] if "truetime_source_info" in line], [])
        trial.equal("status source_info", lines[-5:-3], ["# HELP truetime_source_info The address of a source, as the settings have it.",
                                                         "# TYPE truetime_source_info gauge"])
        trial.equal("status form", faults_in(text), [])


@suite.case()
def two_addresses_of_a_name(trial):
    """Of a name with two addresses the first is asked until it has been silent for as long as four rounds last, and then the next; one that answers
    is asked on, and once it falls silent the first again."""
    local = scripted(trial, {7: FIRST}, honest)
    port = int(local.address.rpartition(":")[2])
    spoils = Spoils(trial.room)
    spoils.tell("addresses", "127.0.0.2 127.0.0.1")
    first, last = ({"address": master.address} for master in trial.scripts(honest, honest))
    node = trial.node([first, table(local, 7, "localhost"), last], keys=keys_at(trial), poll="400ms", wait="200ms")
    node.environment = spoils.environment
    with socket.socket(socket.AF_INET, socket.SOCK_DGRAM) as door:
        door.bind(("127.0.0.2", port))
        door.setblocking(False)

        def asked():
            """How many packets have come at the other address since the last call."""
            number = 0
            with contextlib.suppress(BlockingIOError):
                while door.recv(100):
                    number += 1
            return number

        node.run()
        trial.logs(node, "source_resolved", source=1, address=f"127.0.0.2:{port}")
        trial.check("setting master", eventually(lambda: local.times), "the next address is not asked")
        began = int(trial.logs(node, "started").get("time", 0))
        trial.between("for how long a silent address is asked", 1.9, (local.times[0] - began) / SECOND if local.times else 0, 5)
        trial.check("setting master", asked() > 2, "the first address is not asked")
        # Longer than four rounds, a look of the thread and a round more: by then the other one would be asked.
        time.sleep(4.5)
        trial.equal("packets to an address behind that of a master that answers", asked(), 0)
        local.acts = [silent]
        trial.check("setting master", eventually(asked, 8), "the first address is not asked again once the other one is silent")
        # So is each further one asked for as long: the thread looks each second, and four rounds last for 2.4.
        known, since = len(local.times), time.time_ns()
        is_asked = eventually(lambda: len(local.times) > known, 8)
        trial.between("for how long the next silent address is asked", 2, (local.times[known] - since) / SECOND if is_asked else 0, 6)


@suite.case()
def both_families(trial):
    """Masters of IPv4 and of IPv6 are asked from one socket; where the host has no IPv6, those of IPv4 are."""
    four, six = scripted(trial, {7: FIRST}, honest), scripted(trial, {8: SECOND_KEY}, honest, host="::1")
    node = trial.running_node([table(four, 7), table(six, 8)], "A", faulty=0, keys=keys_at(trial))
    trial.numbers(node, key=[7, 8], unsent=[0, 0])
    spoils = Spoils(trial.room)
    spoils.tell("six")
    node = trial.node([table(four, 7), table(six, 8)], "B", faulty=0, keys=keys_at(trial))
    node.environment = spoils.environment
    node.run()
    trial.numbers(node, key=[7, None], known=1)
    trial.check("status unsent", status_of(node)["unsent"][1] > 0, "packets to the other are sent")
    with spoils.spoiled("receive"):
        trial.logs(node, "socket_renewed")
    heard = status_of(node)["accepted"][0]
    trial.check("renewal", eventually(lambda: status_of(node)["accepted"][0] > heard + 2), "it is not asked from the new socket")


@suite.case()
def six_alone(trial):
    """Where sockets of IPv6 reach no address of IPv4, masters of both families are refused, and those of one are asked."""
    network = trial.keep(Network())
    network.do("sh", "-c", "echo 1 >/proc/sys/net/ipv6/bindv6only")
    four, six = {"address": "127.0.0.1:5701", "key": 7}, {"address": "[::1]:5702", "key": 8}
    for name, masters, wanted in (("A", [four, six], "refused 1828\n"), ("B", [four, {"address": "a.invalid:1", "key": 8}], "refused 1828\n")):
        node = trial.node(masters, name, keys=keys_at(trial))
        ran = subprocess.run([*network.enter, trial.program, *node.words], capture_output=True, text=True, timeout=10, check=False, stdin=subprocess.DEVNULL)
        trial.equal("refusal 1828", (ran.stdout, ran.returncode), (wanted, 2))
    for name, masters in (("C", [four]), ("D", [six])):
        node = trial.node(masters, name, keys=keys_at(trial))
        node.run(network.enter)
        trial.check("refusal 1828", eventually(lambda node=node: node.said("started")), f"no start: {node.end_of_log()[-200:]!r}")


# What a file of keys has, its mode, and the number that refuses the start.
FILES = [
    (KEYS[:1], 0o600, 1827), ([], 0o600, 1827), (None, 0o600, 2211), (KEYS, 0o644, 2212), (KEYS, 0o640, 2212), (KEYS, 0o660, 2212),
    (["# " + "x" * 65536, *KEYS], 0o600, 2214), ([*KEYS, "9 00"], 0o600, 2215), ([KEYS[0].upper(), *KEYS[1:]], 0o600, 2215),
    ([*KEYS, KEYS[1]], 0o600, 2216),
]


@suite.case()
def refused_keys(trial):
    """A start without the keys of its masters is refused, and takes no epoch."""
    node = trial.node([{"address": "127.0.0.1:5701", "key": 7}, {"address": "10.77.0.1:5701", "key": [8]}], keys=os.path.join(trial.room, "keys"))
    for lines, mode, number in FILES:
        path = keys_at(trial, lines or [])
        os.chmod(path, mode)
        if lines is None:
            os.remove(path)
        ran = trial.command(*node.words)
        trial.equal(f"refusal {number}", ran.answer, (f"refused {number}\n", 4 if number == 2211 else 2))
        hidden = not any(secret.hex() in ran.error for secret in (FIRST, SECOND_KEY, THIRD))
        trial.check(f"refusal {number}", hidden, f"a key is shown: {ran.error!r}")
    trial.equal("refusal 1827", os.listdir(node.path("state")), [])
    path = keys_at(trial)
    if os.geteuid() == 0:
        os.chown(path, 65534, 65534)
        trial.equal("refusal 2213", trial.command(*node.words).answer, ("refused 2213\n", 2))
    os.mkdir(os.path.join(trial.room, "folder"))
    other = trial.node([{"address": "127.0.0.1:5701", "key": 7}], "B", keys=os.path.join(trial.room, "folder"))
    trial.equal("refusal 2211", trial.command(*other.words).answer, ("refused 2211\n", 4))


@suite.case(root=True)
def keys_of_another_user(trial):
    """A machine of another user than root takes the file of keys of that user."""
    master = scripted(trial, {7: FIRST}, honest)
    node = trial.node([table(master, 7)], keys=keys_at(trial))
    node.program = os.path.join(trial.room, "ttd")
    shutil.copy(trial.program, node.program)
    for path in (node.folder, node.path("state"), os.path.join(trial.room, "keys")):
        os.chown(path, NOBODY, NOBODY)
    node.run(user=NOBODY, group=NOBODY, extra_groups=[])
    trial.numbers(node, key=[7])


@suite.case(root=True, programs=("unshare", "mount"))
def host_that_says_nothing_of_six(trial):
    """A host without IPv6 has no file that says what its sockets reach: a master with a name and one with an address of IPv4 are taken."""
    node = trial.node([{"address": "127.0.0.1:5701", "key": 7}, {"address": "localhost:5702", "key": 8}], keys=keys_at(trial))
    node.run(["unshare", "--mount", "sh", "-c", 'mount -t tmpfs none /proc/sys/net/ipv6 && exec "$@"', "sh"])
    trial.logs(node, "started")


@suite.case()
def no_random_bytes(trial):
    """A start without random bytes is refused, also where nothing is sealed."""
    spoils, node = Spoils(trial.room), trial.node(trial.scripts(silent))
    spoils.tell("random")
    node.environment = spoils.environment
    node.run(stdout=subprocess.PIPE)
    trial.equal("refusal 1829", (node.running.stdout.read(), node.running.wait(5)), (b"refused 1829\n", 4))
    trial.equal("refusal 1829", os.listdir(node.path("state")), [])


def polls_at(door):
    """How many packets came to a socket since the last look."""
    count = 0
    with contextlib.suppress(BlockingIOError):
        while door.recv(100):
            count += 1
    return count


@suite.case(root=True, programs=("unshare", "mount"))
def addresses_of_a_name(trial):
    """They are asked in turn, each for four silent rounds or a second, and round again, also one that the name has several times. One that answers
    is asked from then on."""
    hosts = os.path.join(trial.room, "hosts")
    write(hosts, "".join(f"127.0.0.{last} m0.lab.test\n" for last in (2, 2, 2, 2, 2, 3, 4)).encode())
    last = scripted(trial, {7: FIRST}, silent, host="127.0.0.4")
    with contextlib.ExitStack() as stack:
        doors = [stack.enter_context(socket.socket(socket.AF_INET, socket.SOCK_DGRAM)) for _ in range(2)]
        for door, host in zip(doors, ("127.0.0.2", "127.0.0.3")):
            door.bind((host, int(last.address.rpartition(":")[2])))
            door.setblocking(False)
        node = trial.node([table(last, 7, "m0.lab.test")], keys=keys_at(trial), poll="70ms", wait="30ms")
        with_hosts = ["unshare", "--mount", "sh", "-c", 'mount --bind "$0" /etc/hosts && exec "$@"', hosts]
        said = run([*with_hosts, trial.program, "serve", "--check", node.path("node.toml")]).said.splitlines()
        found = [line.split()[2:] for line in said if line.startswith("resolved m0.lab.test ")]
        port = last.address.rpartition(":")[2]
        trial.equal("--check", sorted({*sum(found, [])}), [f"127.0.0.{number}:{port}" for number in (2, 3, 4)])
        node.run(with_hosts)
        trial.check("names", eventually(lambda: len(last.numbers) > 3, 20), "the third address is not asked")
        asked = [polls_at(door) for door in doors]
        trial.check("names", 3 < min(asked) and max(asked) < 30, f"the first two were asked {asked} times")
        trial.check("names", eventually(lambda: polls_at(doors[0]), 20), "the first address is not asked again")
        last.acts = [honest]
        trial.check("names", eventually(lambda: status_of(node)["known"] == 1, 20), "the address that answers is not heard")
        for door in doors:
            polls_at(door)
        time.sleep(3)
        trial.equal("names", [polls_at(door) for door in doors], [0, 0])


@suite.case(root=True, programs=("unshare", "mount"))
def first_address_of_a_name(trial):
    """The address that is asked first is asked for four silent rounds, too, before the next one is."""
    hosts = os.path.join(trial.room, "hosts")
    write(hosts, b"127.0.0.2 m0.lab.test\n127.0.0.3 m0.lab.test\n")
    last = scripted(trial, {7: FIRST}, honest, host="127.0.0.3")
    with socket.socket(socket.AF_INET, socket.SOCK_DGRAM) as door:
        door.bind(("127.0.0.2", int(last.address.rpartition(":")[2])))
        door.setblocking(False)
        node = trial.node([table(last, 7, "m0.lab.test")], keys=keys_at(trial), poll="500ms", wait="50ms")
        node.run(["unshare", "--mount", "sh", "-c", 'mount --bind "$0" /etc/hosts && exec "$@"', hosts])
        eventually(lambda: last.numbers, 20)
        trial.between("names: seconds until the second address is asked", 2.2, time.monotonic() - node.began, 20)
        trial.check("names", polls_at(door) > 3, "the first address is not asked for four rounds")
