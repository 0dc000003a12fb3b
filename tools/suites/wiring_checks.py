"""What the suite `wiring` checks, by the names of docs/reference/, and what its scenarios share."""
import contextlib
import functools
import itertools
import os
import re
import shutil
import time
from decimal import Decimal

from harness.faults import FakeMaster, Spoils, answer, honest
from harness.metrics import faults_in
from harness.processes import SECOND, Process, fields_of, truetime
from harness.program import in_top, read_text, run
from harness.trial import Trial
from harness.wire import answer_to, poll_in, request_in, sealed

# The names. One that changes is changed here; that of a setting or of an event also where a scenario gives or awaits it.

SETTINGS = """machine masters faulty workers drift clock slew poll wait floor_ahead idle lease_lo lease_hi stampers listen http log on_break max_width state socket
shared status evidence vmclock keys master""".split()
OPTIONS = """source listen uncertainty offset act log keys status id name ntp faulty margin every drift max-age ntp-key ntp-keys local phc
tai-offset warn-width http""".split()
ACTS = "honest ahead behind silent garbage repeat".split()

# The numbers of the status in their order, by the names that the checks use: those before the ones of each source, these, and the others.
FIRST = {
    "epoch": "truetime_epoch", "width": "truetime_width_seconds", "fusion_age": "truetime_fusion_age_seconds",
    "sources": "truetime_sources", "known": "truetime_sources_known", "newest": "truetime_newest_answer_age_seconds",
    "needed": "truetime_needed_answer_age_seconds",
}
# The numbers by which the answers of a source are refused. The first two cannot be provoked from outside.
UNREACHED, REASONS = ["402", "403"], ["404", "405", "407", "406"]
# The numbers by which the packets of a source do not open.
UNOPENED = ["2201", "2202", "2203"]
OF_SOURCES = {
    "suspect": 'truetime_source_suspect{source="%d"}', "accepted": 'truetime_source_rounds_total{source="%d",outcome="accepted"}',
    "refused": 'truetime_source_rounds_total{source="%d",outcome="refused"}',
    "silent": 'truetime_source_rounds_total{source="%d",outcome="silent"}',
    **{f"refused_{number}": f'truetime_source_rounds_refused_total{{source="%d",number="{number}"}}' for number in UNREACHED + REASONS},
    "unsent": 'truetime_source_packets_unsent_total{source="%d"}', "age": 'truetime_source_answer_age_seconds{source="%d"}',
    "round_trip": 'truetime_source_round_trip_seconds{source="%d"}', "lower": 'truetime_source_lower_seconds{source="%d"}',
    "upper": 'truetime_source_upper_seconds{source="%d"}', "rate": 'truetime_source_clock_rate_ratio{source="%d"}',
    "rate_error": 'truetime_source_clock_rate_error_ratio{source="%d"}',
    **{f"unopened_{number}": f'truetime_source_packets_unopened_total{{source="%d",number="{number}"}}' for number in UNOPENED},
    "key": 'truetime_source_key{source="%d"}',
}
LAST = {
    "rounds": "truetime_rounds_total", "publications": "truetime_publications_total", "answers_refused": "truetime_answers_refused_total",
    "rounds_stale": "truetime_rounds_stale_total", "fusions_504": 'truetime_fusions_refused_total{number="504"}',
    "fusions_701": 'truetime_fusions_refused_total{number="701"}', "strangers": "truetime_strangers_total", "breaks": "truetime_assumption_breaks_total",
    "broken_lives": "truetime_broken_lives_total",
    "slept": "truetime_slept_seconds_total", "sleep_unseen": "truetime_sleep_unseen",
    "slewed_rate": "truetime_slewed_clock_rate_ratio", "withdrawn": "truetime_slewed_base_withdrawn",
    "withdrawals": "truetime_slewed_base_withdrawals_total", "sessions": "truetime_sessions_total", "lines": "truetime_lines_total",
    "lines_refused": "truetime_lines_refused_total", "waiting": "truetime_connections_waiting", "unserved": "truetime_connections_unserved_total",
    "workers": "truetime_workers",
    "busy": "truetime_workers_busy", "sessions_open": "truetime_sessions_open", "commits_waiting": "truetime_commits_waiting",
    "commits_waited": "truetime_commit_wait_seconds_sum", "commits_released": "truetime_commit_wait_seconds_count",
    "round_trips": "truetime_round_trip_seconds_sum", "answers": "truetime_round_trip_seconds_count",
    "widths": "truetime_reading_width_seconds_sum", "widths_counted": "truetime_reading_width_seconds_count",
    "sharing": "truetime_sharing", "left_out": "truetime_records_left_out_total",
}
# The numbers that are there if a life before has broken.
OF_BREAKS = {"last_break": "truetime_last_break_timestamp_seconds", "last_break_info": 'truetime_last_break_info{event="guest_disrupted"}'}
# The buckets of histograms, which stand before their sums.
BUCKETS = {"commit_buckets": "truetime_commit_wait_seconds_bucket", "answer_buckets": "truetime_round_trip_seconds_bucket",
           "width_buckets": "truetime_reading_width_seconds_bucket"}

# What the status of a master tells of its turns and of its servers, by the names that the checks use; those by reason have its number.
UNANSWERED = ["301", "302", "303", "2401", "2402", "2403", "2404", "2405", "2406", "2407", "2408"]
OF_MASTERS = {
    "width": "truetime_master_width_seconds", "width_max": "truetime_master_width_max_seconds",
    **{f"unanswered_{number}": f'truetime_master_unanswered_total{{number="{number}"}}' for number in UNANSWERED},
    **{f"server_{name}": f'truetime_master_server_{name}{{server="%d"}}' for name in (
        "silence", "stratum", "root_distance_seconds", "age_seconds", "leap", "requests_total", "replies_total", "refused_total", "kisses_total",
        "width_seconds")},
}

# The numbers of a publication in the shared file, as clients/python names them.
SHARED = truetime.Publication._fields

# The level and the fields of each event of the log, but for `left_out`.
EVENTS = {
    "started": "info machine epoch port", "first_publication": "info width_ns", "sharing_resumed": "info", "ended": "info",
    "master_started": "info source port", "source_silent": "warn source address", "source_suspect": "warn source address", "source_unsent": "warn source address",
    "fusion_refused": "warn number text", "round_failed": "warn number text", "sharing_ended": "warn number text", "socket_renewed": "warn number pause_ns text",
    "publication_slow": "warn lasted_ns", "clock_back": "warn", "status_unwritten": "warn errno", "not_accepted": "warn errno",
    "state_loose": "warn", "epoch_loose": "warn", "shared_loose": "warn", "answers_refused": "warn count", "master_failed": "warn number text",
    "assumption_broken": "error clock_ns lower_ns upper_ns last_lower_ns last_upper_ns", "host_slept": "error slept_ns",
    "guest_disrupted": "error", "sleep_unseen": "warn", "descriptors": "info limit needed sessions", "sources_stale": "warn answered needed", "start_paused": "warn pause_ns breaks",
    "evidence_unwritten": "warn errno", "keys_read": "info keys", "keys_refused": "warn number line text", "polls_unopened": "warn count", "address_awaited": "warn pause_ns",
    "stranger": "warn address", "source_unresolved": "warn source address", "source_resolved": "info source address",
    "master_silent": "warn number text", "master_answers": "info", "width_above": "warn width_ns limit_ns", "clock_stepped": "error",
    "server_refused": "warn server number text address", "server_silent": "warn server address",
    "slew_too_fast": "warn rate_ppm slew_ppm", "slew_in_bounds": "info",
    "source_answers": "info source address", "status_written": "info", "evidence_written": "info", "width_in_bounds": "info", "stood_still": "warn lasted_ns",
    "source_agrees": "info source address", "fusion_published": "info", "rounds_resumed": "info", "master_resumed": "info", "sleep_seen": "info",
    "sources_fresh": "info", "server_answers": "info server address",
}

# How long something lasts, in nanoseconds, as documents and doc comments say.
TIMES = {
    # A session; the looks of a worker at its clients; the wait for the first publication; a read and a write of a connection.
    "session": 86_400 * SECOND, "look": SECOND, "first": 2 * SECOND, "read": SECOND // 5, "write": SECOND // 1000,
    # What a round may last longer than `wait`; how long a write of the shared file lasts before it hangs; a pause before the first
    # publication; the sleep of a writer of records.
    "slow": SECOND, "hang": SECOND, "quick round": SECOND // 10, "records": SECOND,
    # A request over HTTP, and the answer to it; the looks for what is not written at the end.
    "page": 2 * SECOND, "page look": SECOND, "end look": SECOND // 500,
    # A connection of `ask`, a read of its reply, and its pause; a connection of `top`, and its pause.
    "ask link": 30 * SECOND, "ask read": SECOND // 10, "ask again": SECOND // 10, "top link": 5 * SECOND, "top again": SECOND // 2,
    # A packet that a master awaits, and its pause where none can be had; the reply of a server of its host.
    "packet": SECOND, "master fails": SECOND // 10, "near reply": SECOND // 250,
}
# The reply of a server of another host, and the longest sleep before a request to it: they are looked at by root alone.
TIMES_OF_OTHERS = {"far reply": SECOND, "far look": SECOND}

# The forms of a line. Addresses and the words of a number are the only texts, and a rate may be below 0.
RATE = r"-?[0-9]+\.[0-9]{3}"
ADDRESS = r"(?:[0-9A-Za-z.-]+|\[[0-9a-f:.]+\]):[0-9]+"
WORDS = r'"[^"\\\n]+"'
MOMENT = r"[0-9]{4}-[0-9]{2}-[0-9]{2}T[0-9]{2}:[0-9]{2}:[0-9]{2}\.[0-9]{9}Z"
FORMS = {
    "text": re.compile(rf"time={MOMENT} level=[a-z]+ event=[a-z_]+( [a-z_]+=[0-9]+| rate_ppm={RATE}| address={ADDRESS}| text={WORDS})*\n"),
    "json": re.compile(rf'\{{"time":"{MOMENT}","level":"[a-z]+","event":"[a-z_]+"(,"[a-z_]+":[0-9]+|,"rate_ppm":{RATE}|,"address":"{ADDRESS}"|,"text":{WORDS})*\}}\n'),
}

# The names of all checks that are to be made.
NAMES = [*(f"setting {name}" for name in SETTINGS), *(f"option {name}" for name in OPTIONS), *(f"act {name}" for name in ACTS),
         *(f"status {name}" for name in ("build_info", "source_info", "form", *FIRST, *OF_SOURCES, *LAST, *OF_BREAKS, *BUCKETS)), *(f"shared {name}" for name in SHARED),
         *(f"master {name}" for name in OF_MASTERS),
         *(f"log {name}" for name in EVENTS), *(f"time {name}" for name in TIMES)]
for unreached in UNREACHED:
    NAMES.remove(f"status refused_{unreached}")


@functools.cache
def sentences():
    """What the program says of each number of a refusal, as docs/reference has it."""
    return dict(re.findall(r"^\| ([0-9]+) \| ([^|]+) \|", read_text(in_top("docs/reference/refusals.md")), re.MULTILINE))


def sentence_of(number):
    """What the program says of a number, None without one."""
    return number and sentences()[number]


def eventually(call, seconds=6.0, pause_s=0.02):
    """What the call gives as soon as that is something, or what it gave at the end of these seconds."""
    end = time.monotonic() + seconds
    while True:
        found = None
        with contextlib.suppress(OSError, ValueError, KeyError, truetime.Refused):
            found = call()
        if found or time.monotonic() > end:
            return found
        time.sleep(pause_s)


class Checks(Trial):
    """A scenario, and its checks by the names above."""

    def numbers(self, node, seconds=6.0, **wanted):
        """The status comes to have these numbers, all of them at once."""
        seen = [dict.fromkeys(wanted)]

        def look():
            seen.append(status_of(node))
            return all(seen[-1][name] == value for name, value in wanted.items())

        eventually(look, seconds)
        for name, value in wanted.items():
            self.equal(f"status {name}", seen[-1][name], value)
        return seen[-1]

    def logs(self, process, event, seconds=6.0, **wanted):
        """A line of this event comes, with these numbers and with those that its kind has; the line."""
        def look():
            return [line for line in process.said(event) if all(line.get(name) == str(value) for name, value in wanted.items())]
        lines = eventually(look, seconds) or []
        level, *numbers = EVENTS[event].split()
        fits = [line for line in lines if line["level"] == level and line.keys() - {"left_out"} == {"time", "level", "event", *numbers}
                and line.get("text") == sentence_of(line.get("number"))]
        self.check(f"log {event}", fits, f"no line with level {level} and {wanted or numbers}, only {process.said(event)[:3]}")
        return fits[0] if fits else {}

    def finish(self):
        """Each event in the logs of this scenario has its name here."""
        for name in os.listdir(self.room):
            if name.endswith(".log"):
                lines = read_text(os.path.join(self.room, name)).splitlines(keepends=True)
                for event in {fields["event"] for fields in map(fields_of, lines) if fields} - EVENTS.keys():
                    self.check(f"log {event}", False, "wiring_checks.py has no such event")

    def has_form(self, name, process, form):
        """Each line of a log has this form."""
        lines = read_text(process.log).splitlines(keepends=True)
        wrong = [line for line in lines if not FORMS[form].fullmatch(line)]
        self.check(name, lines and not wrong, f"lines of another form than {form}: {wrong[:3]} of {len(lines)}")

    def process(self, *words):
        """A command of the program that runs until the scenario ends."""
        return self.keep(Process(self, f"{words[0]}-{len(os.listdir(self.room))}", words))

    def spoilable(self, masters, name="A", **settings):
        """A machine that has published, and what spoils its calls."""
        node = self.node(masters, name, **settings)
        spoils = Spoils(self.room if name == "A" else node.folder)
        node.environment = spoils.environment
        node.run()
        node.wait_until_ready()
        return node, spoils


def number_of(numbers, name):
    """A number of a status; one with a fraction is in parts of a thousand million. None where it is not there or `NaN`."""
    value = numbers.get(name)
    return int(value * SECOND) if isinstance(value, Decimal) else value


def status_of(node):
    """The numbers of its status by the names above, those of each source as lists, and buckets by their bounds in nanoseconds."""
    numbers = node.status()
    found = {name: number_of(numbers, line) for name, line in (FIRST | LAST | OF_BREAKS).items()}
    for name, line in OF_SOURCES.items():
        found[name] = [number_of(numbers, line % source) for source in range(found["sources"] or 0)]
    for name, line in BUCKETS.items():
        found[name] = {int(Decimal(bound) * SECOND): numbers[sample] for sample in numbers if sample.startswith(line)
                       for bound in re.findall(r'le="([0-9.]+)"', sample)}
    return found


def infos_of(addresses):
    """The names of the numbers by which a status tells the addresses of its sources, in their order."""
    return [f'truetime_source_info{{source="{source}",address="{address}"}}' for source, address in enumerate(addresses)]


def names_of(addresses, version):
    """The names of the numbers of a status of sources with these addresses, in their order, but for buckets."""
    metrics = [list(names) for _, names in itertools.groupby(OF_SOURCES, lambda name: OF_SOURCES[name].partition("{")[0])]
    of_sources = [OF_SOURCES[name] % source for names in metrics for source in range(len(addresses)) for name in names]
    return [f'truetime_build_info{{version="{version}"}}', *FIRST.values(), *of_sources, *LAST.values(), *infos_of(addresses)]


def look_at_form(trial, node):
    """Its status has the form that Prometheus reads, and each number the label of the machine."""
    text = read_text(node.path("status"))
    unmarked = [line for line in text.splitlines() if line[0] != "#" and '{machine="3"' not in line]
    trial.equal("status form", (faults_in(text), unmarked), ([], []))
    if shutil.which("promtool"):
        ran = run(["promtool", "check", "metrics"], text.encode())
        trial.equal("status form", ran.said + ran.error, "")


def published(node, number=1, seconds=6.0):
    """The publication in its shared file, once it has this number or a greater one."""
    def look():
        with node.client() as client:
            publication = client.read()
            return publication if publication.number >= number else None
    return eventually(look, seconds)


# 127.0.0.1 as the kernel writes it in the list of sockets.
HERE = "0100007F"


def places_of(process):
    """At which addresses of this host the sockets of a process are, as the kernel writes them."""
    folder = f"/proc/{process.running.pid}/fd"
    inodes = {os.readlink(os.path.join(folder, name)) for name in os.listdir(folder)}
    rows = [line.split() for kind in ("tcp", "tcp6", "udp", "udp6") if os.path.exists(f"/proc/net/{kind}")
            for line in read_text(f"/proc/net/{kind}").splitlines()[1:]]
    return sorted({row[1].partition(":")[0] for row in rows if f"socket:[{row[9]}]" in inodes})


# Keys.

def put_keys(path, *lines):
    """A file of keys, in place of the one before."""
    with open(f"{path}.new", "w", encoding="ascii", opener=lambda name, flags: os.open(name, flags, 0o600)) as file:
        file.writelines(f"{line}\n" for line in lines)
    os.rename(f"{path}.new", path)


# Masters.

class SealedMaster(FakeMaster):
    """A master with keys by their numbers. It keeps the number of each poll that opens; what does not is strange."""

    def __init__(self, keys, *acts, **where):
        self.keys, self.numbers = keys, []
        super().__init__(*acts, **where)

    def take(self, packet, sender):
        poll, number = request_in(packet)
        if packet == sealed(poll, number, self.keys.get(number, b"")):
            self.numbers.append(number)
            self.act(poll, sender)
        else:
            self.strange.append(packet)

    def send(self, packet):
        """Sends it sealed under the key of the last poll."""
        super().send(sealed(packet, self.numbers[-1], self.keys[self.numbers[-1]]))

    def send_open(self, packet):
        """Sends it as it is."""
        super().send(packet)


def lies(ahead_ns):
    """It is so far ahead."""
    return lambda fake, poll: fake.answer(poll, ahead_ns)


def spans(below_ns, above_ns):
    """Its span goes from so much below this host's clock to so much above it."""
    def act(fake, poll):
        now = time.time_ns()
        fake.send(answer_to(poll, now - below_ns, now + above_ns))
    return act


def runs(rate):
    """Its clock runs by so many parts per million faster from its first poll on."""
    return lambda fake, poll: fake.answer(poll, (time.time_ns() - fake.times[0]) * rate // 1_000_000)


def forges(*packets):
    """It sends what these calls make of a poll, and then an honest answer."""
    def act(fake, poll):
        for packet in packets:
            fake.send(packet(poll))
        honest(fake, poll)
    return act


def other(**ahead):
    """An answer in which these numbers are greater by so much than those of the poll."""
    return lambda poll: answer(poll, **{name: getattr(poll_in(poll), name) + by for name, by in ahead.items()})
