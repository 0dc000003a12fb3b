"""Scenarios of the suite `wiring`: what `ttd top` shows of a machine."""
import contextlib
import fcntl
import os
import pty
import re
import signal
import socket
import struct
import subprocess
import termios
import time
import xml.etree.ElementTree

from harness.faults import Answerer, Spoils, honest, silent
from harness.processes import free_port
from harness.program import in_top, read_text, run, write
from suites.wiring import suite
from suites.wiring_checks import eventually, spans
from suites.wiring_of_pages import get

CLEAR = b"\x1b[H\x1b[2J"
PLAIN = {"LANG": "C", "PATH": os.environ["PATH"]}


def machine(trial):
    """A machine with an honest source, one that is far off, one that is silent, and two more honest ones; and its configuration."""
    port = free_port(socket.SOCK_STREAM)
    far = spans(-1_000_000_000, 1_000_001_000)
    masters = trial.scripts(honest, far, silent, honest, honest)
    node = trial.node(masters, http=f"127.0.0.1:{port}", evidence="evidence", poll="200ms", wait="50ms", machine=5)
    node.run(cwd=node.folder)
    node.wait_until_ready()
    return node, port


@suite.case()
def top_once(trial):
    """The same of files and of an address, as wide as it is told, with what became of each source."""
    node, port = machine(trial)
    epoch = re.search(r"^truetime_epoch\{[^}]*} (\d+)$", eventually(lambda: read_text(node.path("status"))), re.M).group(1)
    for place in (node.path("node.toml"), f"127.0.0.1:{port}"):
        for columns in (80, 200):
            ran = eventually(lambda: (seen := run([trial.program, "top", place, "--once", "--columns", str(columns)], env=PLAIN,
                                                  cwd=node.folder)).said.count(" never\n") == 1 and "suspect" in seen.said and seen)
            trial.check("top", ran, f"{place} at {columns} shows no suspect and no source that never answered")
            if not ran:
                continue
            trial.equal("top", (ran.status, ran.error), (0, ""))
            lines = ran.said.splitlines()
            # A file has an age, which one look at an address does not know.
            if not place.startswith("127."):
                trial.check("top", re.fullmatch(r"status +\d+\.\d{3} (us|ms) old", lines[0]), lines[0])
                del lines[0]
            trial.check("top", lines[0].startswith(f"machine 5  epoch {epoch}  rounds ") and lines[0].endswith("  sources 5  known 4  f 2"), lines[0])
            trial.equal("top", [line[:6].strip() for line in lines[2:8]], ["0", "1", "2", "3", "4", "fused"])
            bars = [line[6:columns - 45] for line in lines[2:8]]
            for at, mark in ((0, "="), (2, "?"), (3, "="), (4, "="), (5, "#")):
                trial.check("top", set(bars[at]) <= {mark, " "} and mark in bars[at], f"the bar of line {at} is {bars[at]!r}")
            trial.check("top", lines[3].endswith(" suspect") and lines[4].endswith(" never"), f"{lines[3:5]}")
            trial.check("top", any(line.endswith("[]") for line in lines[2:7]), "no source holds both ends")
            trial.check("top", ran.said.isascii() and "! 1 suspects\n" in ran.said and "\x1b" not in ran.said, ran.said)
    wide, plain, other = (run([trial.program, "top", node.path("node.toml"), "--once", *words], env=PLAIN | more, cwd=node.folder).said.splitlines()
                          for words, more in ((("--columns", "80"), {}), ((), {}), ((), {"COLUMNS": "wide"})))
    trial.equal("top", (len(plain[2]), len(other[2])), (len(wide[2]), ) * 2)


@suite.case()
def top_on_a_terminal(trial):
    """A suspect is red there, but not where NO_COLOR is set."""
    node, _ = machine(trial)
    words = [trial.program, "top", node.path("node.toml"), "--once"]
    eventually(lambda: " suspect" in run(words, env=PLAIN, cwd=node.folder).said)
    for more, is_red in (({}, True), ({"NO_COLOR": ""}, True), ({"NO_COLOR": "1"}, False)):
        said = on_terminal(words, PLAIN | more, node.folder)
        red = [line for line in said.splitlines() if "\x1b[31m" in line]
        trial.equal("top", (more, any(" suspect" in line for line in red), "\x1b" in said), (more, is_red, is_red))
    trial.equal("top --svg", "\x1b" in on_terminal([*words, "--svg"], PLAIN, node.folder), False)


# Names of locales, and whether their characters are UTF-8.
LOCALES = {"C": False, "": False, "de_DE.ISO-8859-1": False, "UTF-8.C": False, "C.UTF-8": True, "C.utf8": True, "en_US.UTF8": True, "de_DE.utf-8": True}


@suite.case()
def top_by_locales(trial):
    """It draws widths in ASCII unless the name of the locale says UTF-8, as that is written."""
    _, port = machine(trial)
    with contextlib.ExitStack() as stack:
        shown = {name: stack.enter_context(subprocess.Popen([trial.program, "top", f"127.0.0.1:{port}"], env=PLAIN | {"LC_ALL": name},
                                                            stdout=subprocess.PIPE)) for name in LOCALES}
        for name, is_utf8 in LOCALES.items():
            frames = b""
            while frames.count(CLEAR) < 4:  # the third has widths of looks before, and is whole
                frames += os.read(shown[name].stdout.fileno(), 65536)
            shown[name].kill()
            trial.equal("top", (name, frames.isascii()), (name, not is_utf8))


def on_terminal(words, environment, folder):
    """What a command prints to a terminal."""
    reading, writing = pty.openpty()
    with open(reading, "rb", buffering=0) as terminal:
        with subprocess.Popen(words, env=environment, cwd=folder, stdout=writing, stderr=subprocess.DEVNULL):
            os.close(writing)
            said = b""
            with contextlib.suppress(OSError):  # the last one has closed it
                while piece := terminal.read(65536):
                    said += piece
    return said.decode()


@suite.case()
def top_of_one_that_falls_silent(trial):
    """A source that has answered is silent once its last answer is older than three rounds."""
    masters = trial.scripts(honest, honest, [honest, honest, silent])
    node = trial.node(masters, evidence="evidence", poll="400ms", wait="200ms")
    node.run(cwd=node.folder)
    node.wait_until_ready()
    ran = eventually(lambda: (seen := run([trial.program, "top", node.path("node.toml"), "--once"], env=PLAIN, cwd=node.folder)).said.count(
        " silent\n") == 1 and seen, 20)
    trial.check("top", ran and ran.said.splitlines()[5].startswith("    2 ") and ran.said.splitlines()[5].endswith(" silent"),
                f"no source is silent, or another one: {ran and ran.said}")


@suite.case()
def top_of_one_that_stands(trial):
    """A machine that is stopped: its last status is shown behind a line with its age, which a machine that runs has not."""
    node = trial.node(trial.scripts(honest), poll="400ms", wait="200ms")
    node.run(cwd=node.folder)
    node.wait_until_ready()

    def shown():
        return run([trial.program, "top", node.path("node.toml"), "--once"], env=PLAIN, cwd=node.folder).said.splitlines()

    first = eventually(shown, 20)
    trial.check("top", first and re.fullmatch(r"status +\d+\.\d{3} (us|ms) old", first[0]), f"it is told to be old: {first}")
    node.running.send_signal(signal.SIGSTOP)
    stopped = time.monotonic()
    time.sleep(3)
    old = shown()
    age = re.fullmatch(r"! status +(\d+\.\d{3})  s old", old[0])
    node.running.send_signal(signal.SIGCONT)
    trial.check("top", age, f"its age is not told: {old[0]}")
    trial.between("top", 3, float(age[1]) if age else 0, time.monotonic() - stopped + 1)
    trial.check("top", old[1:] and old[1].split()[0] == first[1].split()[0], f"another picture: {old[1:2]}")


def folder_of(trial, **settings):
    """A machine that does not run, whose files are STATUS and EVIDENCE."""
    node = trial.node(trial.scripts(*[silent] * 4), evidence="evidence", status="status", poll="1s", wait="1s", machine=7, **settings)
    write(node.path("status"), STATUS.encode())
    write(node.path("evidence"), EVIDENCE.encode())
    return node


@suite.case()
def top_above_the_limit(trial):
    """Readings are 2.5 ms wide. It is told where they may be 2 ms, and not where they may be 3."""
    for name, limit, wanted in (("A", "2ms", ["! readings are wider than max_width   2.000 ms: clients are refused (1824)"]), ("B", "3ms", []), ("C", None, [])):
        node = folder_of(trial, name=name, max_width=limit)
        said = run([trial.program, "top", node.path("node.toml"), "--once"], env=PLAIN, cwd=node.folder).said
        trial.equal("setting max_width", (limit, [line for line in said.splitlines() if "wider" in line]), (limit, wanted))
        trial.equal("top", said.splitlines()[-1], "= source  x suspect  # fused  < > beyond  ? none  [ ] ends held")


@suite.case()
def top_after_a_break(trial):
    """For ten minutes it is told that the last life broke, when and why."""
    node = folder_of(trial)
    broke, unmet = r"! the last life broke +6\d\.\d{3}  s ago", "assumption_broken"
    for ago, event, info, wanted in ((60, unmet, 1, f"{broke}: {unmet}"), (60, "host_slept", 1, f"{broke}: host_slept"), (60, "guest_disrupted", 1, f"{broke}: guest_disrupted"),
                                     (60, unmet, 0, broke), (60, "another", 1, broke), (580, unmet, 1, ".*"), (610, unmet, 1, None), (None, unmet, 0, None)):
        at = 0 if ago is None else time.time() - ago
        more = f'truetime_last_break_timestamp_seconds{{machine="7"}} {at:.9f}\ntruetime_last_break_info{{machine="7",event="{event}"}} {info}\n'
        write(node.path("status"), (STATUS + more).encode())
        said = run([trial.program, "top", node.path("node.toml"), "--once"], env=PLAIN, cwd=node.folder).said
        lines = [line for line in said.splitlines() if "broke" in line]
        trial.check("metric last_break", bool(lines) == bool(wanted) and (not wanted or re.fullmatch(wanted, lines[0])), f"{ago} s ago: {lines}")


def frames_of(shown, number):
    """So many whole pictures of a `top` that goes on."""
    said = b""
    while said.count(CLEAR) <= number:
        said += os.read(shown.stdout.fileno(), 65536)
    return [frame.decode() for frame in said.split(CLEAR)[1:number + 1]]


@suite.case()
def top_of_what_is_past(trial):
    """A count of what is past has a time: that of the last look at which it was less, or for how long it was seen to stay as it is. LINES says how many
    lines there are."""
    node = folder_of(trial)
    stale = STATUS + 'truetime_rounds_stale_total{machine="7"} 70\ntruetime_source_packets_unsent_total{machine="7",source="2"} 3\n'
    write(node.path("status"), stale.encode())
    said = run([trial.program, "top", node.path("node.toml"), "--once"], env=PLAIN, cwd=node.folder).said.splitlines()
    trial.check("metric rounds_stale_total", "! 70 rounds without fresh answers of enough sources in this life" in said, f"{said}")
    trial.check("metric source_packets_unsent_total", "! source 2: 3 packets could not be sent in this life" in said, f"{said}")
    with subprocess.Popen([trial.program, "top", node.path("node.toml")], env=PLAIN, cwd=node.folder, stdin=subprocess.PIPE, stdout=subprocess.PIPE) as shown:
        sign = "! 70 rounds without fresh answers of enough sources in this life: none within"
        frames = frames_of(shown, 3)
        lasted = [float(found[1]) for frame in frames if (found := re.search(re.escape(sign) + r" +(\d+\.\d{3}) (?:ms| s)\n", frame))]
        trial.equal("metric rounds_stale_total", len(lasted), 2)
        write(node.path("status"), stale.replace("} 70\n", "} 71\n").encode())
        rose = [frame for frame in frames_of(shown, 3) if "! 71 rounds" in frame]
        trial.check("metric rounds_stale_total", rose and re.search(r"! 71 rounds without fresh answers of enough sources: the last within +\d+\.\d{3} (ms| s)\n", rose[-1]), f"{rose}")
        trial.check("metric source_packets_unsent_total", rose and "! source 2: 3 packets could not be sent in this life: none within" in rose[-1], f"{rose}")
        for given in (b"x\nyq\n", b"q\n"):
            trial.check("top", shown.poll() is None, "it has ended")
            shown.stdin.write(given)
            shown.stdin.flush()
            time.sleep(1.5)
        trial.equal("top", shown.poll(), 0)
    with subprocess.Popen([trial.program, "top", node.path("node.toml")], env=PLAIN | {"LINES": "5"}, cwd=node.folder, stdin=subprocess.DEVNULL,
                          stdout=subprocess.PIPE) as shown:
        trial.equal("top", [frame.count("\n") for frame in frames_of(shown, 2)], [4, 4])
        shown.kill()


@suite.case()
def top_in_a_terminal(trial):
    """The wrapper takes the size of the terminal, ends at the key q, and leaves the terminal as it was."""
    node = folder_of(trial)
    reading, writing = pty.openpty()
    termios.tcsetwinsize(writing, (9, 120)) if hasattr(termios, "tcsetwinsize") else fcntl.ioctl(writing, termios.TIOCSWINSZ, struct.pack("4H", 9, 120, 0, 0))
    before, said = termios.tcgetattr(writing), b""
    with subprocess.Popen([in_top("packaging/truetime-top"), node.path("node.toml")], env=PLAIN | {"TTD": trial.program, "TERM": "dumb", "NO_COLOR": "1"}, cwd=node.folder, stdin=writing,
                          stdout=writing, stderr=writing, start_new_session=True) as shown:
        while said.count(CLEAR) < 2:
            said += os.read(reading, 65536)
        os.write(reading, b"q")
        trial.equal("truetime-top", shown.wait(10), 0)
    trial.equal("truetime-top", termios.tcgetattr(writing), before)
    frame = said.split(CLEAR)[1].decode().replace("\r", "").splitlines()
    trial.equal("truetime-top", (len(frame), max(map(len, frame))), (9, 120))
    os.close(reading)
    os.close(writing)


@suite.case()
def top_of_pages_that_are_none(trial):
    """An answer with another status than 200 has no numbers, whatever stands there. One that goes on says each time that there is none."""
    for version in ("1.0", "1.1"):
        def refuse(door, line, version=version):
            if line == b"\r\n":
                door.sendall(f"HTTP/{version} 404 Not Found\r\n\r\n# nothing\n".encode())
                door.shutdown(socket.SHUT_RDWR)

        address = trial.keep(Answerer(refuse)).address
        ran = run([trial.program, "top", address, "--once"], env=PLAIN)
        trial.equal("top", ran.answer, ("refused 1501\n", 4))
        trial.check("top", ran.error.startswith(f"ttd: {address}: no answer of HTTP with the status 200\n"), ran.error)
    with subprocess.Popen([trial.program, "top", f"127.0.0.1:{free_port(socket.SOCK_STREAM)}"], env=PLAIN, stdout=subprocess.PIPE) as shown:
        said = b""
        while said.count(b"\n") < 2:
            said += os.read(shown.stdout.fileno(), 65536)
        shown.kill()
    trial.check("top", said.startswith(2 * (CLEAR + b"no status can be read\n")), said)


def pages_that_say(trial, texts):
    """The address of pages with these texts, by their paths."""
    asked = []

    def act(door, line):
        asked.append(line.split()[1].decode() if line.startswith(b"GET ") else asked[-1])
        if line == b"\r\n":
            text = texts[asked[-1]].encode()
            door.sendall(b"HTTP/1.1 200 OK\r\nContent-Length: %d\r\nConnection: close\r\n\r\n" % len(text) + text)
            door.shutdown(socket.SHUT_RDWR)

    return trial.keep(Answerer(act)).address


@suite.case()
def top_without_settings(trial):
    """At an address no `poll` and `wait` are known: a source is silent once its last answer is older than ten seconds."""
    node, port = machine(trial)
    status, evidence = eventually(lambda: (get(port, "/metrics").text, get(port, "/evidence").text))
    for age, wanted in (("9.900000000", 0), ("10.100000000", 1)):
        said = re.sub(r'^(truetime_source_answer_age_seconds\{[^}]*source="3"\}) .*$', rf"\1 {age}", status, flags=re.M)
        address = pages_that_say(trial, {"/metrics": said, "/evidence": evidence})
        ran = run([trial.program, "top", address, "--once"], env=PLAIN)
        lines = [line for line in ran.said.splitlines() if line.startswith("    3 ")]
        trial.equal("top", (age, ran.status, [line.endswith(" silent") for line in lines]), (age, 0, [bool(wanted)]))
    trial.check("top", node.running.poll() is None, "it has ended")


@suite.case()
def top_of_one_that_drips(trial):
    """The whole of an answer may take five seconds. One that comes byte by byte is given up then."""
    def drip(door, line):
        if line == b"\r\n":
            door.sendall(b"HTTP/1.1 200 OK\r\n\r\n")
            for _ in range(300):
                door.sendall(b"#")
                time.sleep(0.1)

    address, began = trial.keep(Answerer(drip)).address, time.monotonic()
    ran = run([trial.program, "top", address, "--once"], env=PLAIN)
    trial.equal("top", ran.answer, ("refused 1501\n", 4))
    trial.check("top", ran.error.startswith(f"ttd: {address}: the answer does not end, or none comes in 5 seconds\n"), ran.error)
    trial.between("top", 4.9, time.monotonic() - began, 15)


@suite.case()
def top_with_settings(trial):
    """By a configuration a source is silent once its last answer is older than three times `poll` and `wait` together."""
    _, port = machine(trial)
    status, evidence = eventually(lambda: (get(port, "/metrics").text, get(port, "/evidence").text))
    other = trial.node(trial.scripts(*[silent] * 5), "B", evidence="evidence", status="status", poll="4s", wait="3s", machine=5)
    write(other.path("evidence"), evidence.encode())
    for age, wanted in (("20.900000000", 0), ("21.100000000", 1)):
        said = re.sub(r'^(truetime_source_answer_age_seconds\{[^}]*source="3"\}) .*$', rf"\1 {age}", status, flags=re.M)
        write(other.path("status"), said.encode())
        ran = run([trial.program, "top", other.path("node.toml"), "--once"], env=PLAIN, cwd=other.folder)
        lines = [line for line in ran.said.splitlines() if line.startswith("    3 ")]
        trial.equal("top", (age, ran.status, [line.endswith(" silent") for line in lines]), (age, 0, [bool(wanted)]))
    write(other.path("evidence"), b"nothing\n")
    ran = run([trial.program, "top", other.path("node.toml"), "--once"], env=PLAIN, cwd=other.folder)
    trial.check("top", ran.error.startswith("ttd: evidence: the text is not the evidence of a publication\n"), ran.error)
    plain = trial.node(trial.scripts(*[silent] * 5), "C", status=other.path("status"), machine=5)
    ran = run([trial.program, "top", plain.path("node.toml"), "--once"], env=PLAIN)
    line = f"ttd: {plain.path('node.toml')}: evidence: there are no bars without the path of a file here\n"
    trial.equal("top", (ran.status, ran.error), (0, line))


@suite.case()
def top_again(trial):
    """Twice a second, as wide as COLUMNS says, with the widths of the looks before, until it is ended."""
    node, port = machine(trial)
    frames, began = b"", time.monotonic()
    with subprocess.Popen([trial.program, "top", f"127.0.0.1:{port}"], env=PLAIN | {"COLUMNS": "100", "LC_ALL": "en_US.UTF-8"},
                          stdout=subprocess.PIPE) as ran:
        while frames.count(CLEAR) < 5 and time.monotonic() < began + 30:
            frames += os.read(ran.stdout.fileno(), 65536)
        lasted = time.monotonic() - began
        ran.kill()
    trial.between("top", 1.9, lasted, 30)
    last = frames.split(CLEAR)[4].decode().splitlines()
    fused = next(line for line in last if line.startswith("fused"))
    trial.equal("top", len(fused[6:].split("  ")[0].rstrip()) <= 49, True)
    width = next(line for line in last if line.startswith("width"))
    trial.check("top", re.search("[▁▂▃▄▅▆▇█]{2,}", width), f"no widths are in {width!r}")


@suite.case()
def top_for_long(trial):
    """The widths of the last looks are drawn, also once there were more of them than are kept."""
    if trial.program.endswith(".unproved"):
        trial.note("350 looks take a program without proofs two minutes, and are left out")
        return
    node, _ = machine(trial)
    text = eventually(lambda: (seen := read_text(node.path("status"))).count("truetime_width_seconds{") and seen)
    node.kill()
    spoils, frames = Spoils(trial.room), b""
    spoils.tell("hasty")
    with subprocess.Popen([trial.program, "top", node.path("node.toml")], env=spoils.environment | {"COLUMNS": "100", "LC_ALL": "C.UTF-8"},
                          cwd=node.folder, stdout=subprocess.PIPE) as ran:
        for seconds, number in (0.001, 310), (0.05, 40):  # and each in its turn is that of so many looks
            write(node.path("status"), re.sub(r"^(truetime_width_seconds\{.*}) .*$", rf"\1 {seconds}", text, flags=re.M).encode())
            while frames.count(CLEAR) < number:
                frames += os.read(ran.stdout.fileno(), 65536)
            *_, whole, frames = frames.split(CLEAR)
        ran.kill()
    width = next(line for line in whole.decode(errors="replace").splitlines() if line.startswith("width"))
    trial.check("top", re.search("[▁▂▃▄]+[▆▇█]{20}", width), f"the last of 350 widths are {width!r}")


# A machine with four sources, one of which is a suspect, and one has never answered. The axis fills 720 units with what lies between 100000 and 108991:
# 13 ns for a unit, from 99480 on.
STATUS = """truetime_epoch{machine="7"} 3
truetime_width_seconds{machine="7"} 0.002500000
truetime_sources{machine="7"} 4
truetime_source_suspect{machine="7",source="2"} 1
truetime_source_answer_age_seconds{machine="7",source="0"} 0.500000000
truetime_source_answer_age_seconds{machine="7",source="1"} 2.000000000
truetime_source_answer_age_seconds{machine="7",source="2"} 4.000000000
"""
EVIDENCE = """faulty 1
span 100000 104000
span 102500 108991
span 200000 200010
span 0 4000000000000000000
claim 102500 104000
"""
# For each of them where its bar begins, and how long it is.
BARS = [(190, 308), (382, 500), (946, 4), None]
FUSED = (382, 116)


def bars_in(document):
    """Of an SVG document: the bars of the sources, those of the fused span, and the texts at the axis."""
    def bar_of(group):
        bars = [(int(bar.get("x")), int(bar.get("width"))) for bar in group.iter() if bar.tag.endswith("rect")]
        return bars[0] if bars else None

    groups = {name: [bar_of(group) for group in document.iter() if (group.get("class") or "").split()[:1] == [name] and group.tag.endswith("}g")]
              for name in ("source", "fused")}
    ticks = [text.text.split() for text in document.iter() if text.get("class") == "tick"]
    return groups["source"], groups["fused"], ticks


@suite.case()
def top_as_svg(trial):
    """One document with a view box: a bar for each span, where the axis has its times."""
    node = folder_of(trial, max_width="2ms")
    ran = run([trial.program, "top", node.path("node.toml"), "--svg"], env=PLAIN | {"LANG": "C.UTF-8"}, cwd=node.folder)
    document = xml.etree.ElementTree.fromstring(ran.said)
    trial.equal("top --svg", (document.tag.endswith("svg"), document.get("viewBox")), (True, "0 0 960 500"))
    trial.equal("top --svg", bars_in(document), (BARS, [FUSED], [["-2.470", "us"], ["+0.130", "us"], ["+2.730", "us"], ["+5.330", "us"]]))
    paths = {path.get("class"): path.get("d") for path in document.iter() if path.tag.endswith("path")}
    trial.equal("top --svg", paths["width"], "M948 450v-150v150m4 0")
    # The limit has 4 fifths of the 150 units of the greatest width.
    trial.equal("top --svg", paths.get("limit"), "M150 330h800")
    states = [text.text for group in document.iter() if (group.get("class") or "").startswith("source") for text in group if text.tag.endswith("text")]
    trial.equal("top --svg", states, ["0", "1", "2 suspect", "3 never"])
    trial.check("top --svg", "prefers-color-scheme: dark" in ran.said and "<script" not in ran.said and "@import" not in ran.said, "what it fetches or runs")


@suite.case()
def page_for_people(trial):
    """A page draws what `top` draws, says how the machine is and how old that is, refreshes itself, and has nothing from elsewhere."""
    node, port = machine(trial)

    def look():
        seen = get(port, "/")
        return seen.text.count(" suspect\">") >= 2 and seen.text.count(" never\">") >= 2 and "<p>ok</p>" in seen.text and seen

    answer = eventually(look, 20)
    trial.check("setting http", answer, f"no page shows the suspect and the one that never answered: {get(port, '/').text[-3000:]}")
    trial.equal("setting http", (answer.words, answer.fields["Content-Type"]), ("200 OK", "text/html; charset=utf-8"))
    trial.equal("setting http", answer.fields.get("Content-Security-Policy"), "default-src 'none'; style-src 'unsafe-inline'")
    document = xml.etree.ElementTree.fromstring(answer.text)
    refresh = [one.get("content") for one in document.iter("meta") if one.get("http-equiv") == "refresh"]
    trial.equal("setting http", refresh, ["2"])
    picture = next(one for one in document.iter() if one.tag.endswith("}svg"))
    sources, fused, ticks = bars_in(picture)
    trial.equal("setting http", ([bar is not None for bar in sources], len(fused), len(ticks)), ([True, True, False, True, True], 1, 4))
    trial.check("setting http", all(150 <= bar[0] and bar[0] + bar[1] <= 950 for bar in [*filter(None, sources), *fused]), f"{sources} {fused}")
    trial.equal("setting http", [row[0].text for row in document.iter("tr")][1:], ["0", "1", "2", "3", "4"])
    said = "".join(document.itertext())
    trial.check("setting http", "machine 5  epoch" in said and re.search(r"status \d{1,4} ms old", said), said[:600])
    trial.equal("setting http", [one.tag for one in document.iter() if one.tag in ("script", "link", "img", "iframe") or one.get("src") or one.get("href")], [])
    # Each three seconds has a width of its own.
    eventually(lambda: re.search(r'class="width" d="[^"]*v-\d+v\d+m4 0v-\d+v\d+m4 0"', get(port, "/").text), 15)
    steps = re.search(r'class="width" d="M(\d+) \d+((?:v-\d+v\d+m4 0)+)"', get(port, "/").text)
    trial.check("setting http", steps and steps[2].count("m4 0") >= 2, "the widths of past seconds are not drawn")
    trial.equal("setting http", steps and int(steps[1]), steps and 952 - 4 * steps[2].count("m4 0"))
    trial.equal("setting http", get(port, "/?a=b").words, "200 OK")


@suite.case()
def top_refused(trial):
    """What is no configuration, names no status, is not there, answers with nothing, or is not the status of a machine."""
    nobody = free_port(socket.SOCK_STREAM)
    masters = trial.scripts(honest)
    without, other, gone = (trial.node(masters, name, status=status) for name, status in (("A", None), ("B", "bad.status"), ("C", "no.status")))
    long = trial.node(masters, "D", status="long.status")
    for name, text in (("bad.status", b"nothing\n"), ("bad.toml", b"machine = 9\n"), ("latin.toml", b"# \xe9\n"),
                       ("long.status", b"#" * 1_048_577), ("long.toml", b"#" * 1_048_577)):
        write(os.path.join(trial.room, name), text)
    for place, number, status, says in (
            (without.path("node.toml"), 1803, 2, "status"), (other.path("node.toml"), 2601, 2, "ttd: bad.status: the text is not the status"),
            (gone.path("node.toml"), 1604, 4, "ttd: no.status: the status can't be read: No such file"), ("bad.toml", 1804, 2, "machine"), ("nowhere", 1604, 4, "nowhere"),
            (long.path("node.toml"), 1603, 2, "ttd: long.status: it is longer than 1048576 bytes\n"),
            ("long.toml", 1603, 2, "ttd: long.toml: it is longer than 1048576 bytes\n"),
            ("latin.toml", 1603, 2, "ttd: latin.toml: it is not UTF-8\n"),
            (f"127.0.0.1:{nobody}", 1501, 4, f"127.0.0.1:{nobody}: Connection refused")):
        ran = run([trial.program, "top", place, "--once"], env=PLAIN, cwd=trial.room)
        trial.equal("top", (place, *ran.answer), (place, f"refused {number}\n", status))
        trial.check("top", says in ran.error and f"refused {number}: " in ran.error, f"{place}: {ran.error}")
