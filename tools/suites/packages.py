"""Makes the Debian packages of the repository and the built program, by packaging/build-deb, and tries them.

- Two builds of one commit, in other folders and by users with other habits, give the same bytes, and lintian says nothing of them.
- Each file is that of the repository, and packaging/install puts the same ones to the same places.
- That of the extension of PostgreSQL is loaded by a server (packages_of_postgres.py).
- In a copy of this host's root, which goes with the case, and by a systemctl that writes down what it is told: the packages are installed,
  upgraded, removed and purged, and what lies there after each is what docs/OPERATING.md says. Nothing is enabled or started, and an
  upgrade stops nothing.
- There a user runs the units' commands with the example of settings, and asks by the clients as installed, in Python and C.
- A machine counts as started once it gives the time, is restarted where it stands still, and reloads good settings alone: by the commands of
  the units, and by a systemd of its own where one can be started (packages_of_units.py). There each file, folder and socket has its owner
  and its mode, and what is killed is started again.
- Each line of the units, and each value of the examples, is one that was meant (packages_of_settings.py).
- packaging/release makes the same of clones at other places, and refuses other versions and pages (packages_of_releases.py).
"""
import contextlib
import glob
import gzip
import os
import re
import shlex
import shutil
import stat
import subprocess
import time
from concurrent.futures import ThreadPoolExecutor

from harness import postgres
from harness.processes import Fault
from harness.program import in_top, read, read_text, run, write
from harness.suite import Suite, wrong_in
from suites.clients_as_installed import SERIES, UNTYPED, VERSION, files_below
from suites.wiring_checks import SETTINGS, eventually

suite = Suite(__name__, longest_s=180, again=1, quick=False, beside_s=160)
# The extension is a package where the headers of its server are, and is installed where the server is.
POSTGRES = "postgresql-15-truetime"
BUILDS = ("dpkg-buildpackage", "dh", "cmake", "git")
TRIES = (*BUILDS, "unshare", "nsenter", "ip", "setpriv", "systemd-sysusers", "systemd-tmpfiles")
UNITS = "lib/systemd/system"
MODULE, SHARED = "usr/lib/python3/dist-packages/truetime", "usr/share/truetime"
PYTHON_CLIENT = "clients/python/truetime"
DOCUMENTS = ("OPERATING", "LIMITS", "UPGRADES", "MASTERS", "FORMATS", "THREATS", "EMBEDDING", "PEERS",
             *(f"reference/{name}" for name in ("alerts", "commands", "crates", "events", "metrics", "refusals", "settings")))
# Where each file of a package is from. What has no place in the repository is made; of the program only the symbols are missing.
FILES = {
    "libtruetime-dev": {
        **{f"usr/include/truetime{name}.h": f"clients/c/truetime{name}.h" for name in ("", "_errors", "_pending", "_session", "_stamper")},
        "usr/share/pkgconfig/truetime.pc": "clients/c/truetime.pc",
        "usr/share/cmake/truetime/truetime-config.cmake": None, "usr/share/cmake/truetime/truetime-config-version.cmake": None,
    },
    "python3-truetime": {
        **{f"{MODULE}/{name}": f"{PYTHON_CLIENT}/{name}" for name in files_below(in_top(PYTHON_CLIENT)) if "__pycache__" not in name},
        f"{MODULE}-{VERSION}.dist-info/METADATA": None, f"{MODULE}-{VERSION}.dist-info/INSTALLER": None,
    },
    "truetime": {
        "usr/bin/ttd": None, "usr/bin/truetime-top": "packaging/truetime-top", "usr/share/man/man1/ttd.1.gz": None,
        "usr/share/man/man1/truetime-top.1.gz": None, "usr/share/man/man5/node.toml.5.gz": None,
        **{f"usr/libexec/truetime/{name}": f"packaging/{name}" for name in ("await", "run", "stands-still")},
        **{f"{UNITS}/{name}": f"packaging/{name}" for name in (
            "truetime@.service", "truetime-master@.service", "truetime-watch@.service", "truetime-watch@.timer")},
        "usr/lib/sysusers.d/truetime.conf": "packaging/truetime.sysusers", "usr/lib/tmpfiles.d/truetime.conf": "packaging/truetime.tmpfiles",
        **{f"{SHARED}/{name}": f"packaging/{name}" for name in ("alerts.yml", "dashboard.json")},
        **{f"usr/share/doc/truetime/examples/{name}": f"packaging/{name}" for name in ("node.toml", "time.master")},
        **{f"usr/share/doc/truetime/{name}.md": None for name in DOCUMENTS},
    },
}
if not postgres.missing_headers():
    FILES[POSTGRES] = {
        "usr/lib/postgresql/15/lib/truetime.so": None,
        **{f"usr/share/postgresql/15/extension/{name}": f"clients/postgres/{name}" for name in ("truetime.control", "truetime--0.4.sql")},
        **{f"usr/share/doc/{POSTGRES}/{name}.md": f"clients/postgres/{name}.md" for name in ("README", "FIVE_MINUTES")},
        f"usr/share/doc/{POSTGRES}/examples/truetime_merge.py": "clients/postgres/merge/truetime_merge.py",
    }
NAMES = sorted(FILES)
OTHERS = [name for name in NAMES if name != POSTGRES]
INSTALLED = OTHERS if postgres.missing() else NAMES
# What each package says of itself. What the program depends on beside, its libraries, debhelper finds.
FIELDS = {
    "libtruetime-dev": {"Architecture": "all", "Multi-Arch": "foreign", "Depends": "", "Suggests": "truetime", "Section": "libdevel"},
    "python3-truetime": {"Architecture": "all", "Depends": "python3 (>= 3.9), python3:any", "Suggests": "truetime", "Section": "python"},
    POSTGRES: {"Recommends": "truetime", "Suggests": "python3-psycopg2", "Section": "database", "Pre-Depends": ""},
    "truetime": {"Recommends": "chrony | time-daemon", "Suggests": "prometheus, prometheus-node-exporter", "Section": "net",
                 "Pre-Depends": "", "Conflicts": ""},
}
PROGRAMS = {"usr/bin/ttd", "usr/bin/truetime-top", *(f"usr/libexec/truetime/{name}" for name in ("await", "run", "stands-still"))}
# What packaging/install leaves to the packages.
NOT_BY_INSTALL = re.compile(r"usr/share/(pkgconfig|cmake)/|usr/lib/python3|usr/(lib|share|share/doc)/postgresql")


def build(trial, folder, **env):
    """The packages, made into a folder."""
    ran = run([in_top("packaging/build-deb"), trial.program, folder], seconds=300, env={**os.environ, **env}, cwd="/")
    if ran.status != 0:
        raise Fault(f"build-deb ends with status {ran.status}: {ran.said[-1500:]}{ran.error[-1500:]}")
    return ran.said.split()


@suite.shares
def built(trial):
    """The packages, and those of a later version."""
    if all(map(shutil.which, BUILDS)):
        with ThreadPoolExecutor() as pool:
            made = [pool.submit(build, trial, f"{trial.room}/now"), pool.submit(build, trial, f"{trial.room}/later", VERSION="99")]
            for one in made:
                one.result()
    yield trial.room


def packages_in(folder):
    """The packages of a folder by their names."""
    return {os.path.basename(path).partition("_")[0]: path for path in sorted(glob.glob(f"{folder}/*.deb"))}


def unpacked(trial, folder):
    """Where the packages of a folder are unpacked."""
    for path in packages_in(folder).values():
        trial.equal(f"unpack {os.path.basename(path)}", run(["dpkg-deb", "-x", path, f"{trial.room}/root"]).status, 0)
    return f"{trial.room}/root"


@suite.case(programs=BUILDS)
def reproducible(trial):
    """The same bytes from another folder, by another umask, time zone and language."""
    os.mkdir(f"{trial.room}/tmp")
    before = os.umask(0o077)
    try:
        build(trial, f"{trial.room}/again", TMPDIR=f"{trial.room}/tmp", TZ="Pacific/Auckland", LC_ALL="de_DE.UTF-8")
    finally:
        os.umask(before)
    first, again = packages_in(f"{trial.shared}/now"), packages_in(f"{trial.room}/again")
    trial.equal("names", list(first), NAMES)
    trial.equal("names of the second build", [os.path.basename(path) for path in again.values()], [os.path.basename(path) for path in first.values()])
    for name in first:
        trial.check(name, read(first[name]) == read(again[name]), "another build gives other bytes")
    trial.equal("left behind", os.listdir(f"{trial.room}/tmp"), [])


@suite.case(programs=(*BUILDS, "lintian"))
def lintian(trial):
    """What lintian says: nothing."""
    ran = run(["lintian", "--allow-root", "--fail-on", "error,warning", *packages_in(f"{trial.shared}/now").values()], seconds=60)
    trial.equal("lintian", (ran.status, ran.said + ran.error), (0, ""))
    overrides = [name for name in files_below(in_top("packaging/debian")) if "overrides" in name]
    trial.equal("overrides", overrides, [])


@suite.case(programs=BUILDS)
def files(trial):
    """The files of each package, and those of packaging/install."""
    for name, path in packages_in(f"{trial.shared}/now").items():
        root = f"{trial.room}/{name}"
        trial.equal(f"unpack {name}", run(["dpkg-deb", "-x", path, root]).status, 0)
        always = {f"usr/share/doc/{name}/changelog.gz", f"usr/share/doc/{name}/copyright"}
        found = {file if os.path.exists(f"{root}/{file}") else f"{file}.gz" for file in FILES[name]}
        trial.equal(f"files of {name}", set(files_below(root)), found | always)
        for file, source in FILES[name].items():
            if source and (f"{file}.gz" in found or file in found):
                content = read(f"{root}/{file}") if file in found else gzip.decompress(read(f"{root}/{file}.gz"))
                trial.check(file, content == read(source), f"it is not {source}")
        trial.equal(f"modes of {name}", wrong_modes(root), {})
        listed = [line.split(None, 2)[:2] for line in run(["dpkg-deb", "-c", path]).said.splitlines()]
        trial.equal(f"owners of {name}", {owner for _, owner in listed}, {"root/root"})
        for field, wanted in FIELDS[name].items():
            trial.equal(f"{field} of {name}", run(["dpkg-deb", "-f", path, field]).said.strip(), wanted)
    try_program(trial, f"{trial.room}/truetime/usr/bin/ttd")
    before = os.umask(0o077)
    try:
        trial.equal("install", run([in_top("packaging/install"), f"{trial.room}/by_hand"], env={**os.environ, "TTD": trial.program}).status, 0)
    finally:
        os.umask(before)
    trial.equal("modes by packaging/install", wrong_modes(f"{trial.room}/by_hand/usr") | wrong_modes(f"{trial.room}/by_hand/etc"), {})
    wanted = {name.removesuffix(".gz").replace(UNITS, f"usr/{UNITS}") for of in FILES.values() for name in of if not NOT_BY_INSTALL.match(name)}
    by_hand = f"{trial.room}/by_hand"
    trial.equal("files of packaging/install", set(files_below(by_hand)), wanted)
    trial.check("folder of packaging/install", os.path.isdir(f"{by_hand}/etc/truetime"), "there is no etc/truetime")
    for file, source in ((file, source) for of in FILES.values() for file, source in of.items() if not NOT_BY_INSTALL.match(file)):
        made = file.removesuffix(".gz").replace(UNITS, f"usr/{UNITS}")
        if os.path.exists(f"{by_hand}/{made}"):
            of_package = f"{trial.room}/truetime/{file}"
            of_package = of_package if os.path.exists(of_package) else f"{of_package}.gz"
            unpack = gzip.decompress if of_package.endswith(".gz") else bytes
            meant = read(source) if source else read(trial.program) if made == "usr/bin/ttd" else unpack(read(of_package))
            trial.check(f"{made} of packaging/install", read(f"{by_hand}/{made}") == meant, f"it is not {source or 'that of the package'}")
    try_module(trial, f"{trial.room}/python3-truetime/{MODULE}-{VERSION}.dist-info")


def wrong_modes(root):
    """The modes of files and folders that are not as they should be: everybody may read, and nobody but the owner write."""
    found = {os.path.relpath(os.path.join(at, name), root): os.lstat(os.path.join(at, name)).st_mode
             for at, folders, names in os.walk(root) for name in (*folders, *names)}
    programs = {name.removeprefix("usr/") if os.path.basename(root) == "usr" else name for name in PROGRAMS}
    return {name: oct(mode) for name, mode in found.items()
            if mode != (stat.S_IFDIR | 0o755 if stat.S_ISDIR(mode) else stat.S_IFREG | (0o755 if name in programs else 0o644))}


# What pip and importlib read of the module.
METADATA = ["Metadata-Version: 2.1", "Name: truetime", f"Version: {VERSION}",
            "Summary: The time with an error bound, read from shared memory, and timestamps for commits", "Requires-Python: >=3.9"]


def try_module(trial, folder):
    """What the package of the module says of itself where Python looks."""
    trial.equal("METADATA", read_text(f"{folder}/METADATA").splitlines(), METADATA)
    trial.equal("INSTALLER", read_text(f"{folder}/INSTALLER"), "debian\n")


def try_program(trial, made):
    """The program of the package: its code and its data are those of the built one. The version is that of VERSION."""
    trial.equal("version", run([made, "--version"]).answer, trial.command("--version").answer)
    for section in (".text", ".rodata", ".data.rel.ro", ".data"):
        for name, path in ("made", made), ("built", trial.program):
            run(["objcopy", "-O", "binary", "--only-section", section, path, f"{trial.room}/{name}"])
        content = read(f"{trial.room}/made")
        trial.check(section, content == read(f"{trial.room}/built"), f"{len(content)} bytes, which are not those of the built program")
    for name, path in packages_in(f"{trial.shared}/now").items():
        found = re.split("[~+]git", run(["dpkg-deb", "-f", path, "Version"]).said)[0]
        trial.equal(f"version of {name}", found, VERSION)


# A path of the source, and what a document says that names some.
OF_SOURCE = re.compile(r"(?<![\w/.-])(?:bench|clients|crates|demo|docs|examples|packaging|tests|tools)/[\w./-]*")
SAYS_SOURCE = re.compile(r"those of the source|[Ii]n a clone")


def documents_below(root):
    """The texts of the documents below a root, by their paths there."""
    below = (name for name in files_below(root) if re.fullmatch(r"usr/share/doc/.*\.md(\.gz)?", name))
    return {name: (gzip.decompress if name.endswith(".gz") else bytes)(read(f"{root}/{name}")).decode() for name in below}


def anchors_of(text):
    """What a link to a heading of this text has behind its #."""
    return {re.sub(r"[^\w -]", "", line.lstrip("# ").lower()).replace(" ", "-") for line in text.splitlines() if line.startswith("#")}


def dead_names(root, texts):
    """What these documents name that is not below this root: links, files and documents. A path of the source is one, and is said to be."""
    for path, text in texts.items():
        for target in re.findall(r"\]\(([^()\s]+)\)", text):
            file, _, anchor = target.partition("#")
            linked = os.path.normpath(os.path.join(os.path.dirname(path), file)) if file else path
            if not re.match("[a-z]+:", target) and (linked not in texts or anchor and anchor not in anchors_of(texts[linked])):
                yield f"{path}: the link {target}"
        for name in re.findall(r"(?<![\w.])/usr/[\w./-]*\w", text):
            if not os.path.exists(f"{root}{name}") and not os.path.exists(name):
                yield f"{path}: the file {name}"
        for name in OF_SOURCE.findall(text):
            if not SAYS_SOURCE.search(text) or not os.path.exists(in_top(name.rstrip("."))) and "/out/" not in name:
                yield f"{path}: the path {name}"
        for name in re.findall(r"(?<![\w/])[A-Z_]+\.md", text):
            if not any(os.path.basename(other) == name for other in texts) and not SAYS_SOURCE.search(text):
                yield f"{path}: the document {name}"


@suite.case(programs=BUILDS)
def names_in_documents(trial):
    """Each link of an installed document leads to another one, each path is one of a file that is there, or of the source, which is said. The words
    are those of the repository."""
    root = unpacked(trial, f"{trial.shared}/now")
    texts = documents_below(root)
    trial.equal("documents", len(texts), len(DOCUMENTS) + 2 * (POSTGRES in FILES))
    yield from dead_names(root, texts)
    for name in DOCUMENTS:
        found, meant = texts[f"usr/share/doc/truetime/{name}.md"].splitlines(), read_text(f"docs/{name}.md").splitlines()
        wrong = [line for line, old in zip(found, meant) if line != old and "](" not in old and "`packaging/" not in old]
        trial.equal(f"lines of {name}", (wrong, [line for line in found[len(meant):] if line and not SAYS_SOURCE.search(line)]), ([], []))
    for wrong in ("[a](LIMIT.md)", "[a](../clients/README.md)", "[a](LIMITS.md#nothing)", "`/usr/share/truetime/alert.yml`", "`tools/chek`", "see SPEEDS.md"):
        page = {**texts, "usr/share/doc/truetime/page.md": wrong}
        trial.check(f"{wrong} that is wrong", len(list(dead_names(root, page))) > len(list(dead_names(root, texts))), "it is not seen")


@suite.case(programs=(*BUILDS, "man"))
def manual(trial):
    """The pages without a warning; that of the settings has each of them, and its example is a valid one."""
    root = unpacked(trial, f"{trial.shared}/now")
    env = {**os.environ, "MANWIDTH": "80", "LC_ALL": "C.UTF-8", "MANROFFSEQ": "", "MAN_KEEP_FORMATTING": ""}
    shown = {}
    for page in ("man1/ttd.1", "man5/node.toml.5"):
        ran = run(["man", "--warnings", "-E", "UTF-8", "-l", f"{root}/usr/share/man/{page}.gz"], env=env)
        trial.equal(f"warnings of {page}", (ran.status, ran.error), (0, ""))
        shown[page] = re.sub(".\b", "", ran.said)
        trial.equal(f"lines of {page} beyond 80 columns", [line for line in shown[page].splitlines() if len(line) > 80], [])
    text = gzip.decompress(read(f"{root}/usr/share/man/man5/node.toml.5.gz")).decode()
    keys = [key for line in re.findall(r"^\.TP\n(\\fB[a-z].*)$", text, re.MULTILINE) for key in re.findall(r"\\fB(\w+)\\fR", line)]
    trial.equal("keys of node.toml.5", keys, [*SETTINGS, "address", "key"])
    for command in re.findall(r"^  ([a-z]+) ", trial.command("--help").said.split("\nOptions:")[0], re.MULTILINE):
        trial.check(f"ttd.1, {command}", command == "help" or f"THE COMMAND {command.upper()}\n" in shown["man1/ttd.1"], "it is missing")
    ran = trial.command("serve", "--check", f"{root}/usr/share/doc/truetime/examples/node.toml")
    trial.equal("the example of settings", (ran.status, ran.error), (0, ""))
    for line in read_text("packaging/node.toml").splitlines():
        trial.check("the example of node.toml.5", line in shown["man5/node.toml.5"], f"{line!r} is not there")
    try_pages(trial, {page: [" ".join(line.split()) for line in text.splitlines()] for page, text in shown.items()})


# The sections of each page, but for those of the commands, and a line that stands in it.
PAGES = {
    "man1/ttd.1": {"NAME": "ttd - time with an error bound, and commit wait", "DESCRIPTION": "", "SEE ALSO": "node.toml(5), OPERATING.md"},
    "man5/node.toml.5": {"NAME": "node.toml - the settings of a machine of the time service", "SYNOPSIS": "ttd serve node.toml", "DESCRIPTION": "",
                         "EXAMPLE": "", "FILES": "/etc/truetime/NAME.toml", "SEE ALSO": "ttd(1), OPERATING.md"},
}


def try_pages(trial, shown):
    """The sections of the pages, and the whole help of the program and of each command in the first one."""
    for page, sections in PAGES.items():
        found = [line for line in shown[page] if re.fullmatch("[A-Z ]+", line) and not line.startswith("THE COMMAND ")]
        trial.equal(f"sections of {page}", found, list(sections))
        text = " ".join(shown[page])
        for section, line in sections.items():
            behind = text.partition(f" {section} ")[2]
            trial.check(f"{section} of {page}", behind.startswith(line), f"it begins with {behind[:80]!r}")
        version = trial.command("--version").said.strip()
        trial.check(f"foot of {page}", shown[page][-1].startswith(version), f"{shown[page][-1]!r} does not begin with {version!r}")
        trial.check(f"where {page} reads on", "and the pages that it names, in /usr/share/doc/truetime" in text, text[-200:])
    for words in ([], *([command] for command in re.findall(r"^THE COMMAND ([A-Z]+)$", "\n".join(shown["man1/ttd.1"]), re.MULTILINE))):
        for line in trial.command(*map(str.lower, words), "--help").said.splitlines():
            trial.check(f"ttd.1, help of {words}", " ".join(line.split()) in " ".join(shown["man1/ttd.1"]), f"{line!r} is not there")


# A host.

class Host:
    """A copy of this host's root with a network of its own, which goes with the process that holds it. Its systemctl writes down what it is
    told. What is written lies in `upper`, as seen from the mounts of that process."""
    MOUNTS = """
        set -e
        mount -t tmpfs none "$1"
        mkdir "$1/upper" "$1/work" "$1/root"
        mount -t overlay none -o "lowerdir=/,upperdir=$1/upper,workdir=$1/work" "$1/root"
        mount --bind /proc "$1/root/proc"
        mount --rbind /dev "$1/root/dev"
        rm -rf "$1/root/usr/sbin/policy-rc.d" "$1/root/etc/truetime" "$1/root/var/lib/truetime" "$1/root/run/truetime"
        printf '#!/bin/sh\\necho "$*" >>/systemctl.log\\n' >"$1/root/usr/bin/systemctl"
        chmod 755 "$1/root/usr/bin/systemctl"
        mkdir -p "$1/root/run/systemd/system"
        ip link set lo up
        : >"$1/root/systemctl.log"
        echo ready
        exec sleep 600
    """

    #: The environment of its commands.
    CLEAN = ["env", "-i", "PATH=/usr/sbin:/usr/bin:/sbin:/bin", "HOME=/root", "LC_ALL=C.UTF-8", "DEBIAN_FRONTEND=noninteractive"]

    def __init__(self, room):
        self.top = f"{room}/host"
        os.mkdir(self.top)
        self.holder = subprocess.Popen(["unshare", "--mount", "--net", "sh", "-c", self.MOUNTS, "sh", self.top], stdout=subprocess.PIPE,
                                       stderr=subprocess.PIPE)
        if self.holder.stdout.readline() != b"ready\n":
            self.holder.wait()
            raise Fault(f"no copy of the root: {self.holder.stderr.read().decode().strip()}")
        #: What stands before a command that runs there.
        self.enter = ["nsenter", f"--mount=/proc/{self.holder.pid}/ns/mnt", f"--net=/proc/{self.holder.pid}/ns/net"]
        self.inside = [*self.enter, "chroot", f"{self.top}/root", *self.CLEAN]
        #: The same as files of this process.
        self.root = f"/proc/{self.holder.pid}/root{self.top}/root"

    def close(self):
        self.holder.kill()
        self.holder.wait()
        self.holder.stdout.close()
        self.holder.stderr.close()

    def do(self, *words, **how):
        return run([*self.inside, *words], seconds=60, **how)

    def dpkg(self, trial, what, *words):
        """Calls dpkg, which has to succeed; what systemctl was told, but to read its files again, which it has to be unless all is purged."""
        write(f"{self.root}/systemctl.log", b"")
        ran = self.do("dpkg", *words)
        trial.check(what, ran.status == 0, f"status {ran.status}\n{ran.said[-1500:]}{ran.error[-1500:]}")
        told = read_text(f"{self.root}/systemctl.log").splitlines()
        trial.check(f"units, at the {what}", "--system daemon-reload" in told or what == "purge", f"they are not read again: {told}")
        return [line for line in told if line not in ("daemon-reload", "--system daemon-reload")]

    def bring(self, folder, names=tuple(OTHERS)):
        """Copies packages of a folder to it; their paths there."""
        os.makedirs(f"{self.root}/debs", exist_ok=True)
        paths = [path for name, path in packages_in(folder).items() if name in names]
        return [os.path.join("/debs", os.path.basename(shutil.copy(path, f"{self.root}/debs"))) for path in paths]

    def written(self):
        """Each file and folder that was written there and is still there, but for what dpkg and its triggers keep for themselves."""
        own = re.compile(r"(systemctl\.log|debs|proc|dev|tmp|var/(lib/(dpkg|systemd)|log|cache)|run/systemd)(/|$)"
                         r"|etc/((passwd|group|shadow|gshadow)-?|\.pwd\.lock)$|usr/bin/systemctl$|usr/share/python3/.*")
        ran = run([*self.enter, "find", f"{self.top}/upper", "!", "-type", "c", "-printf", "%P\\n"])
        return {name for name in ran.said.splitlines() if name and not own.match(name)}

    def exists(self, path):
        return os.path.lexists(f"{self.root}/{path}")


def host_of(trial):
    """A host, or nothing where none can be made here; that is noted."""
    try:
        return trial.keep(Host(trial.room))
    except Fault as fault:
        trial.note(f"left out: {fault}")
        return None


@contextlib.contextmanager
def running(words):
    """A command that runs as long as this lasts."""
    process = subprocess.Popen(words, stdin=subprocess.DEVNULL, stdout=subprocess.DEVNULL, stderr=subprocess.DEVNULL)
    try:
        yield process
    finally:
        process.kill()
        process.wait()


EPOCH, ENABLED = "var/lib/truetime/a/epoch", "etc/systemd/system/multi-user.target.wants/truetime@a.service"
CONFIGURED = "etc/truetime/a.toml"
KEPT = {EPOCH, ENABLED, CONFIGURED}
# What is there while a master is enabled and a machine runs: a purge takes it away, too.
OF_MASTER = {"etc/systemd/system/multi-user.target.wants/truetime-master@time.service", "run/truetime-master/time/status.prom",
             "run/truetime/a/time"}


@suite.case(root=True, programs=TRIES)
def life(trial):
    """Installed, upgraded, removed and purged."""
    if not (host := host_of(trial)):
        return
    told = host.dpkg(trial, "install", "-i", *host.bring(f"{trial.shared}/now", INSTALLED))
    trial.equal("systemctl, at the installation", told, [])
    of_all = {file for name in INSTALLED for file in FILES[name]}
    trial.equal("files that are missing", [name for name in of_all if not host.exists(name) and not host.exists(f"{name}.gz")], [])
    trial.equal("user", host.do("id", "-un", "truetime").said, "truetime\n")
    if host.do("sh", "-c", "command -v py3compile").status == 0:
        trial.check("module", host.exists(f"{MODULE}/__pycache__"), "it is not compiled")
    trial.equal("folders", host.do("stat", "-c", "%U %a %n", "/etc/truetime", "/var/lib/truetime", "/run/truetime").said,
                "root 755 /etc/truetime\nroot 755 /var/lib/truetime\nroot 755 /run/truetime\n")
    trial.equal("enabled", {name for name in host.written() if name.startswith("etc/systemd/")}, set())
    for name in KEPT:
        os.makedirs(os.path.dirname(f"{host.root}/{name}"), exist_ok=True)
    write(f"{host.root}/{EPOCH}", b"tt-epoch 1 7\n")
    write(f"{host.root}/{CONFIGURED}", read("packaging/node.toml"))
    os.symlink(f"/{UNITS}/truetime@.service", f"{host.root}/{ENABLED}")
    for name in OF_MASTER:
        os.makedirs(os.path.dirname(f"{host.root}/{name}"), exist_ok=True)
        write(f"{host.root}/{name}", b"")
    try_upgrade(trial, host)
    told = host.dpkg(trial, "remove", "-r", *INSTALLED)
    trial.equal("systemctl, at the removal", told, ["stop truetime@*.service truetime-master@*.service"])
    trial.equal("kept by the removal", {name for name in KEPT if host.exists(name)}, KEPT)
    trial.equal("files behind the removal", {name for name in {MODULE, *of_all} if host.exists(name) or host.exists(f"{name}.gz")}, set())
    host.dpkg(trial, "purge", "-P", *INSTALLED)
    left = {name for name in host.written() if not os.path.isdir(f"/{name}")}
    trial.equal("behind the purge", left - {os.path.dirname(ENABLED)}, {os.path.dirname(CONFIGURED), CONFIGURED})
    trial.equal("user behind the purge", host.do("id", "-un", "truetime").said, "truetime\n")
    trial.note(f"installed, upgraded, removed and purged; {len(trial.result.wrong)} wrong")


def try_upgrade(trial, host):
    """An upgrade to the later version, through which a master goes on by the old program."""
    with running([*host.inside, "ttd", "master", "--source", "0", "--listen", "127.0.0.1:5701", "--uncertainty", "1000000"]) as master:
        eventually(lambda: os.readlink(f"/proc/{master.pid}/exe").endswith("/usr/bin/ttd"))
        told = host.dpkg(trial, "upgrade", "-i", *host.bring(f"{trial.shared}/later", INSTALLED))
        trial.equal("systemctl, at the upgrade", told, [])
        versions = host.do("dpkg-query", "-W", "-f", "${Version} ${db:Status-Status}\n", *INSTALLED).said.splitlines()
        trial.equal("versions", versions, ["99 installed"] * len(INSTALLED))
        exe = os.readlink(f"/proc/{master.pid}/exe")
        trial.check("a master goes on through the upgrade", master.poll() is None and exe.endswith("/usr/bin/ttd (deleted)"), exe)
    trial.equal("kept by the upgrade", {name for name in KEPT if host.exists(name)}, KEPT)
    write(f"{host.root}/systemctl.log", b"")
    ran = host.do("/var/lib/dpkg/info/truetime.postrm", "upgrade", "0.2")
    told = read_text(f"{host.root}/systemctl.log").splitlines()
    trial.equal("systemctl, behind the units of a version that reads none again", (ran.status, told), (0, ["--system daemon-reload"]))


# A user of what is installed.

PYTHON = """
import importlib.metadata, pwd, truetime
assert truetime.__file__ == "/usr/lib/python3/dist-packages/truetime/__init__.py", truetime.__file__
with truetime.Client("/run/truetime/a/time", owner=pwd.getpwnam("truetime").pw_uid) as client:
    now = client.now()
with truetime.Session(("127.0.0.1", 5601), 10) as session:
    stamp = session.commit()
print(importlib.metadata.version("truetime"), now.earliest_ns < now.latest_ns < stamp + 10**9)
"""
C = """
#include <pwd.h>
#include <stdio.h>
#include <truetime.h>
#include <truetime_session.h>
#include <truetime_stamper.h>

int main(void) {
    tt_client client;
    tt_reading now;
    const struct passwd *user = getpwnam("truetime");
    if (!user || tt_open(&client, "/run/truetime/a/time", user->pw_uid) != 0 || tt_now(&client, &now) != 0) return 1;
    tt_close(&client);
    return puts(now.earliest_ns < now.latest_ns ? "right" : "wrong") < 0;
}
"""
CMAKE = """
cmake_minimum_required(VERSION 3.14)
project(user LANGUAGES C)
find_package(truetime SERIES REQUIRED CONFIG)
add_executable(user user.c)
target_link_libraries(user PRIVATE truetime::truetime)
"""
USER = ["setpriv", "--reuid=truetime", "--regid=truetime", "--clear-groups"]


def succeeds(trial, host, what, *words, wanted=None):
    """A command there that has to succeed, without a word on standard error."""
    ran = host.do(*words)
    trial.check(what, ran.status == 0 and not ran.error and wanted in (None, ran.said), f"status {ran.status}\n{ran.said}{ran.error}")
    return ran.said


def words_of(command):
    """The words of a command of a unit."""
    return [word.replace("$$", "$") for word in shlex.split(command)]


def units_of(trial, host):
    """The commands that the units start, and that systemd takes both."""
    found = {}
    for unit in ("truetime@.service", "truetime-master@.service", "truetime-watch@.service", "truetime-watch@.timer"):
        if shutil.which("systemd-analyze"):
            succeeds(trial, host, f"verify {unit}", "systemd-analyze", "verify", f"/{UNITS}/{unit}")
        if command := re.search("^ExecStart=(.*)$", read_text(f"{host.root}/{UNITS}/{unit}"), re.MULTILINE):
            found[unit.partition(".")[0]] = command[1]
    return found


@suite.case(root=True, programs=(*TRIES, "cc", "make"))
def use(trial):
    """From the packages to a first answer: the example of settings and the commands of the units, by the user and in the folders of these."""
    if not (host := host_of(trial)):
        return
    ran = host.do("apt-get", "install", "-y", "--no-install-recommends", *host.bring(f"{trial.shared}/now"))
    trial.check("apt-get install", ran.status == 0, f"status {ran.status}\n{ran.said[-1500:]}{ran.error[-1500:]}")
    units = units_of(trial, host)
    succeeds(trial, host, "settings", "cp", "/usr/share/doc/truetime/examples/node.toml", "/etc/truetime/a.toml")
    for folder, mode in ("/var/lib/truetime/a", "0700"), ("/run/truetime/a", "0755"):  # as the unit of systemd makes them
        succeeds(trial, host, folder, "install", "-d", "-o", "truetime", "-g", "truetime", "-m", mode, folder)
    with contextlib.ExitStack() as processes:
        for source in range(3):
            words = units["truetime-master@"].replace("${SOURCE}", str(source)).replace("${LISTEN}", f"127.0.0.1:570{source + 1}")
            words = words.replace("$TIME $UNCERTAINTY $OPTIONS", "--uncertainty 1000000")
            processes.enter_context(running([*host.inside, *USER, *words_of(words)]))
        processes.enter_context(running([*host.inside, *USER, *words_of(units["truetime@"].replace("%i", "a"))]))
        eventually(lambda: all(host.exists(f"run/truetime/a/{name}") for name in ("time", "status.prom", "evidence")), 10)
        before = time.time_ns()
        earliest, latest = (*succeeds(trial, host, "ask", "ttd", "ask", "127.0.0.1:5601", "now").split()[1:], 0, 0)[:2]
        trial.check("now", before <= int(latest) and int(earliest) <= time.time_ns(), f"{earliest} {latest}, asked at {before}")
        trial.check("read", succeeds(trial, host, "read", "ttd", "read", "/run/truetime/a/time").startswith("now "), "it gives no time")
        trial.check("socket", host.do(*USER, "ttd", "ask", "/run/truetime/a/socket", "now").said.startswith("now "), "it gives no time")
        succeeds(trial, host, "Python", "python3", "-W", "error", "-c", PYTHON, wanted=f"{VERSION} True\n")
        try_c(trial, host)
    succeeds(trial, host, "types", "python3", "-c", UNTYPED, wanted="")


def try_c(trial, host):
    """A program by pkg-config, and by CMake."""
    os.makedirs(f"{host.root}/c", exist_ok=True)
    write(f"{host.root}/c/user.c", C.encode())
    write(f"{host.root}/c/CMakeLists.txt", CMAKE.replace("SERIES", SERIES).encode())
    succeeds(trial, host, "cmake", "cmake", "-S", "/c", "-B", "/c/out")
    succeeds(trial, host, "cmake --build", "cmake", "--build", "/c/out")
    succeeds(trial, host, "the program by CMake", "/c/out/user", wanted="right\n")
    if not shutil.which("pkg-config"):
        trial.note("pkg-config is left out: it is not here")
        return
    succeeds(trial, host, "cc", "sh", "-c", "cc -Wall -Wextra -Werror -std=gnu11 /c/user.c $(pkg-config --cflags --libs truetime) -o /c/user")
    succeeds(trial, host, "pkg-config", "pkg-config", "--modversion", "truetime", wanted=f"{VERSION}\n")
    succeeds(trial, host, "the program by pkg-config", "/c/user", wanted="right\n")


@suite.last_line
def last_line(results):
    return f"{sum(len(result.checks) for result in results)} checks, {wrong_in(results)} wrong"
