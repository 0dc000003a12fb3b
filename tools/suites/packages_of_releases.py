"""What packaging/release makes of copies of the repository at other places, and what it refuses. The program stands for one without proofs."""
import hashlib
import io
import os
import re
import shutil
import tarfile
import zipfile
from concurrent.futures import ThreadPoolExecutor

from harness.processes import Fault
from harness.program import TOP, in_top, read, read_text, run, write
from suites.clients import go_in
from suites.clients_as_installed import VERSION
from suites.packages import NAMES, suite

# The commits of the copies are the same, whoever runs this and whenever.
ENV = {**os.environ, "GIT_CONFIG_GLOBAL": "/dev/null", "GIT_CONFIG_NOSYSTEM": "1", "MAINTAINER": "Nobody <nobody@example.org>",
       **{f"GIT_{who}_{what}": text for who in ("AUTHOR", "COMMITTER")
          for what, text in (("NAME", "Nobody"), ("EMAIL", "nobody@example.org"), ("DATE", "1700000001 +0000"))}}
# What is left out where a tool is missing, by the words that say so.
MADE = {
    "Debian packages": [f"{name}_{VERSION}~unproved" for name in NAMES], "the image": [f"truetime-image-{VERSION}~unproved.tar"],
    "the crate": [f"truetime-{VERSION}.crate"], "the jar": [f"truetime-{VERSION}.jar", f"truetime-{VERSION}.pom"],
    "": [f"truetime-{name}" for name in (f"{VERSION}-py3-none-any.whl", f"{VERSION}.tar.gz", f"c-{VERSION}.tar.gz", f"go-{VERSION}.zip")],
}
#: Where the version stands, and another one that is none of VERSION.
OTHERS = {
    "CHANGELOG.md": (f"## {VERSION}", "## 0.0.1"), "clients/c/CMakeLists.txt": (f"VERSION {VERSION}", "VERSION 0.0.1"),
    "clients/c/truetime.pc": (VERSION, "0.0.1"), "clients/java/pom.xml": (f"<version>{VERSION}", "<version>0.0.1"),
    "clients/python/pyproject.toml": (f'version = "{VERSION}"', 'version = "0.0.1"'),
    "clients/python/truetime/__init__.py": (f'__version__ = "{VERSION}"', '__version__ = "0.0.1"'),
    "clients/rust/Cargo.toml": (f'version = "{VERSION}"', 'version = "0.0.1"'),
    "clients/valkey/truetime.c": ("#define VERSION ", "#define VERSION 1"),
    **{f"crates/{name}": (f'"{VERSION} (', '"0.0.1 (')
       for name in ("tt_status/specs/Metric.antt", "tt_status/src/metrics.rt")},
    "clients/postgres/truetime.control": ("default_version = '", "default_version = '9"), "VERSION": (VERSION, f"0{VERSION}"),
}


def git(folder, *words, env=None):
    ran = run(["git", "-C", folder, *words], env=env or ENV)
    if ran.status != 0:
        raise Fault(f"git {' '.join(words)}: {ran.error}")
    return ran.said


def copied(trial, folder):
    """A clone of one commit, which has what git tracks or might track here, and the program."""
    for name in filter(None, git(TOP, "ls-files", "-z", "--cached", "--others", "--exclude-standard", env=os.environ).split("\0")):
        if os.path.lexists(in_top(name)):
            os.makedirs(os.path.dirname(f"{folder}/{name}"), exist_ok=True)
            shutil.copy2(in_top(name), f"{folder}/{name}", follow_symlinks=False)
    git(folder, "init", "-q")
    git(folder, "add", "-A", "-f")
    git(folder, "commit", "-q", "-m", "A release")
    os.makedirs(f"{folder}/crates/ttd/out", exist_ok=True)
    shutil.copy(trial.program, f"{folder}/crates/ttd/out/ttd.unproved")
    return folder


def made_of(clone, *words, umask="022", **env):
    """What came of it, in a clone."""
    return run(["sh", "-c", 'umask "$0"; exec "$@"', umask, f"{clone}/packaging/release", "--unproved", *words], seconds=150, cwd="/",
               env={**ENV, **env})


@suite.case(programs=("git", "python3"))
def release(trial):
    """The same bytes from clones at other places, by other habits."""
    room = trial.room
    os.makedirs(f"{room}/elsewhere/tmp")
    one = copied(trial, f"{room}/one")
    other = shutil.copytree(one, f"{room}/elsewhere/a longer name", symlinks=True)
    with ThreadPoolExecutor() as pool:
        first = pool.submit(made_of, one, f"{room}/first")
        second = pool.submit(made_of, other, f"{room}/elsewhere/second", umask="077", TZ="Pacific/Auckland", LC_ALL="de_DE.UTF-8",
                             TMPDIR=f"{room}/elsewhere/tmp")
        first, second = first.result(), second.result()
    for name, ran in ("first", first), ("second", second):
        trial.check(f"the {name} run", ran.status == 0, f"status {ran.status}\n{ran.said[-1000:]}{ran.error[-1500:]}")
    if trial.result.wrong:
        return
    trial.equal("left behind", os.listdir(f"{room}/elsewhere/tmp"), [])
    try_sums(trial, f"{room}/first", f"{room}/elsewhere/second")
    try_names(trial, f"{room}/first", first.error)
    try_clients(trial, f"{room}/first")


def try_sums(trial, first, second):
    """The sums are those of the files, and each file is the same in both."""
    listed = dict(reversed(line.split("  ")) for line in read_text(f"{first}/SHA256SUMS").splitlines())
    trial.equal("files of SHA256SUMS", {*listed, "SHA256SUMS"}, set(os.listdir(first)))
    trial.equal("files of the second run", set(os.listdir(second)), set(os.listdir(first)))
    for name, digest in listed.items():
        trial.equal(f"sum of {name}", digest, hashlib.sha256(read(f"{first}/{name}")).hexdigest())
        trial.check(f"{name} of another run", read(f"{first}/{name}") == read(f"{second}/{name}"), "it has other bytes")


def try_names(trial, folder, said):
    """All is there that is not left out; that is noted."""
    wanted = {"SHA256SUMS", *(name for names in MADE.values() for name in names)}
    for line in re.findall("^release: (.*: left out, .*)$", said, re.MULTILINE):
        trial.note(line)
        what, _, tool = re.fullmatch(r"(.*?): left out, since (this )?(\S+) .*", line).groups()
        trial.check(line, line.endswith(" --date") or line.endswith(" --exclude-lockfile") or not shutil.which(tool), f"{tool} is here")
        wanted -= set(MADE[what])
    trial.equal("names", {re.sub(r"_[a-z0-9]+\.deb$", "", name) for name in os.listdir(folder)}, wanted)


def try_clients(trial, folder):
    """What the tools of each language read of its archive."""
    ran = run(["python3", "-B", "-c", "import importlib.metadata as data, truetime; print(truetime.__version__, data.version('truetime'))"],
              env={**os.environ, "PYTHONPATH": f"{folder}/truetime-{VERSION}-py3-none-any.whl"}, cwd=trial.room)
    trial.equal("the wheel", (ran.said, ran.error), (f"{VERSION} {VERSION}\n", ""))
    with tarfile.open(fileobj=io.BytesIO(read(f"{folder}/truetime-c-{VERSION}.tar.gz"))) as archive:
        for name in ("truetime.h", "CMakeLists.txt"):
            content = archive.extractfile(f"truetime-c-{VERSION}/{name}").read()
            trial.check(f"{name} of the headers", content == read(f"clients/c/{name}"), "it is not that of the repository")
    if os.path.exists(jar := f"{folder}/truetime-{VERSION}.jar"):
        said = run(["jar", "--describe-module", "--file", jar], seconds=60).said
        trial.check("the jar", said.startswith(f"io.truetime@{VERSION} "), said)
    try_go(trial, f"{folder}/truetime-go-{VERSION}.zip")


def try_go(trial, path):
    """Go takes the module from a folder of the form of a proxy."""
    with zipfile.ZipFile(path) as archive:
        [name] = [name for name in archive.namelist() if name.endswith("/go.mod")]
        mod = archive.read(name)
    module, _, version = name.removesuffix("/go.mod").rpartition("@")
    trial.equal("the module of Go", (module, version), (read_text("clients/go/truetime/go.mod").split()[1], f"v{VERSION}"))
    if not shutil.which("go"):
        trial.note("what Go makes of its module is left out: go is not here")
        return
    proxy = f"{trial.room}/proxy/{module}/@v"
    os.makedirs(proxy)
    shutil.copy(path, f"{proxy}/{version}.zip")
    write(f"{proxy}/{version}.mod", mod)
    write(f"{proxy}/{version}.info", f'{{"Version": "{version}"}}'.encode())
    env = go_in(trial.room, GOPROXY=f"file://{trial.room}/proxy", GOFLAGS="-modcacherw")
    ran = run(["go", "mod", "download", f"{module}@{version}"], seconds=60, env=env, cwd=trial.room)
    trial.equal("go mod download", (ran.status, ran.error), (0, ""))


@suite.case(programs=("git", "python3"))
def refused_release(trial):
    """Nothing is made of what is not as VERSION and the generators say, or is not committed."""
    clone = copied(trial, f"{trial.room}/clone")

    def refuses(name, *words, said):
        ran = made_of(clone, *words, f"{trial.room}/refused")
        trial.check(name, ran.status == 1 and all(text in ran.error for text in said), f"status {ran.status}\n{ran.said}{ran.error}")
        trial.check(f"{name}: nothing is made", not os.path.exists(f"{trial.room}/refused"), "it is there")

    refuses("a tag", "--tag", said=["without proofs"])
    ran = made_of(clone, f"{clone}/out")
    trial.check("a folder in the clone", ran.status == 1 and "in the clone" in ran.error, ran.error)
    write(f"{clone}/new", b"")
    refuses("a change", said=["not committed", "new"])
    os.remove(f"{clone}/new")
    for name, (old, new) in OTHERS.items():
        text = read_text(f"{clone}/{name}")
        write(f"{clone}/{name}", text.replace(old, new, 1).encode())
        ran = run([f"{clone}/tools/versions"])
        trial.check(f"another version in {name}", ran.status == 1 and ran.said.startswith(f"{name}: ") and ran.said.count("\n") == 1, ran.said)
        if name == "clients/java/pom.xml":
            git(clone, "commit", "-q", "-a", "-m", "Another version")
            refuses("another version", said=[f"{name}: it has 0.0.1"])
        write(f"{clone}/{name}", text.encode())
    with open(f"{clone}/docs/reference/settings.md", "a", encoding="utf-8") as file:
        file.write("By hand.\n")
    git(clone, "commit", "-q", "-a", "-m", "The version again, and another page")
    refuses("another page", said=["docs/reference/settings.md"])
