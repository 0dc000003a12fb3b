"""Tests the clients of clients/ as their users get them, without a network: the wheel and the source package of Python in a virtual
environment, the crate that cargo packages, a jar of what java/pom.xml names, the headers that CMake installs, found by pkg-config and by
find_package, and the module of Go by `replace`. Each example of clients/README.md, and that of README.md, is compiled against what was
installed, and run beside a stand-in: a file of one publication, and a service that releases each commit at its second line.

What is not installed here is left out, with a line that says so. All of it is made in temporary folders, from a copy of clients/.
"""
import contextlib
import glob
import os
import re
import shutil
import socketserver
import sys
import threading
import typing
from xml.etree import ElementTree

from harness.program import WARNINGS, in_top, read, read_text, run, write
from harness.shared_file import MONOTONIC, RAW, boot_id, file_of
from harness.suite import Suite, wrong_in
from suites.clients import clock_shows, go_in, has_go, has_tokio, registry_for_cargo

suite = Suite(__name__, at_once=4, quick=False, beside_s=13)
CLIENTS = in_top("clients")
VERSION = read_text("VERSION").strip()
SERIES = VERSION.rpartition(".")[0]
POM = "{http://maven.apache.org/POM/4.0.0}"
# What examples name, and what stands in its place.
FILE, PORT, OWNER = "/run/truetime/time", "5601", '"truetime"'
LO, WIDTH = 10**9, 10
# What a build leaves in a folder is not copied.
BUILT = shutil.ignore_patterns("__pycache__", "build", "dist", "target", "*.egg-info", "Cargo.lock")


def succeeds(trial, what, words, may_warn="", **how):
    """A command that has to succeed without a warning, but for one that has this text; what came of it."""
    ran = run(words, **{"seconds": 60, **how})
    said = ran.said + ran.error
    warnings = [line for line in said.splitlines() if "warning" in line.lower() and not (may_warn and may_warn in line)]
    trial.check(what, ran.status == 0 and not warnings, f"status {ran.status}\n{said[-2000:]}")
    return ran


def is_here(trial, program, what):
    """Whether a program is here; what stays out without it is noted."""
    if shutil.which(program) is None:
        trial.note(f"{what} is left out: {program} is not here")
    return shutil.which(program) is not None


def files_below(folder):
    """All files of a folder."""
    return sorted(os.path.relpath(os.path.join(at, name), folder) for at, _, names in os.walk(folder) for name in names)


@contextlib.contextmanager
def copied(trial):
    """A copy of clients/. Nothing may be written into clients/ itself."""
    before = files_below(CLIENTS)
    yield shutil.copytree(CLIENTS, os.path.join(trial.room, "clients"), symlinks=True, ignore=BUILT)
    trial.equal("files of clients/", files_below(CLIENTS), before)


# Examples.

class Example(typing.NamedTuple):
    """An example of a document, without its indent."""
    text: str

    @property
    def is_run(self):
        """Whether there is a stand-in for all that it asks for, and the file has the owner that it names."""
        return os.geteuid() == 0

    def beside(self, stand_in):
        """Its text with the file and the port of the stand-in."""
        named = self.text.replace(FILE, stand_in.file).replace(PORT, str(stand_in.server_address[1]))
        return named.replace(OWNER, '"root"') if self.is_run else self.text


def examples_in(document, heading):
    """The examples of a part of a document that are indented, whole ones: a blank line within one belongs to it."""
    part = re.split(rf"\n##+ {re.escape(heading)}\n", read_text(document))[1].split("\n##")[0]
    return [Example(re.sub("^    ", "", block, flags=re.MULTILINE)) for block in re.findall(r"(?:^    .*\n(?:\n+(?=    ))?)+", part, re.MULTILINE)]


class Session(socketserver.StreamRequestHandler):
    """A session of the stand-in."""

    def handle(self):
        waiting = set()
        for line in self.rfile:
            self.server.came.append(line.decode().strip())
            name, number = (line.decode().split() + ["", ""])[:2]
            if name == "commit":
                self.wfile.write(f"{'committed' if number in waiting else 'waiting'} {number} 200\n".encode())
                waiting.add(number)
            else:
                self.wfile.write(b"now 5 15\n" if name == "now" else b"refused 1101\n")


class StandIn(socketserver.ThreadingTCPServer):
    """A stand-in for a machine, which keeps the lines that come."""
    daemon_threads = True

    def __init__(self, room):
        super().__init__(("127.0.0.1", 0), Session)
        self.came, self.file = [], os.path.join(room, "time")
        self.clocks, always = {clock: clock_shows(clock) for clock in (RAW, MONOTONIC)}, 2**64 - 1
        second = (self.clocks[MONOTONIC], LO, LO + WIDTH, 0, always, always)
        write(self.file, file_of(1, (self.clocks[RAW], LO, LO + WIDTH, always, always, 7, 1, 0), boot_id(), RAW, second))
        os.chmod(self.file, 0o644)
        threading.Thread(target=self.serve_forever, args=(0.02,), daemon=True).start()

    def passed(self):
        """How long it has been there, by the clock that goes faster."""
        return max(clock_shows(clock) - then for clock, then in self.clocks.items())

    def __exit__(self, *words):
        self.shutdown()
        super().__exit__(*words)


def try_example(trial, what, example, stand_in, words, **how):
    """Runs an example: a reading has to be that of the file, a stamp one by it, and a commit released. What could not be built is not run."""
    if not example.is_run:
        trial.note(f"{what}: compiled only")
    if not example.is_run or shutil.which(words[0]) is None:
        return
    stand_in.came.clear()
    ran = succeeds(trial, what, words, **how)
    if FILE in example.text:
        readings = [(int(earliest), int(latest)) for earliest, latest in re.findall(r"^(\d+) (\d+)$", ran.said, re.MULTILINE)]
        passed = stand_in.passed()
        is_right = len(readings) == 1 and LO <= readings[0][0] == readings[0][1] - WIDTH <= LO + passed
        trial.check(f"{what}: the reading", is_right, f"{ran.said!r}")
        stamps = [int(stamp) for stamp in re.findall(r"^(\d+)$", ran.said, re.MULTILINE)]
        is_right = len(stamps) == 1 and readings and readings[0][1] <= stamps[0] <= LO + WIDTH + passed
        trial.check(f"{what}: the stamp", is_right, f"{ran.said!r}")
    if PORT in example.text:
        trial.check(f"{what}: the commit", stand_in.came.count("commit 1 0") == 2, f"these lines came: {stand_in.came}")


def note_examples(trial, examples, rest):
    """What was tried of a language."""
    trial.holds(examples, "there is no example")
    number = sum(example.is_run for example in examples)
    trial.note(f"{rest}; examples compiled: {len(examples)}, run: {number}; {len(trial.result.wrong)} wrong")


# The versions.

@suite.case()
def versions(trial):
    """Each file that has the version has that of VERSION, and no text names another one."""
    trial.equal("tools/versions", run([in_top("tools/versions")]).answer, ("", 0))
    files = [name for name in files_below(CLIENTS) if not {"__pycache__", "build", "target", "Cargo.lock"} & set(name.split("/"))]
    for name in files:
        others = re.findall(r"(?i)\bv(?:ersion)?[\W_]{0,4}(\d+\.\d+\.\d+|0\.\d+)\b", read_text(f"clients/{name}"))
        trial.check(name, all(f"{other}.".startswith(f"{SERIES}.") for other in others), f"it names the versions {others}")
    trial.note(f"{VERSION}, and no other one in {len(files)} files; {len(trial.result.wrong)} wrong")


# What no case waits for, and what the documents promise of languages: a file, a pattern, and what it has to find.
MEANT = [
    ("clients/python/truetime/_calls.py", r"^TIMEOUT_S = (.*)$", "30.0"),
    ("clients/go/truetime/session.go", r"^const Timeout = (.*)$", "30 * time.Second"),
    ("clients/c/truetime.h", r"\bTT_TRIES = (\d+)", "1000"),
    ("clients/python/truetime/readers.py", r"^_TRIES = (\d+)$", "1000"),
    ("clients/rust/src/lib.rs", r"^const TRIES: usize = (\d+);", "1000"),
    ("clients/java/src/main/java/io/truetime/TrueTime.java", r" TRIES = (\d+);", "1000"),
    ("clients/go/truetime/shared.go", r"^\ttries += (\d+)$", "1000"),
    ("clients/rust/Cargo.toml", r'^rust-version = "(.*)"$', "1.73"), ("clients/README.md", r"`clients/rust`, Rust (\S+) or later", "1.73"),
    ("clients/python/pyproject.toml", r'^requires-python = ">=(.*)"$', "3.9"), ("clients/README.md", r"`pip install .*, Python (\S+) or later", "3.9"),
    ("clients/java/pom.xml", r"<maven.compiler.release>(.*)<", "17"), ("clients/README.md", r"`java/pom.xml`, Java (\S+) or later", "17"),
    ("clients/go/truetime/go.mod", r"^go (.*)$", "1.19"), ("clients/README.md", r"`example.org/truetime/clients/go/truetime`, Go (\S+) or later", "1.19"),
]


@suite.case()
def constants(trial):
    """Time-outs and tries that stand for themselves, and the versions of languages."""
    for name, pattern, wanted in MEANT:
        trial.equal(f"{name}: {pattern}", re.findall(pattern, read_text(name), re.MULTILINE), [wanted])
    trial.note(f"{len(MEANT)} constants; {len(trial.result.wrong)} wrong")


# What the clients say of each refusal, in words of their own: these have to be among them, and among those of no other one.
WORDS = {
    1: "out of memory", 101: "ends of the lease are out of order", 102: "end of the lease is above the greatest time", 801: "published nothing so far",
    802: "below that of the publication", 803: "the clock gave no reading", 901: "is left up to the greatest time",
    902: "the floor is ", 903: "the lease", 1001: "as many commits are pending", 1002: "is pending or was released",
    1003: "another commit has this", 1101: "knows no such line", 1102: "more than 64 bytes", 1103: "a later commit has begun",
    1104: "the last commit is not known as released",
    1701: "cannot be opened, mapped or read", 1702: "of another owner, writable by others", 1703: "no daemon wrote what stands there",
    1704: "during each of the tries", 1708: "past the last reading", 1710: "gives nothing by CLOCK_MONOTONIC", 1821: "further ahead than the machine allows",
    1822: "is pending no more", 1823: "an assumption of the service is broken", 1824: "wider than the machine allows",
}
# In the words of 903 a lease is over, lost, or not long enough.
NOT_903 = re.compile("ends? of the lease (is above the greatest|are out of)|lower end of the lease, is further")


def words_of_refusals():
    """What each language says of each refusal that it names."""
    def pairs(name, pattern, flags=re.MULTILINE):
        return re.findall(pattern, read_text(f"clients/{name}"), flags)

    comments = [pair for name in ("truetime.h", "truetime_stamper.h") for pair in pairs(f"c/{name}", r"^    TT_\w+ = (\d+),? +/\* (.*?) \*/")]
    yield "C", [(int(number), text) for number, text in comments + pairs("c/truetime_errors.h", r'case (\d+): return "(.*)";')]
    yield "Python", [(int(number), text) for number, text in pairs("python/truetime/refusals.py", r'^    (\d+): "(.*)",$')]
    yield "Rust", [(int(number), text) for number, text in pairs("rust/src/error.rs", r'^    \w+ = (\d+) => "(.*)",$')]
    yield "Java", [(int(number), text) for number, text in pairs("java/src/main/java/io/truetime/TrueTime.java", r'Map\.entry\((\d+), "(.*?)"\)')]
    numbers = dict(pairs("go/truetime/errors.go", r"^\t(\w+) +(?:Refusal )?= (\d+) +//"))
    yield "Go", [(int(numbers[name]), text) for name, text in pairs("go/truetime/errors.go", r'^\t(\w+): +"(.*)",$')]


@suite.case()
def refusals(trial):
    """The words by which a refusal is told are its own, and each that a reader, a stamper or a session can give has some."""
    for language, told in words_of_refusals():
        trial.equal(f"{language}: numbers", {number for number, _ in told}, set(WORDS))
        for number, text in told:
            found = {other for other, words in WORDS.items() if words in text and not (other == 903 and NOT_903.search(text))}
            trial.equal(f"{language}: {number}, {text!r}", found, {number})
        trial.note(f"{language}: {len(told)} refusals; {len(trial.result.wrong)} wrong")


# Python.

def builder(trial):
    """A Python that has what building a wheel takes."""
    wanted = ("import setuptools, pip\nhas = [int(part) for part in setuptools.__version__.split('.')[:2]]\n"
              "assert has >= [61, 0]\nif has < [70, 1]: import wheel")
    for python in (sys.executable, "/usr/bin/python3"):
        if os.path.exists(python) and run([python, "-c", wanted]).status == 0:
            return python
    trial.note("Python is left out: there is none here with pip, setuptools (61 or later) and wheel")
    return None


IMPORT = """
import importlib.metadata as data, truetime
print(truetime.__file__, data.version("truetime"), data.metadata("truetime")["Requires-Python"], data.requires("truetime"))
"""
# Prints each public call in which an argument, or what it gives, has no type.
UNTYPED = """
import inspect, truetime.aio
for name, one in [*vars(truetime).items(), *vars(truetime.aio).items()]:
    if name.startswith("_") or getattr(one, "__module__", "").partition(".")[0] != "truetime":
        continue
    calls = vars(one) if inspect.isclass(one) else {name: one}
    for call, function in calls.items():
        if not inspect.isfunction(function) or function.__module__.partition(".")[0] != "truetime" or (call.startswith("_") and call != "__init__"):
            continue
        signature = inspect.signature(function)
        untyped = [each.name for each in signature.parameters.values() if each.annotation is each.empty and each.name != "self"]
        if untyped or signature.return_annotation is signature.empty:
            print(function.__qualname__, *untyped)
"""
# A program, and what mypy says of it.
TYPED = {
    "right": ("def earliest(client: truetime.Client) -> int:\n    return client.now().earliest_ns\n", "Success: no issues found"),
    "wrong": ("def earliest(client: truetime.Client) -> str:\n    return client.now().earliest_ns\n", 'got "int", expected "str"'),
    "async": ("async def begin(session: truetime.aio.Session) -> int:\n    return await session.begin(floor_ns=1)\n", "Success: no issues found"),
    "async_wrong": ("async def begin(session: truetime.aio.Session) -> str:\n    return await session.begin()\n", 'got "int", expected "str"'),
}


def try_types(trial, python):
    """The types, as mypy finds them in what is installed."""
    trial.equal("public calls without types", succeeds(trial, "types", [python, "-c", UNTYPED]).said, "")
    if not is_here(trial, "mypy", "the check of types by mypy"):
        return
    for name, (text, wanted) in TYPED.items():
        path = f"{trial.room}/typed_{name}.py"
        write(path, f"import truetime.aio\n\n\n{text}".encode())
        ran = run(["mypy", "--strict", "--python-executable", python, "--cache-dir", f"{trial.room}/mypy", path], seconds=60, cwd=trial.room)
        trial.check(f"mypy of a program that is {name}", wanted in ran.said, ran.said + ran.error)


@suite.case()
def python(trial):
    """A wheel from the folder and from its source package, installed into a virtual environment."""
    if not (base := builder(trial)):
        return
    room = trial.room
    pip = ["-m", "pip", "--isolated", "--disable-pip-version-check", "--no-cache-dir"]
    offline = ["--no-index", "--no-deps", "--no-build-isolation", "-q"]
    with copied(trial) as clients, StandIn(room) as stand_in:
        succeeds(trial, "environment", [base, "-m", "venv", "--system-site-packages", "--without-pip", f"{room}/venv"])
        here, env = f"{room}/venv/bin/python", {**os.environ, "HOME": room, "PYTHONPATH": ""}
        succeeds(trial, "pip install", [here, *pip, "install", *offline, f"{clients}/python"], env=env, cwd=room)
        said = succeeds(trial, "import", [here, "-W", "error", "-c", IMPORT], env=env, cwd=room).said
        folder, _, rest = said.partition("/truetime/__init__.py ")
        trial.check("import", folder.startswith(f"{room}/venv/lib/") and rest == f"{VERSION} >=3.9 None\n", said)
        make = "import setuptools.build_meta, sys; setuptools.build_meta.build_sdist(sys.argv[1])"
        succeeds(trial, "source package", [base, "-W", "ignore", "-c", make, f"{room}/source"], "should have one of README", env=env,
                 cwd=f"{clients}/python")
        succeeds(trial, "wheel", [base, *pip, "wheel", *offline, "-w", f"{room}/wheel", f"{room}/source/truetime-{VERSION}.tar.gz"], env=env, cwd=room)
        shutil.unpack_archive(f"{room}/wheel/truetime-{VERSION}-py3-none-any.whl", f"{room}/wheel", "zip")
        for what, site in (("installed", folder), ("wheel of the source package", f"{room}/wheel")):
            found = {name: read(f"{site}/truetime/{name}") for name in files_below(f"{site}/truetime") if not name.endswith(".pyc")}
            wanted = {name: read(f"clients/python/truetime/{name}") for name in files_below(f"{CLIENTS}/python/truetime") if not name.endswith(".pyc")}
            trial.check(what, found == wanted, f"{sorted(found)}, or they are not those of clients/python")
        try_types(trial, here)
        examples = [example for document, heading in (("clients/README.md", "Python"), ("README.md", "The service"))
                    for example in examples_in(document, heading) if "truetime." in example.text]
        for number, example in enumerate(examples):
            path = f"{room}/example_{number}.py"
            write(path, example.beside(stand_in).encode())
            succeeds(trial, f"compile {number}", [here, "-c", "import sys; compile(open(sys.argv[1]).read(), sys.argv[1], 'exec')", path])
            try_example(trial, f"example {number}", example, stand_in, [here, "-W", "error", path], env=env, cwd=room)
    note_examples(trial, examples, "pip install into a virtual environment, import, wheel, source package, types")


# Rust.

def manifest_of_rust(name, *more):
    """What cargo reads of a crate that depends on the package, with more words of that dependency, and further ones."""
    words = "".join(f", {word}" for word in more[:1])
    further = "".join(f"{line}\n" for line in more[1:])
    return (f'[package]\nname = "{name}"\nversion = "1.0.0"\nedition = "2021"\n\n[dependencies]\n'
            f'truetime = {{ path = "../unpacked/truetime-{VERSION}"{words} }}\n{further}')


def user_of_tokio(examples, stand_in):
    """The files of a crate that has the session's example as a program of tokio, with `.await` behind each call."""
    example = next(example for example in examples if "truetime::Session" in example.text)
    text = example.beside(stand_in).replace("truetime::Session", "truetime::aio::Session").replace(")?;", ").await?;")
    yield "Cargo.toml", manifest_of_rust("user_of_tokio", 'features = ["tokio"]', 'tokio = { version = "1.24", default-features = false, features = ["rt"] }')
    yield "src/main.rs", (
        "#![allow(unused_variables)]\n\nasync fn commit() -> Result<(), truetime::Error> {\n"
        f"{text}    Ok(())\n}}\n\nfn main() -> Result<(), Box<dyn std::error::Error>> {{\n"
        "    let runtime = tokio::runtime::Builder::new_current_thread().enable_all().build()?;\n    Ok(runtime.block_on(commit())?)\n}\n")


def user_of_rust(examples, stand_in):
    """The files of a crate that has each example as a program."""
    yield "Cargo.toml", manifest_of_rust("user")
    for number, example in enumerate(examples):
        yield f"src/bin/example_{number}.rs", (
            "#![allow(unused_variables)]\n\nfn main() -> Result<(), Box<dyn std::error::Error>> {\n"
            f"{example.beside(stand_in)}    Ok(())\n}}\n")


def write_crate(folder, files):
    """Writes the files of a crate."""
    for name, text in files:
        os.makedirs(os.path.dirname(os.path.join(folder, name)), exist_ok=True)
        write(os.path.join(folder, name), text.encode())


@suite.case(programs=("cargo",))
def rust(trial):
    """The crate as cargo packages it, its documents, its tests, and crates that depend on the package, one of them with tokio, where that is
    here."""
    room = trial.room
    by, features = registry_for_cargo(room), ["--features", "tokio"] * has_tokio()
    env = {**os.environ, "CARGO_TARGET_DIR": f"{room}/target", "RUSTFLAGS": "-D warnings", "RUSTDOCFLAGS": "-D warnings",
           "CARGO_PROFILE_DEV_DEBUG": "0", "CARGO_TERM_COLOR": "never"}
    with copied(trial) as clients, StandIn(room) as stand_in:
        crate = f"{clients}/rust"
        succeeds(trial, "cargo doc", ["cargo", "doc", *by, *features, "--no-deps"], cwd=crate, env=env, seconds=300)
        said = succeeds(trial, "cargo test", ["cargo", "test", *by, *features], cwd=crate, env=env, seconds=300).said
        dropped = re.findall(r"^test a_\w+_dropped\w* \.\.\. ok$", said, re.MULTILINE)
        trial.equal("tests of calls of tokio that are dropped", len(dropped), 5 * has_tokio())
        trial.check("examples in its documents", re.search(r"^test src/lib.rs .* ok$", said, re.MULTILINE), said)
        wanted = {"Cargo.toml", "README.md", *(name for name in files_below(crate) if name.endswith(".rs"))}
        package = ["cargo", "package", *by, "--allow-dirty"]
        listed = succeeds(trial, "cargo package --list", [*package, "--list"], "no license", cwd=crate, env=env).said.split()
        trial.equal("files of the package", set(listed) - {"Cargo.lock", "Cargo.toml.orig"}, wanted)
        succeeds(trial, "cargo package", [*package, "--no-verify"], "no license", cwd=crate, env=env)
        shutil.unpack_archive(f"{room}/target/package/truetime-{VERSION}.crate", f"{room}/unpacked", "gztar")
        examples = examples_in("clients/README.md", "Rust")
        write_crate(f"{room}/user", user_of_rust(examples, stand_in))
        succeeds(trial, "cargo build", ["cargo", "build", *by], cwd=f"{room}/user", env=env, seconds=300)
        if has_tokio():
            write_crate(f"{room}/user_of_tokio", user_of_tokio(examples, stand_in))
            succeeds(trial, "cargo build with tokio", ["cargo", "build", *by], cwd=f"{room}/user_of_tokio", env=env, seconds=300)
            stand_in.came.clear()
            succeeds(trial, "a program of tokio", [f"{room}/target/debug/user_of_tokio"])
            trial.equal("a program of tokio: its lines", stand_in.came, ["commit 1 0"] * 2)
        else:
            trial.note("Rust tokio is left out: librust-tokio-dev is not here")
        for number, example in enumerate(examples):
            try_example(trial, f"example {number}", example, stand_in, [f"{room}/target/debug/example_{number}"])
    note_examples(trial, examples, "cargo doc, test, package, and a crate that depends on the package")


# Java.

# What a program that ends soon needs.
SMALL = ["-XX:+UseSerialGC", "-XX:TieredStopAtLevel=1"]


@suite.case(programs=("javac", "jar"))
def java(trial):
    """A jar of what pom.xml names, compiled as it says, and programs beside the jar."""
    room = trial.room
    with copied(trial) as clients, StandIn(room) as stand_in:
        pom = ElementTree.parse(f"{clients}/java/pom.xml").getroot()
        said = [pom.findtext(f"{POM}{name}") for name in ("modelVersion", "artifactId", "version", "packaging")]
        trial.equal("pom.xml", said, ["4.0.0", "truetime", VERSION, "jar"])
        sources = sorted(glob.glob(f"{clients}/java/src/main/java/**/*.java", recursive=True))
        release = pom.findtext(f"{POM}properties/{POM}maven.compiler.release", "")
        # Older plugins of Maven know no release, and take 5 where nothing else is said.
        levels = [pom.findtext(f"{POM}properties/{POM}maven.compiler.{name}") for name in ("source", "target")]
        trial.equal("pom.xml: source and target", levels, [release] * 2)
        compiler, jar = ["javac", *(f"-J{word}" for word in SMALL), "--release", release, "-Xlint:all", "-Werror"], f"{room}/truetime-{VERSION}.jar"
        succeeds(trial, "javac", [*compiler, "-d", f"{room}/classes", *sources])
        succeeds(trial, "jar", ["jar", *(f"-J{word}" for word in SMALL), "--create", "--file", jar, "-C", f"{room}/classes", "."])
        examples = examples_in("clients/README.md", "Java")
        for number, example in enumerate(examples):
            text = ("package com.acme.app;\n\nimport io.truetime.*;\nimport java.net.*;\nimport java.nio.file.*;\nimport java.time.*;\n\n"
                    f"class Example{number} {{\n    public static void main(String[] words) throws Exception {{\n{example.beside(stand_in)}    }}\n}}\n")
            write(f"{room}/Example{number}.java", text.encode())
            succeeds(trial, f"javac {number}", [*compiler, "-cp", jar, "-d", room, f"{room}/Example{number}.java"])
            try_example(trial, f"example {number}", example, stand_in, ["java", *SMALL, "-cp", f"{jar}:{room}", f"com.acme.app.Example{number}"])
        if is_here(trial, "mvn", "pom.xml as Maven reads it"):
            env = {**os.environ, "MAVEN_OPTS": " ".join(SMALL)}
            succeeds(trial, "mvn", ["mvn", "-o", "-q", "-B", f"-Dmaven.repo.local={room}/m2", "validate"], cwd=f"{clients}/java", env=env)
    note_examples(trial, examples, f"pom.xml{', mvn validate' * bool(shutil.which('mvn'))}, javac by it, jar")


# C and C++.

USER_OF_CMAKE = """
cmake_minimum_required(VERSION 3.14)
project(user LANGUAGES {languages})
foreach(other {others})
  find_package(truetime ${{other}} CONFIG QUIET)
  if(truetime_FOUND)
    message(SEND_ERROR "found as version ${{other}}")
  endif()
endforeach()
find_package(truetime {series} REQUIRED)
set(CMAKE_CXX_STANDARD 17)
foreach(example {examples})
  get_filename_component(name ${{example}} NAME)
  string(REPLACE "." "_" name ${{name}})
  add_executable(${{name}} ${{example}})
  target_link_libraries(${{name}} PRIVATE truetime::truetime)
endforeach()
"""
SUBDIRECTORY = """
cmake_minimum_required(VERSION 3.14)
project(user LANGUAGES C)
add_subdirectory({clients}/c truetime)
add_executable(example {example})
target_link_libraries(example PRIVATE truetime::truetime)
"""


def installed(trial, clients):
    """Where the headers are installed: by CMake, or, where that is not here, by copies."""
    prefix = f"{trial.room}/prefix"
    if is_here(trial, "cmake", "what CMake installs"):
        succeeds(trial, "cmake", ["cmake", "-S", f"{clients}/c", "-B", f"{trial.room}/made"])
        succeeds(trial, "cmake --install", ["cmake", "--install", f"{trial.room}/made", "--prefix", prefix])
    else:
        os.makedirs(f"{prefix}/include")
        os.makedirs(f"{prefix}/share/pkgconfig")
        for header in glob.glob(f"{clients}/c/*.h"):
            shutil.copy(header, f"{prefix}/include")
        shutil.copy(f"{clients}/c/truetime.pc", f"{prefix}/share/pkgconfig")
    headers = {name: read(f"clients/c/{name}") for name in os.listdir(f"{CLIENTS}/c") if name.endswith(".h")}
    trial.check("headers", {name: read(f"{prefix}/include/{name}") for name in os.listdir(f"{prefix}/include")} == headers, f"they are not {sorted(headers)}")
    return prefix


def try_package(trial, prefix, sources):
    """Each example by pkg-config and each compiler; the names of those that were made."""
    env = {**os.environ, "PKG_CONFIG_PATH": f"{prefix}/share/pkgconfig"}
    flags = ["-I", f"{prefix}/include"]
    if is_here(trial, "pkg-config", "what pkg-config says"):
        trial.equal("pkg-config", succeeds(trial, "pkg-config", ["pkg-config", "--modversion", "truetime"], env=env).said, f"{VERSION}\n")
        flags = succeeds(trial, "pkg-config", ["pkg-config", "--cflags", "--libs", "truetime"], env=env).said.split()
    for compiler, ending, *words in ("gcc", "c", "-std=gnu11"), ("clang", "c", "-std=c11", "-D_POSIX_C_SOURCE=200809L"), ("g++", "cpp", "-std=c++17"):
        if is_here(trial, compiler, f"compiling the examples by {compiler}"):
            for source in sources:
                if source.endswith(f".{ending}"):
                    made = f"{source}.{compiler}"
                    succeeds(trial, compiler, [compiler, *WARNINGS, *words, source, *flags, "-o", made])
                    yield source, made


def try_cmake(trial, clients, prefix, sources):
    """Each example by find_package, and one by add_subdirectory; the names of those that were made."""
    has_cpp = is_here(trial, "c++", "find_package in C++")
    sources = [source for source in sources if has_cpp or source.endswith(".c")]
    major, minor = map(int, SERIES.split("."))
    others = f"{major}.{minor + 1} {major + 1} {f'{major}.{minor - 1}' * bool(minor)}"
    texts = {"found": USER_OF_CMAKE.format(series=SERIES, others=others, languages="C CXX" if has_cpp else "C", examples=" ".join(sources)),
             "below": SUBDIRECTORY.format(clients=clients, example=sources[0])}
    for name, text in texts.items():
        os.mkdir(f"{trial.room}/{name}")
        write(f"{trial.room}/{name}/CMakeLists.txt", text.encode())
        succeeds(trial, name, ["cmake", "-S", f"{trial.room}/{name}", "-B", f"{trial.room}/{name}/out", f"-DCMAKE_PREFIX_PATH={prefix}"])
        succeeds(trial, name, ["cmake", "--build", f"{trial.room}/{name}/out"])
    for source in sources:
        yield source, f"{trial.room}/found/out/{os.path.basename(source).replace('.', '_')}"


@suite.case()
def c(trial):
    """The headers in a folder of their own, found by pkg-config and by CMake."""
    with copied(trial) as clients, StandIn(trial.room) as stand_in:
        prefix, sources = installed(trial, clients), {}
        examples = examples_in("clients/README.md", "C and C++")
        for number, example in enumerate(examples):
            text = f"#include <truetime.h>\n#include <truetime_session.h>\n#include <truetime_stamper.h>\n\nint main(void) {{\n{example.beside(stand_in)}    return 0;\n}}\n"
            for ending in ("c", "cpp"):
                sources[f"{trial.room}/example_{number}.{ending}"] = example
                write(f"{trial.room}/example_{number}.{ending}", text.encode())
        made = list(try_package(trial, prefix, list(sources)))
        if shutil.which("cmake"):
            made += try_cmake(trial, clients, prefix, list(sources))
        for source, program in made:
            try_example(trial, os.path.relpath(program, trial.room), sources[source], stand_in, [program])
    ways = {"cmake": "CMake's install, find_package and add_subdirectory", "pkg-config": "pkg-config"}
    note_examples(trial, examples, "; ".join([way for name, way in ways.items() if shutil.which(name)] + [f"{len(made)} programs in C and C++"]))


# Go.

@suite.case(programs=("go",))
def go(trial):
    """The module by `replace` in that of a user, and its examples."""
    if not has_go():
        return
    room, module = trial.room, "example.org/truetime/clients/go/truetime"
    with copied(trial) as clients, StandIn(room) as stand_in:
        trial.equal("go.mod", read_text("clients/go/truetime/go.mod").splitlines()[0], f"module {module}")
        examples, env = examples_in("clients/README.md", "Go"), go_in(room)
        for number, example in enumerate(examples):
            folder = f"{room}/user_{number}"
            os.mkdir(folder)
            names = sorted({name for listed in re.findall(r"^(.*) :=", example.text, re.MULTILINE) for name in listed.split(", ")} - {"_"})
            used = "".join(f"\t_ = {name}\n" for name in names)
            text = (f'package main\n\nimport (\n\t"context"\n\t"fmt"\n\n\ttruetime "{module}"\n)\n\nfunc main() {{\n\tctx := context.Background()\n'
                    f"{example.beside(stand_in)}{used}\tfmt.Print()\n\t_ = ctx\n\t_ = truetime.Open\n}}\n")
            write(f"{folder}/main.go", text.encode())
            write(f"{folder}/go.mod", f"module example.org/user\n\ngo 1.19\n\nrequire {module} v{VERSION}\n\nreplace {module} => {clients}/go/truetime\n".encode())
            succeeds(trial, f"go build {number}", ["go", "build", "-o", "user", "."], cwd=folder, env=env)
            try_example(trial, f"example {number}", example, stand_in, [f"{folder}/user"])
    note_examples(trial, examples, "go build in another module, by `replace`")


@suite.last_line
def last_line(results):
    return f"{sum(len(result.checks) for result in results)} checks, {wrong_in(results)} wrong"
