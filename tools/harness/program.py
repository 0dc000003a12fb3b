"""Files of the repository, a command that runs once, and what came of it."""
import os
import subprocess
import typing

TOP = os.path.dirname(os.path.dirname(os.path.dirname(os.path.realpath(__file__))))
PROGRAM = os.path.join(TOP, "crates/ttd/out/ttd")
STAMPS = os.path.join(TOP, "crates/tt_stamp_rows/out/tt_stamp_rows")
WARNINGS = ["-Wall", "-Wextra", "-Wpedantic", "-Wshadow", "-Wconversion", "-Werror"]


class Ran(typing.NamedTuple):
    """What a command wrote, and its status: None where it did not end in time."""
    out: bytes
    status: int | None
    err: bytes

    @property
    def said(self) -> str:
        """Its output as text."""
        return self.out.decode(errors="replace")

    @property
    def answer(self) -> tuple[str, int | None]:
        """Its output as text, and its status."""
        return self.said, self.status

    @property
    def error(self) -> str:
        """What it wrote to standard error, as text."""
        return self.err.decode(errors="replace")


def run(words: typing.Sequence[str], given: bytes = b"", seconds: float = 20, **how) -> Ran:
    """Runs a command with this input, and kills it where it lasts longer."""
    how = {"stdout": subprocess.PIPE, "stderr": subprocess.PIPE, **how}
    try:
        ran = subprocess.run(words, input=given, timeout=seconds, check=False, **how)
    except subprocess.TimeoutExpired as late:
        return Ran(late.stdout or b"", None, late.stderr or b"")
    return Ran(ran.stdout or b"", ran.returncode, ran.stderr or b"")


def compile_c(name: str, folder: str, *flags: str) -> str:
    """Compiles tools/NAME.c into a folder; what was made."""
    made = os.path.join(folder, name)
    subprocess.run([os.environ.get("CC", "cc"), *flags, "-O2", "-o", made, in_top(f"tools/{name}.c")], check=True)
    return made


def in_top(name: str) -> str:
    """The path of a file of the repository."""
    return os.path.join(TOP, name)


def read(path: str) -> bytes:
    """The bytes of a file; a path that is relative is one of the repository."""
    with open(in_top(path), "rb") as file:
        return file.read()


def read_text(path: str) -> str:
    """The text of a file, whatever its bytes are."""
    return read(path).decode(errors="replace")


def write(path: str, content: bytes) -> None:
    """Makes a file of these bytes."""
    with open(path, "wb") as file:
        file.write(content)
