"""What tools/note_calls.c notes of a program: for how long it waits, and what it syncs, renames and opens."""
import os

from harness.program import compile_c, read_text

FLAGS = "-Wall", "-Wextra", "-Wshadow", "-Wconversion", "-Werror", "-shared", "-fPIC"


class Notes:
    """What tools/note_calls.c notes of a program that has this environment."""

    def __init__(self, room, name):
        self.path, library = os.path.join(room, f"{name}.notes"), os.path.join(room, "note_calls")
        if not os.path.exists(library):
            compile_c("note_calls", room, *FLAGS)
        self.environment = dict(os.environ, LD_PRELOAD=library, NOTES=self.path)

    def calls(self):
        return [line.split() for line in read_text(self.path).splitlines()] if os.path.exists(self.path) else []

    def waits(self, kind):
        """For how long something of this kind is waited for, in nanoseconds, in order."""
        return sorted({int(words[1]) for words in self.calls() if words[0] == kind and int(words[1]) > 0})
