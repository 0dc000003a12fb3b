"""What the commands of tools/fleet and tools/masters do alike."""
import argparse
import signal
import sys
import typing

from harness.processes import Fault, truetime
from lab import hosts

MOST_TOLD = 20


def say(text: str) -> None:
    print(text.rstrip("\n"), flush=True)


class Tool:
    """A tool of this name, whose words begin with a command."""

    def __init__(self, name: str):
        self.name = name

    def parser(self, about: str, calls: dict[str, typing.Callable[[argparse.Namespace], int]]) -> tuple[argparse.ArgumentParser, dict]:
        """A parser of its words, and that of each command, which is a call."""
        words = argparse.ArgumentParser(prog=f"tools/{self.name}", description=about, formatter_class=argparse.RawDescriptionHelpFormatter)
        commands, made = words.add_subparsers(required=True, metavar="COMMAND"), {}
        for name, call in calls.items():
            made[name] = commands.add_parser(name, help=call.__doc__, description=call.__doc__)
            made[name].set_defaults(call=call)
        return words, made

    def say(self, text: str) -> None:
        say(f"{self.name}: {text}")

    def told(self, wrong: list[str], of: str = "") -> int:
        """The status of what was wrong, which is said."""
        for what in wrong[:MOST_TOLD]:
            self.say(f"wrong: {what}")
        self.say(f"{of}{len(wrong)} wrong")
        return bool(wrong)

    def remove(self, prefix: str) -> int:
        """Removes the namespaces and folders of commands that were killed."""
        self.say(f"removed: {' '.join(hosts.clean(prefix)) or 'nothing'}")
        return 0

    def run(self, given: argparse.Namespace) -> int:
        """The status of a command."""
        try:
            return given.call(given)
        except (Fault, OSError, truetime.Refused) as fault:
            sys.exit(f"{self.name}: {fault}")
        except KeyboardInterrupt:
            self.say("interrupted")
            return 128 + signal.SIGINT
