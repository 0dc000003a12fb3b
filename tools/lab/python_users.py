"""The users of a machine in Python, until their time is over: what tools/users.c is in C, by the same words, and with lines of the same form.

    python3 -m lab.python_users SECONDS PORT SOCKET SHARED SESSIONS STAMPERS PAUSE_MS FIRST
"""
import collections
import os
import select
import sys
import threading
import time
import typing

from harness.processes import truetime
from harness.users import Commit, reading_of

TIMEOUT_S, READINGS, TURNS, RETRY_S, TELL_S = 25, 4, 500, 0.02, 0.1
#: Numbers between the first giver and those of stampers, which are others than those of stampers in C.
STAMPERS = 50


def pause(seconds: float) -> None:
    """Sleeps, also where this host's clock is not that of the system, to whom Python's own sleep tells the time at which it ends."""
    select.select((), (), (), seconds)


class Threads:
    """A thread for each of them, and what they saw since it was last told."""

    def __init__(self, words: typing.Sequence[str]):
        seconds, port, self.socket, self.shared, self.sessions, stampers, pause_ms, self.first = words
        self.end, self.address, self.pause_s = time.time() + float(seconds), ("127.0.0.1", int(port)), int(pause_ms) / 1000
        self.counts, self.width, self.lines, self.lock = collections.Counter(), 0, list[str](), threading.Lock()
        uses = [(self.use_session, number) for number in range(int(self.sessions))] + [(self.use_stamper, number) for number in range(int(stampers))]
        self.threads = [threading.Thread(target=self.go_on, args=use, daemon=True) for use in uses]

    def run(self) -> None:
        for thread in self.threads:
            thread.start()
        while time.time() < self.end:
            pause(TELL_S)
            self.tell()
        for thread in self.threads:
            thread.join()
        self.tell()

    def tell(self) -> None:
        with self.lock:
            lines, self.lines, counts, self.counts = self.lines, [], self.counts, collections.Counter()
        sys.stdout.write("".join(lines) + f"seen {time.time_ns()} {counts['readings']} {self.width} {counts['lost']}\n")
        sys.stdout.flush()

    def go_on(self, use: typing.Callable[[int], None], number: int) -> None:
        """Uses the machine again and again, anew after each failure."""
        while time.time() < self.end:
            try:
                use(number)
            except TimeoutError:
                self.say(f"wrong {time.time_ns()} no reply within {TIMEOUT_S} seconds")
            except (OSError, truetime.Refused):
                with self.lock:
                    self.counts["lost"] += 1
            pause(RETRY_S)

    def use_session(self, number: int) -> None:
        with truetime.Session(self.address if number % 2 == 0 else self.socket, TIMEOUT_S) as session:
            while time.time() < self.end:
                for _ in range(READINGS):
                    self.read(session)
                began = time.time_ns()
                self.tell_commit(began, session.commit(), self.first)
                pause(self.pause_s)

    def use_stamper(self, number: int) -> None:
        with truetime.Client(self.shared, os.geteuid()) as client:
            stamper = truetime.Stamper(client)
            for _ in range(TURNS):
                if time.time() >= self.end:
                    return
                self.read(client)
                began = time.time_ns()
                stamp = stamper.stamp().stamp_ns
                stamper.wait_past(stamp)
                self.tell_commit(began, stamp, str(int(self.first) + STAMPERS + number))
                pause(self.pause_s)

    def read(self, reader: truetime.Session | truetime.Client) -> None:
        """A reading, which has to be right."""
        got = reading_of(reader)
        with self.lock:
            self.counts["readings"] += 1
            self.width = got.latest - got.earliest
        if got.is_wrong:
            self.say(f"wrong {got.after} {got}")

    def tell_commit(self, began: int, stamp: int, giver: str) -> None:
        """A commit that has just ended, whose stamp has to be right."""
        made = Commit(began, time.time_ns(), stamp)
        self.say(f"commit {made.began} {made.ended} {made.stamp} {giver} 1")
        if made.is_wrong:
            self.say(f"wrong {made.ended} {made}")

    def say(self, line: str) -> None:
        with self.lock:
            self.lines.append(line + "\n")


if __name__ == "__main__":
    Threads(sys.argv[1:]).run()
