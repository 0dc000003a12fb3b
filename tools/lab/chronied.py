"""Hosts of a folder, some of which keep their time by a chronyd, by the files that they have for it."""
import glob
import os
import re
import subprocess

from harness.program import read_text, write
from lab import hosts
from lab.clocks import OwnClock, Receivers, compile_clock
from lab.folders import Folder, Site
from lab.servers import NO_CLOCK, no_chronyd, path_of

CONF = "chrony/chrony.conf"


def missing() -> str:
    """Why no such hosts can be made here, or nothing."""
    return hosts.missing() or no_chronyd()


class Chronied(Folder):
    """The hosts, joined by a router; each chronyd has a clock of its own, and no right to set another."""

    def build(self) -> None:
        super().build()
        self.clock_library = compile_clock(self)
        self.receivers = self.keep(Receivers())

    def start_chronyd(self, name: str, text: str, rate: float = 0.0, ahead_s: float = 0.0) -> subprocess.Popen:
        """By this text as /etc/chrony/chrony.conf. Whatever it says of a receiver's socket is in the host's own /run. The oscillator of its clock is
        wrong by so many parts per million, and its receiver by so many seconds."""
        site: Site = self.hosts[name]
        for folder in (site.path("run", "chrony"), site.path("lib", "chrony"), site.path("etc", "chrony")):
            os.makedirs(folder, 0o750, exist_ok=True)
        write(site.path("etc", CONF), text.encode())
        clock = OwnClock(os.path.join(site.folder, f"clock-{len(glob.glob(os.path.join(site.folder, 'clock-*')))}"), self.clock_library, rate)
        for path in re.findall(r"^refclock SOCK /run/(\S+)", read_text(site.path("etc", CONF)), re.MULTILINE):
            for before in self.receivers.all:
                before.is_heard = before.is_heard and before.path != site.path("run", path)
            self.receivers.add(site.path("run", path), clock, ahead_s)
        with open(os.path.join(site.folder, "chronyd.log"), "ab") as log:
            running = site.start([*NO_CLOCK, path_of("chronyd"), "-d", "-U", "-u", "root", "-f", f"/etc/{CONF}"],
                                 stdout=log, stderr=log, env=clock.environment)
        self.stack.callback(running.wait)
        self.stack.callback(running.kill)
        return running
