"""Small disks that can be full."""
import contextlib
import os
import subprocess

from lab import hosts


class Disk:
    """A file system at a folder, with so many KiB."""
    #: The last process that was there while it was full.
    life: subprocess.Popen | None = None

    def __init__(self, lab: hosts.Lab, folder: str, kib: int, mode: str):
        self.folder, self.filling = folder, os.path.join(folder, "fill")
        os.makedirs(folder)
        hosts.do("mount", "-t", "tmpfs", "-o", f"size={kib}k,mode={mode}", "none", folder)
        lab.stack.callback(hosts.do, "umount", folder)

    def path(self, name: str) -> str:
        return os.path.join(self.folder, name)

    @property
    def is_full(self) -> bool:
        return os.path.exists(self.filling)

    def fill(self) -> None:
        """Takes all the room that there is."""
        with open(self.filling, "ab", buffering=0) as file, contextlib.suppress(OSError):
            while file.write(bytes(512)):
                pass

    def free(self) -> None:
        os.remove(self.filling)
