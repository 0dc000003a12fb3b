"""Pipes for what processes print, and clients that close half of their connection."""
import contextlib
import fcntl
import os
import select
import socket
import threading

LOOK_S, SMALLEST = 0.05, 4096


class Pipe:
    """A pipe for what a process prints, which is copied to its log until the pipe is spoiled: then it is full, or nobody reads from it."""

    def __init__(self, log: str):
        self.reading, self.writing = os.pipe()
        fcntl.fcntl(self.writing, fcntl.F_SETPIPE_SZ, SMALLEST)
        self.log, self.spoilt = log, threading.Event()
        self.thread = threading.Thread(target=self.copy, daemon=True)
        self.thread.start()

    def copy(self) -> None:
        with open(self.log, "ab", buffering=0) as log:
            while not self.spoilt.is_set():
                if select.select([self.reading], [], [], LOOK_S)[0]:
                    log.write(os.read(self.reading, SMALLEST))

    def spoil(self, is_full: bool) -> None:
        """Nobody reads from it any more: it is full, or has no other end."""
        self.spoilt.set()
        self.thread.join()
        if is_full:
            with open(f"/proc/self/fd/{self.writing}", "wb", buffering=0, opener=without_waiting) as end:
                while end.write(b"\n"):
                    pass
        else:
            os.close(self.reading)
            self.reading = -1

    def close(self) -> None:
        self.spoilt.set()
        self.thread.join()
        for end in (self.reading, self.writing):
            if end >= 0:
                os.close(end)


def without_waiting(path: str, flags: int) -> int:
    return os.open(path, flags & ~(os.O_CREAT | os.O_TRUNC) | os.O_NONBLOCK)


class HalfClosed:
    """A client that asks, says that it will ask no more, and takes what is answered."""

    def __init__(self, address: str | tuple[str, int], asked: bytes):
        self.door, self.answer, self.is_over = socket.socket(socket.AF_UNIX if isinstance(address, str) else socket.AF_INET), b"", False
        self.door.settimeout(1)
        try:
            self.door.connect(address)
            self.door.sendall(asked)
            self.door.shutdown(socket.SHUT_WR)
        except OSError:
            self.door.close()
            raise
        self.door.setblocking(False)

    def look(self) -> None:
        """Takes what has come, and whether the other end has closed its half, too."""
        with contextlib.suppress(BlockingIOError):
            while not self.is_over:
                piece = self.received()
                self.answer, self.is_over = self.answer + piece, not piece

    def received(self) -> bytes:
        try:
            return self.door.recv(4096)
        except ConnectionError:
            return b""

    def close(self) -> None:
        self.door.close()
