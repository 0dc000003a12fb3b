"""A socket of UDP whose packets a script answers."""
import contextlib
import socket
import threading

from harness.processes import free_port


class Responder(threading.Thread):
    """Takes packets until it is closed, one after the other."""

    def __init__(self, host: str = "127.0.0.1", port: int | None = None):
        super().__init__(daemon=True)
        self.door = socket.socket(socket.AF_INET6 if ":" in host else socket.AF_INET, socket.SOCK_DGRAM)
        self.door.bind((host, port or free_port(socket.SOCK_DGRAM)))
        self.port, self.ended = self.door.getsockname()[1], False
        self.address = f"[{host}]:{self.port}" if ":" in host else f"{host}:{self.port}"
        self.start()

    def take(self, packet: bytes, sender: tuple) -> None:
        """Takes a packet from this address."""
        raise NotImplementedError

    def run(self) -> None:
        while not self.ended:
            packet, sender = None, None
            with contextlib.suppress(OSError):
                packet, sender = self.door.recvfrom(2048)
            if packet is not None and not self.ended:
                self.take(packet, sender)

    def send_to(self, packet: bytes, address: tuple) -> None:
        """Sends a packet, where that can be."""
        with contextlib.suppress(OSError):
            self.door.sendto(packet, address)

    def close(self) -> None:
        """Ends it, also where it stands in another network."""
        self.ended = True
        with contextlib.suppress(OSError):
            self.door.shutdown(socket.SHUT_RDWR)
        with contextlib.suppress(OSError), socket.socket(self.door.family, socket.SOCK_DGRAM) as door:
            door.sendto(b"", self.door.getsockname())
        self.join(2)
        self.door.close()
