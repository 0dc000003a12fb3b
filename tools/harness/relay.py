"""A relay between machines and masters, which loses, delays, repeats, reorders and spoils packets by a seed."""
import contextlib
import heapq
import random
import selectors
import socket
import threading
import time

from harness.processes import free_port

# How often, of a hundred packets.
LOST, REPEATED, SPOILED, DELAYED = 10, 5, 5, 30
# The longest delay, in seconds: answers to earlier rounds come with those to later ones.
LONGEST = 0.3
# The bytes in front of the span of an answer. Nothing tells a spoiled span from a lie, so only liars have theirs spoiled.
HEAD_BYTES = 24


class Channel:
    """The way from a machine to a master and back. Each packet draws its fate from a row of its own."""

    def __init__(self, master, may_lie, seed):
        host, port = master.split(":")
        self.master, self.may_lie, self.chance = (host, int(port)), may_lie, random.Random(seed)
        self.door = socket.socket(socket.AF_INET, socket.SOCK_DGRAM)
        self.door.bind(("127.0.0.1", free_port(socket.SOCK_DGRAM)))
        self.back = socket.socket(socket.AF_INET, socket.SOCK_DGRAM)
        self.back.bind(("127.0.0.1", 0))
        self.address, self.machine = "127.0.0.1:%d" % self.door.getsockname()[1], None

    def fates(self, packet):
        """What becomes of a packet: a delay in seconds and the bytes, once for each time that it is sent on."""
        def happens(percent):
            return self.chance.random() * 100 < percent
        if happens(LOST):
            return
        if packet and happens(SPOILED):
            spoiled = bytearray(packet)
            spoiled[self.chance.randrange(len(packet) if self.may_lie else min(len(packet), HEAD_BYTES))] ^= self.chance.randrange(1, 256)
            packet = bytes(spoiled)
        for _ in range(2 if happens(REPEATED) else 1):
            yield self.chance.uniform(0, LONGEST) if happens(DELAYED) else 0, packet


class Relay:
    """All channels, served by one thread until the `with` block ends."""

    def __init__(self):
        self.selector, self.due, self.order, self.ended = selectors.DefaultSelector(), [], 0, False
        self.channels, self.thread = [], threading.Thread(target=self.run)

    def __enter__(self):
        self.thread.start()
        return self

    def __exit__(self, *_):
        self.ended = True
        self.thread.join()
        for channel in self.channels:
            channel.door.close()
            channel.back.close()

    def channel(self, *words):
        channel = Channel(*words)
        self.channels.append(channel)
        self.selector.register(channel.door, selectors.EVENT_READ, (channel, True))
        self.selector.register(channel.back, selectors.EVENT_READ, (channel, False))
        return channel

    def run(self):
        while not self.ended:
            left = self.due[0][0] - time.monotonic() if self.due else 0.05
            for key, _ in self.selector.select(min(max(left, 0), 0.05)):
                self.take(key.fileobj, *key.data)
            while self.due and self.due[0][0] <= time.monotonic():
                _, _, door, packet, address = heapq.heappop(self.due)
                with contextlib.suppress(OSError):  # whoever is there is down
                    door.sendto(packet, address)

    def take(self, door, channel, is_request):
        try:
            packet, sender = door.recvfrom(2048)
        except OSError:
            return  # a master that is down
        if is_request:
            channel.machine = sender
            way = channel.back, channel.master
        elif channel.machine and sender == channel.master:
            way = channel.door, channel.machine
        else:
            return
        for delay, spoiled in channel.fates(packet):
            self.order += 1
            heapq.heappush(self.due, (time.monotonic() + delay, self.order, way[0], spoiled, way[1]))
