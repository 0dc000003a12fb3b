"""The time with an error bound, and timestamps for commits, from the time service of this machine.

The time daemon of a machine keeps its last publication in a file of 320 bytes. A client maps that file once and reads
it as often as it likes, without a lock and without waiting::

    import truetime

    with truetime.Client("/run/truetime/time", owner="truetime") as client:
        now = client.now()
        print(now.earliest_ns, now.latest_ns)   # the true time lies between them, in nanoseconds

Timestamps come from the service itself, over TCP or its Unix socket::

    with truetime.Session(("127.0.0.1", 5601)) as session:
        stamp = session.begin()      # no other commit of this machine has this timestamp
        ...                          # write and commit locally, under this timestamp
        session.wait()               # only now may anybody be told of the commit

:class:`Pool` has sessions for many threads, and :mod:`truetime.aio` both for asyncio. What sessions meet is told to the logger
``truetime``: that they connected at debug, that they did so anew and what is refused at info, that a connection failed and that a
commit waits for more than a second at warning. Or they are taken in this process, with a lease of their own::

    with truetime.Client("/run/truetime/time", owner="truetime") as client:
        stamper = truetime.Stamper(client, lease_lo_ns, lease_hi_ns)
        stamp = stamper.stamp().stamp_ns   # no other stamp of this stamper is the same
        ...                                # write and commit locally, under this timestamp
        stamper.wait_past(stamp)           # only now may anybody be told of the commit

A stamper's waits, and those of a :class:`PendingTable`, block the thread. With asyncio take their steps::

    while left_ns := stamper.left_ns(stamp):
        await asyncio.sleep(left_ns / 1e9)

Where an owner of the file or of its folder truncates the file, a mapped one raises SIGBUS, which ends Python. With
``Client(path, owner, mapped=False)`` a call refuses instead; it makes three system calls more.

The clock is that of the file: CLOCK_MONOTONIC_RAW, or CLOCK_MONOTONIC. Reads version 3 of the format (its first four
bytes are TTS3), and refuses another version with 1702. Needs Linux on a little-endian 64-bit machine, Python 3.9 or
later, and nothing but the standard library.
"""
import logging

from ._calls import LONG_WAIT_S, TIMEOUT_S, Interval
from .pending import PendingTable
from .pools import Pool
from .readers import MAX_DRIFT_PPM, Client, Publication, Reading
from .refusals import MAX_TIME_NS, CommitPending, Refusal, Refused, SessionLost
from .sessions import Session
from .stampers import AHEAD_NS, MAX_AHEAD_NS, MAX_GRID_NS, Stamp, Stamper

__version__ = "0.4.0"

logging.getLogger("truetime").addHandler(logging.NullHandler())

__all__ = [
    "AHEAD_NS",
    "LONG_WAIT_S",
    "MAX_AHEAD_NS",
    "MAX_DRIFT_PPM",
    "MAX_GRID_NS",
    "MAX_TIME_NS",
    "TIMEOUT_S",
    "Client",
    "CommitPending",
    "Interval",
    "PendingTable",
    "Pool",
    "Publication",
    "Reading",
    "Refusal",
    "Refused",
    "Session",
    "SessionLost",
    "Stamp",
    "Stamper",
]
