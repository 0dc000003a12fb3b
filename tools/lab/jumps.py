"""What chronyd claims once its oscillator's rate has jumped, by how often it polls and by `maxclockerror`."""
import itertools
import time
import typing

from harness.ntp import Refused
from lab.masters import RECEIVER, Masters, microseconds
from lab.users import table

POLLS, ERRORS_PPM = (2, 4, 6), (1, 30)
RATE_PPM, JUMP_PPM = 30, 20
#: How long all is as it was, so that chronyd knows its oscillator; and how long it is asked then.
SETTLED_S, ASKED_S, PAUSE_S = 330, 150, 0.5


class Claims(typing.NamedTuple):
    """How many claims there were and how many were wrong; how wide the widest was, both ways, and by how much the worst was wrong."""
    all: int = 0
    wrong: int = 0
    widest_ns: int = 0
    worst_ns: int = 0


def tell(program: str, say: typing.Callable[[str], None]) -> None:
    """Shows a table, after eight minutes."""
    kinds = list(itertools.product(POLLS, ERRORS_PPM))
    names = [f"c{place}" for place in range(len(kinds))]
    with Masters(program, ["a", *names]) as lab:
        lab.chronyd("a", RECEIVER).wait_until_synchronised()
        servers = [lab.chronyd(name, *lab.server_lines("a", how=f"iburst minpoll {poll} maxpoll {poll}"), f"maxclockerror {error}", rate=RATE_PPM)
                   for name, (poll, error) in zip(names, kinds)]
        for server in servers:
            server.wait_until_synchronised()
        time.sleep(SETTLED_S)
        for server in servers:
            server.clock.run_by(RATE_PPM + JUMP_PPM)
        seen = [Claims() for _ in kinds]
        end = time.monotonic() + ASKED_S
        while time.monotonic() < end:
            seen = [asked(server, claims) for server, claims in zip(servers, seen)]
            time.sleep(PAUSE_S)
    rows = [(f"polls every {2**poll} s, maxclockerror {error}", str(claims.all), str(claims.wrong), microseconds(claims.widest_ns),
             microseconds(claims.worst_ns)) for (poll, error), claims in zip(kinds, seen)]
    say(table([(f"a jump by {JUMP_PPM} ppm", "claims", "wrong", "distance, us", "by up to, us"), *rows]))


def asked(server, claims: Claims) -> Claims:
    """What is known of a server's claims with one more."""
    try:
        reply = server.reply()
    except (OSError, Refused):
        return claims
    off = max(0, reply.low - reply.after, reply.before - reply.high)
    return Claims(claims.all + 1, claims.wrong + (off > 0), max(claims.widest_ns, reply.distance_ns), max(claims.worst_ns, off))
