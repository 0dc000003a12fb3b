"""A master whose address comes up later, and one that answers from another address than the one that was asked."""
import typing

from lab.fleet import SETTINGS, UNCERTAINTY
from lab.hosts import DEVICE, Lab
from lab.rollover import is_heard
from lab.services import POLLS, KeyFile, Machine, Master, Source, new_key, wait_until

FIRST, SECOND, KEY = "10.77.0.10", "10.77.0.110", 1
SOON_S = 8.0


class TwoHosts(Lab):
    """A host m with two addresses, of which the second one is asked by the machine on host a."""

    def build(self) -> None:
        self.host("m", [FIRST, SECOND])
        self.host("a", ["10.77.0.20"])
        self.join()
        self.keys = KeyFile(f"{self.room}/keys")
        self.keys.add(new_key(self.program, KEY, "a-m"))

    def master(self, listen: str) -> Master:
        return self.keep(Master(self.hosts["m"], 0, UNCERTAINTY, self.keys, listen=f"{listen}:{POLLS}"))


def tell_all(program: str, say: typing.Callable[[str], None]) -> None:
    """Each has to be told of, and the first one heard then; else it is a fault."""
    with TwoHosts(program) as lab:
        host = lab.hosts["m"]
        host.ip("addr", "del", f"{SECOND}/32", "dev", DEVICE)
        master = lab.master(SECOND)
        machine = lab.keep(Machine(lab.hosts["a"], 0, [Source(f"{SECOND}:{POLLS}", (KEY, ))], lab.keys, **SETTINGS))
        wait_until(lambda: master.said("address_awaited"), SOON_S, "no address is awaited")
        host.set_up()
        took = wait_until(lambda: is_heard(machine, 0), SOON_S, "a master is not heard whose address is up")
        say(f"heard {took:.1f} s after its address was up")
        master.kill()
        lab.master("0.0.0.0")
        wait_until(lambda: any(fields["address"] == f"{FIRST}:{POLLS}" for fields in machine.said("stranger")), SOON_S, "the address is not told")
        say(f"told: an answer from {FIRST}, and {SECOND} was asked")
