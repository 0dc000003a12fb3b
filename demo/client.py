"""How a database uses the service: a commit, and what a snapshot waits for, by sessions with the service or by a stamper of its own.

A *place* is a machine of the database. It has `changing`, a lock of its writers, and `write(key, value, stamp)`, which commits in its
own database and returns once that is durable; within `with place.transaction()` nobody sees it before the end of that. A session is a `truetime.Session` with the service of that machine, for one thread. A
stamper is a `truetime.Stamper` over that machine's shared file: one for all threads of the place.
"""
import queue
import time


def commit(place, session, key, value):
    """Writes a value; its stamp. Afterwards the user may be told, and every later commit on any machine has a greater stamp."""
    with place.changing:  # from before the stamp until the write can be read
        stamp = session.begin()
        place.write(key, value, stamp)
    session.wait()
    return stamp


def make_readable(place, session, moment):
    """Returns once a snapshot of this place at this moment stays as it is."""
    while not session.after(moment):  # whoever begins a commit afterwards gets a greater stamp
        time.sleep(max(moment - session.now().earliest_ns, 10_000) / 1e9)
    with place.changing:  # whoever had begun one has written it
        pass


def begin_by_stamper(place, stamper, key, value):
    """Writes a value; its stamp. Nobody may be told of it before that has passed."""
    with place.changing:
        stamp = stamper.stamp().stamp_ns
        place.write(key, value, stamp)
    return stamp


def commit_by_stamper(place, stamper, key, value):
    """What `commit` does."""
    stamp = begin_by_stamper(place, stamper, key, value)
    stamper.wait_past(stamp)
    return stamp


def make_readable_by_stamper(place, stamper, moment):
    """What `make_readable` does."""
    stamper.wait_past(moment)
    with place.changing:
        pass


def commit_behind_wait(place, stamper, key, value):
    """Writes a value; its stamp. Who reads what is there, without a snapshot, sees it only once its stamp has passed, too. The place has one
    commit at a time by this."""
    with place.changing:
        stamp = stamper.stamp().stamp_ns
        with place.transaction():
            place.write(key, value, stamp)
            stamper.wait_past(stamp)
    return stamp


class Pending:
    """The commits of a writer that are written and wait for their stamps to pass: it begins the next one meanwhile. Another thread calls
    `acknowledge`. The stamps of one writer rise, so the oldest passes first."""

    def __init__(self, stamper):
        self.stamper, self.commits = stamper, queue.SimpleQueue()

    def add(self, stamp, tell):
        self.commits.put((stamp, tell))

    def close(self):
        self.commits.put(None)

    def acknowledge(self):
        """Tells of each commit once its stamp has passed, until the end."""
        for stamp, tell in iter(self.commits.get, None):
            self.stamper.wait_past(stamp)
            tell(stamp)
