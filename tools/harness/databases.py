"""Two servers of a database over two machines, and an order of commits that is judged by whoever knows of them first."""
import multiprocessing

#: By how much the masters of the two machines are off, in opposite directions, and within which uncertainty.
SKEW_NS, UNCERTAINTY_NS = 2_700_000, 3_000_000
FORK = multiprocessing.get_context("fork")


def machines_apart(trial):
    """Two machines, each over masters of its own: the machines by their names."""
    masters = {name: [trial.master(source, offset, UNCERTAINTY_NS) for source in range(3)] for name, offset in (("A", SKEW_NS), ("B", -SKEW_NS))}
    return trial.fleet(masters, faulty=1, workers=2, socket=None, poll="100ms")


def gather(processes, out, seconds=0):
    """What these processes give, which go on for so long."""
    for process in processes:
        process.start()
    given = [out.get(timeout=60 + 2 * seconds) for _ in processes]
    for process in processes:
        process.join()
    return given


def known_by(seen, kinds, commit):
    """When a commit was known: to its client, or to the first of these kinds. A commit is when it began and ended, its stamp, its server and its row;
    what was seen is of which kind, at which server, when it first saw each row, and more."""
    began, ended, _, server, row = commit
    moments = [first[row] for kind, place, first, *_ in seen if kind in kinds and place == server and row in first]
    return max(began, min([ended, *moments]))


def judge_order(trial, history, seen, kinds, what):
    """With the wait nothing is out of order. By two controls the judge is seen to see: without the wait clients see it, and with a wait behind what is
    named here these kinds do, and clients do not."""
    def out_of_order(mode, *of_kinds):
        return trial.judge([(commit[0], known_by(seen, of_kinds, commit), commit[2]) for commit in history[mode]])

    for mode, of_mode in history.items():
        trial.check(f"{mode}: commits", len(of_mode) > 50, f"only {len(of_mode)} commits")
    by_all, without = out_of_order("on", *kinds), out_of_order("off")
    by_clients, *by_kinds = [out_of_order("behind", *of_kinds) for of_kinds in ((), *((kind,) for kind in kinds))]
    trial.note(f"{len(history['on'])} commits, {by_all} out of order by whoever knew first; "
               f"{len(history['off'])} without the wait, {without} by clients; "
               f"{len(history['behind'])} with a wait behind the {what}, {by_clients} by clients, "
               f"{', '.join(f'{number} by {kind}s' for kind, number in zip(kinds, by_kinds))}")
    trial.equal("with the wait", by_all, 0)
    trial.check("without the wait", without > 0, "the judge sees nothing")
    trial.equal(f"with a wait behind the {what}, by clients", by_clients, 0)
    trial.check(f"with a wait behind the {what}, by {' and '.join(f'{kind}s' for kind in kinds)}", sum(by_kinds) > 0, "the judge sees nothing")
    trial.count(commits=len(history["on"]), out_of_order=by_all)
