"""The package of the extension of PostgreSQL, in a copy of the server of this host."""
import contextlib

from harness import postgres
from harness.program import run
from suites.packages import BUILDS, POSTGRES, packages_in, suite


@suite.case(programs=BUILDS, missing=postgres.missing)
def extension(trial):
    """It wants the server, which loads it, creates the extension and gives a row a stamp."""
    package = packages_in(f"{trial.shared}/now")[POSTGRES]
    trial.check("Depends", "postgresql-15" in run(["dpkg-deb", "-f", package, "Depends"]).said.strip().split(", "), "it does not want the server")
    machine = trial.fleet({"A": [trial.master(source) for source in range(3)]}, faulty=1, workers=2, socket=None)["A"]
    with postgres.fast_room(trial.room) as room:
        installed = postgres.install(room, package)
        with contextlib.closing(postgres.Cluster(installed, room, "a", machine.path("shared"), fsync="off")) as cluster:
            cluster.run("CREATE EXTENSION truetime; CREATE TABLE kept(id int)")
            with cluster.connect() as session:
                session.run("BEGIN; INSERT INTO kept VALUES (1); SELECT truetime.request(); COMMIT")
                stamp = session.last_commit()
            trial.equal("its stamp", cluster.run("SELECT truetime.stamp_of(xmin) FROM kept"), [(str(stamp),)])
