"""Hosts on this computer for tools/fleet and tools/masters, and what is tried on them.

`hosts` makes hosts as network namespaces, with clocks of their own; `router` joins them; `packets` has what it and the `forger` take apart and
make. `services` runs masters and machines on hosts, with their keys; `users` runs users of machines and judges what they saw; `fleet` is
five masters, three machines and the forger. `runs`, `controls`, `rollover` and `upgrades` are tried with that, `addresses` with two
hosts; `folders` runs hosts by their files.

For shards `units` has machines with their units, and masters over chronyd, `shards` members of etcd and the agents of demo/failover, `sharded` the
fleet with these and what is done to it, `python_users` more users. `shard_runs` and `takeovers` are tried with that.

For tools/masters `wires` joins hosts by a switch of the kernel; `clocks` makes clocks of servers, and receivers; `servers` runs chronyd and
ntpsec; `masters` is masters over them, and a machine. `master_runs`, `upsets`, `widths` and `jumps` are tried with that, and
`documented_masters` runs the files of docs/MASTERS.md.

`commands` has what both tools do alike.
"""
