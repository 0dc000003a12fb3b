"""What the suites of tests in tools/suites stand on.

`program` runs a command once, and compiles what stands beside it. `processes` has masters and machines of the service that run as long as
a `with` block lasts; `faults` what can go wrong round them; `users` their clients; `relay` a bad network; `metrics` the form of a status.
`responder` is a socket whose packets a script answers. `wire` has the bytes of polls and envelopes, `ntp` those of NTP, `shared_file` those
of a shared file. `postgres` and `redis` run those servers, `databases` judges two of either.
A case of a suite (`suite`) gets all of it as a `Trial` (`trial`), by which it says what was wanted and what came. `runner` is `tools/check`.
"""
