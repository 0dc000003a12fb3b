// Package truetime gives the time with an error bound, and timestamps for commits, from the time service of this machine
// (ttd serve). It needs no other module.
//
// A [Session] asks the service over TCP or a Unix socket, and gives timestamps, too. Nobody may be told of a commit before
// Wait has given its timestamp:
//
//	session, err := truetime.Dial(ctx, "tcp", "127.0.0.1:5601")
//	stamp, _, err := session.Begin(ctx, 0) // no other commit of this machine has this timestamp
//	// write and commit locally, under this timestamp
//	_, err = session.Wait(ctx) // only now may anybody be told of the commit
//
// A [Client] reads the file in which the daemon shares its last publication, without lock or wait. [Client.Now] of a
// mapped file makes no system call and allocates nothing, and any number of goroutines may call it. That needs Linux on a
// little-endian machine of 64 bits; elsewhere [Open] fails with [ErrUnsupported]:
//
//	client, err := truetime.Open("/run/truetime/time", "truetime") // the user who has to own the file, by name or number
//	now, err := client.Now()
//
// A [Stamper] gives timestamps by that file in the database's own process, without the service. Nobody may be told of a
// commit before WaitPast has said that its timestamp has passed:
//
//	stamper := truetime.NewStamper(client) // one for all goroutines
//	given, err := stamper.Stamp(0) // no other commit of this stamper has this timestamp
//	// write and commit locally, under given.Timestamp
//	isPast, err := stamper.WaitPast(ctx, given.Timestamp) // only now, if it is true, may anybody be told of the commit
//
// Times are nanoseconds of the scale that the masters have. Where a call gives an error, what it gives beside it tells a
// caller that does not look nothing wrong: the interval of all times, false, or the timestamp 0.
//
// # Errors
//
// A [Refusal] has a number, and comes from the service or from the file; the session goes on after it. A [PendingError] is one
// of the session itself: Wait was not called for a commit of Begin. A [BrokenError] says that the connection failed, also of [Dial]
// and of a [Pool] that dials; the next call connects anew. The error of a context that ended leaves the session as it is: see [Session].
//
// # Build tags
//
// The file is read by the clock of the runtime, where that is CLOCK_MONOTONIC. With the tag truetime_syscall
// nothing of the runtime is named, and the clock is read by a system call. With truetime_nofile there is no reader of the
// file, as on other systems.
package truetime
