package io.truetime;

import java.time.Duration;
import java.util.concurrent.TimeUnit;
import java.util.concurrent.atomic.AtomicLong;
import java.util.concurrent.locks.LockSupport;

/**
 * Timestamps for commits, taken in the database's own process, by the time that the daemon shares:
 *
 * <pre>{@code
 * TrueTime client = TrueTime.open(Path.of("/run/truetime/time"), "truetime");
 * Stamper stamper = new Stamper(client); // one for all threads
 * long stampNs = stamper.stamp(0).stampNs(); // no other commit of this stamper has this timestamp
 * // write and commit locally, under this timestamp
 * if (stamper.awaitPast(stampNs, Duration.ofSeconds(30))) {
 *     // only now may anybody be told of the commit
 * }
 * }</pre>
 *
 * <p>A stamper does for a commit what the service does, without asking it: it takes a reading in the call, and gives the
 * least stamp that is no less than the reading's latest, and above all stamps that it gave before. Any number of threads
 * may use it. Times are nanoseconds, and unsigned, so a negative one is past the greatest time.
 *
 * <p><b>One lease, one stamper.</b> A stamper knows its own stamps alone. Two stampers whose leases meet, in one process or
 * in two, on one machine or on two, may give the same stamp, and so may a stamper and the sessions of a machine, unless its
 * setting {@code stampers} holds the stamper's lease. So give each stamper a lease that meets no other, and share one among
 * the threads.
 *
 * <p><b>After a restart</b> a new stamper knows nothing of the stamps given before, and a floor may have put some of them
 * ahead of the time. Stamp the first commit with a floor above the greatest stamp of the log (902 says that this is still
 * too far ahead: wait), or make the stamper with a lease that begins above it, or a new one.
 */
public final class Stamper {
    /** The most that a floor may lie ahead of the reading's latest, in nanoseconds: ten seconds. */
    public static final long MAX_AHEAD_NS = 10_000_000_000L;
    /** How far it may, unless a stamper says otherwise: a second, as for sessions. */
    public static final long AHEAD_NS = 1_000_000_000;
    /** The widest grid, in nanoseconds: a second. */
    public static final long MAX_GRID_NS = 1_000_000_000;

    /** The longest sleep before the next look: a newer publication may have a later earliest. */
    private static final long LONGEST_SLEEP_NS = 50_000_000;

    private final TrueTime client;
    private final long leaseLoNs;
    private final AtomicLong leaseHiNs;
    private final long aheadNs;
    private final long gridNs;
    /** The least number above all stamps given: 0, or one more than the last one. */
    private final AtomicLong freeNs = new AtomicLong();

    /**
     * A stamp, and the reading by which it was given, which was taken in the call. {@code fresh} is false where the daemon is
     * late or gone, and another {@code epoch} than before is another life of the daemon; the stamp is as good in each case.
     */
    public record Stamp(long stampNs, TrueTime.Reading reading) {}

    /** A stamper by this reader, with the whole of time as its lease. It has given no stamp. */
    public Stamper(TrueTime client) {
        this(client, 0, TrueTime.MAX_TIME_NS);
    }

    /**
     * A stamper whose stamps lie from {@code leaseLoNs} to {@code leaseHiNs}, both included. Refuses with 101 where these are
     * out of order, then with 102 where the upper one is above the greatest time.
     */
    public Stamper(TrueTime client, long leaseLoNs, long leaseHiNs) {
        this(client, leaseLoNs, leaseHiNs, AHEAD_NS, 1);
    }

    /**
     * The same, where a floor may lie {@code aheadNs} ahead of the latest, {@link #MAX_AHEAD_NS} at most: it moves all later stamps,
     * too. Stamps are multiples of {@code gridNs}, {@link #MAX_GRID_NS} at most: 1,000 where a database keeps microseconds. Throws
     * {@link IllegalArgumentException} for other numbers.
     */
    public Stamper(TrueTime client, long leaseLoNs, long leaseHiNs, long aheadNs, long gridNs) {
        if (aheadNs < 0 || aheadNs > MAX_AHEAD_NS || gridNs < 1 || gridNs > MAX_GRID_NS) {
            throw new IllegalArgumentException("aheadNs is up to ten seconds, and gridNs from 1 to a second");
        }
        if (isBelow(leaseHiNs, leaseLoNs)) {
            throw new TrueTime.Refused(101);
        }
        if (isBelow(TrueTime.MAX_TIME_NS, leaseHiNs)) {
            throw new TrueTime.Refused(102);
        }
        this.client = client;
        this.leaseLoNs = leaseLoNs;
        this.leaseHiNs = new AtomicLong(leaseHiNs);
        this.aheadNs = aheadNs;
        this.gridNs = gridNs;
    }

    /** The earliest of a reading taken in this call. */
    long earliestNs() {
        return client.now().earliestNs();
    }

    /** Has the lease end later, while other threads stamp. It never ends earlier by this. Refuses with 102. */
    public void extend(long leaseHiNs) {
        if (isBelow(TrueTime.MAX_TIME_NS, leaseHiNs)) {
            throw new TrueTime.Refused(TrueTime.Refused.LEASE_PAST_MAX);
        }
        this.leaseHiNs.accumulateAndGet(leaseHiNs, Math::max);
    }

    /** Has all stamps from now on be above this time, as above the greatest in a log. Refuses with 102. */
    public void riseAbove(long tNs) {
        if (isBelow(TrueTime.MAX_TIME_NS, tNs)) {
            throw new TrueTime.Refused(TrueTime.Refused.LEASE_PAST_MAX);
        }
        freeNs.accumulateAndGet(tNs + 1, Math::max);
    }

    /**
     * The stamp of a commit: the least on the grid that is no less than the latest of a reading taken in this call, the floor and the lower
     * end of the lease, and above every stamp that this stamper gave before. It lies in the lease.
     *
     * <p>Refuses as {@link TrueTime#now}, then with 902 where the floor is further above the latest than it may be,
     * 901 where no such stamp is left up to the greatest time, 903 where it is above the upper end of the lease. After a
     * refusal nothing is used up. By a mapped reader it makes no system call but the clock's. It has one load and one
     * exchange, and one more exchange each time that another thread was faster.
     */
    public Stamp stamp(long floorNs) {
        TrueTime.Reading reading = client.now();
        long free = freeNs.get();
        while (true) {
            long stampNs = stampOf(free, reading.latestNs(), floorNs, leaseLoNs, leaseHiNs.get(), aheadNs, gridNs);
            long found = freeNs.compareAndExchange(free, stampNs + 1);
            if (found == free) {
                return new Stamp(stampNs, reading);
            }
            free = found;
        }
    }

    /**
     * Whether a stamp has surely passed: it is below the earliest of a reading taken in this call. Only then may anybody be
     * told of its commit. Refuses as {@link TrueTime#now}, and makes the system calls of that.
     */
    public boolean isPast(long stampNs) {
        return isBelow(stampNs, client.now().earliestNs());
    }

    /**
     * One step of {@link #awaitPast}, for who has to look at something else meanwhile: 0 where a stamp has surely passed, or else
     * how many nanoseconds to sleep before the next look, at most 50 milliseconds. Refuses as {@link TrueTime#now}.
     */
    public long leftNs(long stampNs) {
        long earliest = client.now().earliestNs();
        if (isBelow(stampNs, earliest)) {
            return 0;
        }
        long ahead = stampNs - earliest;
        return isBelow(ahead, LONGEST_SLEEP_NS) ? ahead + 1 : LONGEST_SLEEP_NS;
    }

    /**
     * Sleeps until a stamp has surely passed, and answers true, or until the time-out is over, and answers false. It takes a
     * reading before the first sleep and after each, also once the time-out is over, and sleeps as long as the stamp is ahead
     * of the earliest, at most 50 milliseconds at once.
     *
     * <p>Refuses as {@link TrueTime#now}, at once, but for 1710: that passes with a round of the daemon, so it sleeps and looks again.
     * The stamp is as it was after that, after false and after an interrupt: wait again.
     */
    public boolean awaitPast(long stampNs, Duration timeout) throws InterruptedException {
        long began = System.nanoTime();
        long limit = Math.max(TimeUnit.NANOSECONDS.convert(timeout), 0);
        while (true) {
            long sleep = sleepNs(stampNs);
            if (sleep == 0) {
                return true;
            }
            long left = limit - (System.nanoTime() - began);
            if (left <= 0) {
                return false;
            }
            if (Thread.interrupted()) {
                throw new InterruptedException();
            }
            LockSupport.parkNanos(this, Math.min(sleep, left));
        }
    }

    /** How long to sleep before the next look: where that is refused with 1710 the longest sleep. */
    private long sleepNs(long stampNs) {
        try {
            return leftNs(stampNs);
        } catch (TrueTime.Refused refused) {
            if (refused.number() != TrueTime.Refused.NO_SLEWED) {
                throw refused;
            }
            return LONGEST_SLEEP_NS;
        }
    }

    /**
     * The rule of all stamps, over unsigned numbers. {@code freeNs} is the least number above all stamps given: 0 before the
     * first one, and then one more than the last one.
     */
    static long stampOf(long freeNs, long latestNs, long floorNs, long leaseLoNs, long leaseHiNs, long aheadNs, long gridNs) {
        if (isBelow(latestNs, floorNs) && isBelow(aheadNs, floorNs - latestNs)) {
            throw new TrueTime.Refused(902);
        }
        long stampNs = greater(greater(latestNs, floorNs), greater(leaseLoNs, freeNs));
        if (gridNs > 1) {
            stampNs += Long.remainderUnsigned(gridNs - Long.remainderUnsigned(stampNs, gridNs), gridNs);
        }
        if (isBelow(TrueTime.MAX_TIME_NS, stampNs)) {
            throw new TrueTime.Refused(901);
        }
        if (isBelow(leaseHiNs, stampNs)) {
            throw new TrueTime.Refused(903);
        }
        return stampNs;
    }

    private static boolean isBelow(long a, long b) {
        return Long.compareUnsigned(a, b) < 0;
    }

    private static long greater(long a, long b) {
        return isBelow(a, b) ? b : a;
    }
}
