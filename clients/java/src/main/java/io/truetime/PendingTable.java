package io.truetime;

import java.time.Duration;
import java.util.OptionalLong;
import java.util.TreeSet;
import java.util.concurrent.TimeUnit;

/**
 * The commits of one stamper from their stamps until they are written, so that snapshots hold all that they have to.
 *
 * <p>A database begins each commit by {@link #begin}, writes it under its stamp, says so by {@link #written}, and tells nobody
 * before {@link #release}. A snapshot at a time that {@link #makeReadable} or {@link #watermark} gave holds every commit with a
 * stamp up to it, and no later one gets such a stamp. Any number of threads may use one table; no stamp of the stamper may be taken
 * past it.
 */
public final class PendingTable {
    private final Stamper stamper;
    /** The stamps of commits that are not written. */
    private final TreeSet<Long> unwritten = new TreeSet<>();

    /** A table of no commits. */
    public PendingTable(Stamper stamper) {
        this.stamper = stamper;
    }

    /**
     * Begins a commit: its stamp, as {@link Stamper#stamp} gives it, with its refusals. It has to be ended by {@link #written} or
     * {@link #giveUp}.
     */
    public synchronized long begin(long floorNs) {
        long stampNs = stamper.stamp(floorNs).stampNs();
        unwritten.add(stampNs);
        return stampNs;
    }

    /**
     * Says that a commit is written: who reads under its stamp sees it from now on. Throws {@link IllegalStateException} where no
     * commit with this stamp is pending.
     */
    public void written(long stampNs) {
        end(stampNs);
    }

    /** Says that a commit is never written. Throws {@link IllegalStateException} where no commit with this stamp is pending. */
    public void giveUp(long stampNs) {
        end(stampNs);
    }

    /**
     * Waits until the stamp of a commit that is written has surely passed: only then may anybody be told. As {@link
     * Stamper#awaitPast}. Throws {@link IllegalStateException} where it is not written.
     */
    public boolean release(long stampNs, Duration timeout) throws InterruptedException {
        synchronized (this) {
            if (unwritten.contains(stampNs)) {
                throw new IllegalStateException("the commit is not written");
            }
        }
        return stamper.awaitPast(stampNs, timeout);
    }

    /**
     * The greatest time that has surely passed and up to which all commits are written; empty where there is none. Refuses as {@link
     * TrueTime#now}.
     */
    public synchronized OptionalLong watermark() {
        // Whoever begins a commit behind this reading gets a stamp that is no less than its earliest.
        long boundNs = Math.min(stamper.earliestNs(), least());
        return boundNs == 0 ? OptionalLong.empty() : OptionalLong.of(boundNs - 1);
    }

    /**
     * Waits until a time has surely passed and all commits up to it are written, and answers true, or until the time-out is over, and
     * answers false. Refuses as {@link TrueTime#now}.
     */
    public boolean makeReadable(long tNs, Duration timeout) throws InterruptedException {
        long began = System.nanoTime();
        long limitNs = Math.min(TimeUnit.NANOSECONDS.convert(timeout), Long.MAX_VALUE / 2);
        if (!stamper.awaitPast(tNs, timeout)) {
            return false;
        }
        synchronized (this) {
            while (least() <= tNs) {
                long leftMs = (limitNs - (System.nanoTime() - began) + 999_999) / 1_000_000;
                if (leftMs <= 0) {
                    return false;
                }
                wait(leftMs);
            }
        }
        return true;
    }

    private long least() {
        return unwritten.isEmpty() ? Long.MAX_VALUE : unwritten.first();
    }

    private synchronized void end(long stampNs) {
        if (!unwritten.remove(stampNs)) {
            throw new IllegalStateException("no commit with this stamp is pending");
        }
        notifyAll();
    }
}
