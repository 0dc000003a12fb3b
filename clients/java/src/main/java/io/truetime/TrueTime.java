package io.truetime;

import java.io.IOException;
import java.io.UncheckedIOException;
import java.lang.invoke.MethodHandles;
import java.lang.invoke.VarHandle;
import java.nio.ByteBuffer;
import java.nio.ByteOrder;
import java.nio.channels.FileChannel;
import java.nio.charset.StandardCharsets;
import java.nio.file.Files;
import java.nio.file.LinkOption;
import java.nio.file.NoSuchFileException;
import java.nio.file.Path;
import java.nio.file.StandardOpenOption;
import java.nio.file.attribute.PosixFileAttributes;
import java.nio.file.attribute.PosixFilePermission;
import java.util.Arrays;
import java.util.Map;
import java.util.concurrent.atomic.AtomicLong;
import java.util.concurrent.atomic.AtomicReference;

/**
 * The time with an error bound, read from shared memory; a {@link Stamper} gives timestamps for commits by it.
 *
 * <p>The time daemon of a machine keeps its last publication in a file of 320 bytes. A client maps that file once and
 * reads it as often as it likes, without a lock and without waiting:
 *
 * <pre>{@code
 * TrueTime client = TrueTime.open(Path.of("/run/truetime/time"), "truetime");
 * TrueTime.Reading now = client.now();
 * System.out.println(now.earliestNs() + " " + now.latestNs()); // the true time lies between them, in nanoseconds
 * }</pre>
 *
 * <p>Where an owner of the file or of its folder truncates the file, the access to a mapped one fails with an {@link
 * InternalError}, at some moment. A client of {@link #openUnmapped} refuses instead; each of its calls makes three system
 * calls more.
 *
 * <p>A call that would refuse, or give a reading that is not fresh, looks at the path, at most once a second. Where another
 * file is there, as behind a restart, the client opens that by the same rules, and answers by it.
 *
 * <p>The clock is CLOCK_MONOTONIC: {@link System#nanoTime} has to show it, as it does in OpenJDK on Linux. Where the clock of the
 * file is CLOCK_MONOTONIC_RAW, which Java does not show, the file also has the time by CLOCK_MONOTONIC: 1710 is the refusal while it
 * has not.
 *
 * <p>Reads version 3 of the format (its first four bytes are TTS3), and refuses another version with 1702. Needs Linux
 * on a little-endian 64-bit machine and Java 17 or later. A mapping goes with the collector.
 */
public final class TrueTime implements AutoCloseable {
    /** The greatest time and the greatest clock reading, in nanoseconds. */
    public static final long MAX_TIME_NS = 4_000_000_000_000_000_000L;
    /** The greatest drift of a clock, in parts per million. */
    public static final long MAX_DRIFT_PPM = 100_000;

    private static final int BYTES = 320;
    private static final int INDEX_AT = 16;
    private static final int FIRST_SLOT_AT = 64;
    private static final int SLOT_BYTES = 128;
    private static final int TRIES = 1000;
    private static final long LOOK_NS = 1_000_000_000;
    private static final long MAGIC_AND_LENGTH = 0x0000_0140_3353_5454L;
    /** The clocks that a file may have, by their numbers in Linux. */
    private static final long CLOCK_MONOTONIC = 1;
    private static final long CLOCK_MONOTONIC_RAW = 4;
    private static final long LOWEST_BITS = 0x0101_0101_0101_0101L;
    private static final VarHandle WORD = MethodHandles.byteBufferViewVarHandle(long[].class, ByteOrder.LITTLE_ENDIAN);
    private static final Map<Integer, String> MEANINGS = Map.ofEntries(
        Map.entry(1, "the service is out of memory"),
        Map.entry(101, "the ends of the lease are out of order"),
        Map.entry(102, "the upper end of the lease is above the greatest time"),
        Map.entry(801, "the daemon has published nothing so far, or nothing is published any more"),
        Map.entry(802, "the clock is below that of the publication, or above the greatest time"),
        Map.entry(803, "the clock gave no reading"),
        Map.entry(901, "no stamp is left up to the greatest time"),
        Map.entry(902, "the floor is too far ahead of the latest"),
        Map.entry(903, "the least stamp is above the upper end of the lease, or the session has lost its lease: set it again"),
        Map.entry(1001, "as many commits are pending as may"),
        Map.entry(1002, "a commit with this id is pending or was released"),
        Map.entry(1003, "another commit has this stamp"),
        Map.entry(1101, "the service knows no such line"),
        Map.entry(1102, "the line has more than 64 bytes"),
        Map.entry(1103, "a later commit has begun in this session"),
        Map.entry(1104, "the last commit is not known as released"),
        Map.entry(1701, "the file cannot be opened, mapped or read"),
        Map.entry(1702, "not such a file, or of another owner, writable by others, of another boot or another clock"),
        Map.entry(1703, "no daemon wrote what stands there"),
        Map.entry(1704, "another publication came during each of the tries"),
        Map.entry(1708, "the clock is past the last reading at which the publication may be used"),
        Map.entry(1710, "the file gives nothing by CLOCK_MONOTONIC"),
        Map.entry(1821, "the floor, or the lower end of the lease, is further ahead than the machine allows"),
        Map.entry(1822, "the commit is pending no more: its connection broke, or the machine ends"),
        Map.entry(1823, "the machine knows that an assumption of the service is broken"),
        Map.entry(1824, "the reading is wider than the machine allows, or than max_width of this client"));

    private final Path path;
    private final String owner;
    private final boolean isMapped;
    private long maxWidthNs = Long.MAX_VALUE;
    /** What is read; null where the client is closed. */
    private final AtomicReference<Opened> opened;
    /** The clock reading from which on the path may be looked at again. */
    private final AtomicLong nextLookNs = new AtomicLong(Long.MIN_VALUE);

    /**
     * A file that is open, its identity, and whether its clock is CLOCK_MONOTONIC_RAW. The buffer is null where it is not mapped, or
     * else the channel.
     */
    private record Opened(ByteBuffer mapped, FileChannel file, Object key, boolean isRaw) {
        /** Whether the interrupt of a thread that read it has closed it. */
        boolean isGone() {
            return file != null && !file.isOpen();
        }

        void close() throws IOException {
            if (file != null) {
                file.close();
            }
        }
    }

    private TrueTime(Path path, String owner, boolean isMapped) throws IOException {
        this.path = path.toAbsolutePath();
        this.owner = owner;
        this.isMapped = isMapped;
        opened = new AtomicReference<>(openedAnew());
    }

    /**
     * A refusal of a reader, a stamper or a session; {@link #number} says which, as the constants do. It is not checked, and has
     * no stack trace. The cause of {@link #NO_FILE} is what the system said, and the text of {@link #OTHER_FILE} says which check
     * of the file failed.
     */
    public static class Refused extends RuntimeException {
        /** The service is out of memory. */
        public static final int OUT_OF_MEMORY = 1;
        /** The ends of the lease are out of order. */
        public static final int LEASE_BACKWARDS = 101;
        /** The upper end of the lease is above the greatest time. */
        public static final int LEASE_PAST_MAX = 102;
        /** The daemon has published nothing so far, or nothing is published any more. */
        public static final int NOTHING = 801;
        /** The clock is below that of the publication, or above the greatest time. */
        public static final int CLOCK_BACK = 802;
        /** The clock gave no reading. */
        public static final int CLOCK_FAILED = 803;
        /** No stamp is left up to the greatest time. */
        public static final int USED_UP = 901;
        /** The floor is too far ahead of the latest. */
        public static final int FLOOR_TOO_FAR = 902;
        /** The least stamp is above the upper end of the lease, or the session has lost its lease: set it again. */
        public static final int LEASE_OVER = 903;
        /** As many commits are pending as may. */
        public static final int TOO_MANY_COMMITS = 1001;
        /** A commit with this id is pending or was released. */
        public static final int ID_USED = 1002;
        /** Another commit has this stamp. */
        public static final int STAMP_USED = 1003;
        /** The service knows no such line. */
        public static final int NO_LINE = 1101;
        /** The line has more than 64 bytes. */
        public static final int LINE_TOO_LONG = 1102;
        /** A later commit has begun in this session. */
        public static final int COMMIT_PASSED = 1103;
        /** The last commit is not known as released. */
        public static final int COMMIT_PENDING = 1104;
        /** The file cannot be opened, mapped or read, or the client is closed. */
        public static final int NO_FILE = 1701;
        /** Not such a file, or of another owner, writable by others, of another boot or another clock. */
        public static final int OTHER_FILE = 1702;
        /** No daemon wrote what stands there. */
        public static final int NO_SLOT = 1703;
        /** Another publication came during each of the tries. */
        public static final int BUSY = 1704;
        /** The clock is past the last reading at which the publication may be used. */
        public static final int TOO_WIDE = 1708;
        /** The file gives nothing by CLOCK_MONOTONIC, until the daemon's next round, or longer. */
        public static final int NO_SLEWED = 1710;
        /** The floor, or the lower end of the lease, is further ahead than the machine allows. */
        public static final int FLOOR_ABOVE_CAP = 1821;
        /** The commit is pending no more: its connection broke, or the machine ends. */
        public static final int COMMIT_GONE = 1822;
        /** The machine knows that an assumption of the service is broken. */
        public static final int BROKEN = 1823;
        /** The reading is wider than the machine allows, or than the client does. */
        public static final int READING_TOO_WIDE = 1824;

        private static final long serialVersionUID = 1;
        private final int number;

        Refused(int number) {
            this(number, "", null);
        }

        Refused(int number, String more) {
            this(number, more, null);
        }

        Refused(int number, Throwable cause) {
            this(number, ": " + cause, cause);
        }

        private Refused(int number, String more, Throwable cause) {
            super("refused " + number + ": " + MEANINGS.getOrDefault(number, "see docs/reference/refusals.md") + more, cause, false, false);
            this.number = number;
        }

        /** The number of the refusal. */
        public int number() {
            return number;
        }
    }

    /**
     * What is known of the true time: it lies from earliestNs to latestNs, both included. The publication that was read
     * is the one with this number in the daemon's life {@code epoch}. Where {@code fresh} is false, the daemon is late or
     * gone: the interval is right, and widens until the daemon is back.
     */
    public record Reading(long earliestNs, long latestNs, long epoch, long number, boolean fresh) {
        /** Whether time {@code tNs} has surely passed. */
        public boolean after(long tNs) {
            return tNs < earliestNs;
        }

        /** Whether time {@code tNs} has surely not arrived. */
        public boolean before(long tNs) {
            return tNs > latestNs;
        }
    }

    /**
     * What the daemon published, by CLOCK_MONOTONIC; epoch, number, validUntilNs and usableUntilNs are unsigned. The last one is the
     * last clock reading at which it may be used; -1 (2^64 - 1): there is no limit; 0: nothing is published any more.
     */
    public record Publication(
            long clockNs, long loNs, long hiNs, long validUntilNs, long usableUntilNs, long epoch, long number, long driftPpm) {
        /** The reading of this publication at a clock reading. Refuses with 802 and 1708. */
        public Reading readAt(long nowNs) {
            if (nowNs < clockNs || nowNs > MAX_TIME_NS) {
                throw new Refused(802);
            }
            if (Long.compareUnsigned(nowNs, usableUntilNs) > 0) {
                throw new Refused(1708);
            }
            long elapsed = nowNs - clockNs;
            long widening = widening(elapsed);
            // The upper end may pass 2^63, and not 2^64.
            long latest = hiNs + elapsed + widening;
            if (Long.compareUnsigned(latest, MAX_TIME_NS) > 0) {
                latest = MAX_TIME_NS;
            }
            long earliest = Math.min(loNs + (elapsed - widening), MAX_TIME_NS);
            return new Reading(earliest, latest, epoch, number, Long.compareUnsigned(nowNs, validUntilNs) <= 0);
        }

        /**
         * What the clock may be wrong by after so long, at most MAX_TIME_NS: rounded up. Nothing overflows: below 2^46, some 19
         * hours, the product with MAX_DRIFT_PPM is below 2^63.
         */
        private long widening(long elapsed) {
            if (elapsed < 1L << 46) {
                return (elapsed * driftPpm + 999_999) / 1_000_000;
            }
            return elapsed / 1_000_000 * driftPpm + (elapsed % 1_000_000 * driftPpm + 999_999) / 1_000_000;
        }

        private boolean isInRange() {
            return isBase(clockNs, loNs, hiNs, driftPpm);
        }
    }

    /** Whether these may be the clock, the span and the drift of a base. */
    private static boolean isBase(long clockNs, long loNs, long hiNs, long driftPpm) {
        return isTime(clockNs) && isTime(loNs) && isTime(hiNs) && loNs <= hiNs && driftPpm >= 0 && driftPpm <= MAX_DRIFT_PPM;
    }

    private static boolean isTime(long ns) {
        return ns >= 0 && ns <= MAX_TIME_NS;
    }

    /** Maps the file at this path, which this user has to own: a name or a number. Refuses with 1701 and 1702. */
    public static TrueTime open(Path path, String owner) {
        try {
            return new TrueTime(path, owner, true);
        } catch (IOException failed) {
            throw new Refused(Refused.NO_FILE, failed);
        }
    }

    /** Maps the file at this path, which the user of this number has to own. Refuses with 1701 and 1702. */
    public static TrueTime open(Path path, int owner) {
        return open(path, Integer.toUnsignedString(owner));
    }

    /**
     * Opens it as {@link #open}, and each call reads it. An interrupt of a thread in such a call closes the file, as that of
     * a thread in a {@link FileChannel} does: the call refuses with 1701, and the thread still counts as interrupted. Calls of
     * threads that do not open the file anew.
     */
    public static TrueTime openUnmapped(Path path, String owner) {
        try {
            return new TrueTime(path, owner, false);
        } catch (IOException failed) {
            throw new Refused(Refused.NO_FILE, failed);
        }
    }

    /**
     * Has readings that are wider than this refused with 1824, in nanoseconds, and so the timestamps by them; the machine's own
     * max_width need not be set. Call it before other threads use the client. The client itself.
     */
    public TrueTime limitWidth(long maxWidthNs) {
        this.maxWidthNs = maxWidthNs;
        return this;
    }

    /** Closes the client: calls refuse with 1701 from now on. The memory of a mapped file goes with the client object. */
    @Override
    public void close() {
        Opened of = opened.getAndSet(null);
        try {
            if (of != null) {
                of.close();
            }
        } catch (IOException failed) {
            throw new UncheckedIOException(failed);
        }
    }

    /**
     * The last publication, by CLOCK_MONOTONIC. Refuses with 801, 1704 and 1703, then with 801 where nothing is published any more and
     * 1710 where that is not by CLOCK_MONOTONIC, and with 1701 where it is not mapped and has become shorter, or the client is closed.
     */
    public Publication read() {
        Opened of = opened();
        try {
            return readOf(of);
        } catch (Refused refused) {
            Opened other = otherThan(of);
            if (other == null) {
                throw refused;
            }
            return readOf(other);
        }
    }

    /** The time now. Refuses as {@link #read}, and with 802 and 1708, and with 1824 by {@link #limitWidth}. */
    public Reading now() {
        Opened of = opened();
        Reading late = null;
        Refused refused = null;
        try {
            late = nowOf(of);
            if (late.fresh()) {
                return late;
            }
        } catch (Refused failed) {
            refused = failed;
        }
        Opened other = otherThan(of);
        if (other != null) {
            return nowOf(other);
        }
        if (refused != null) {
            throw refused;
        }
        return late;
    }

    private Opened opened() {
        Opened of = opened.get();
        if (of == null) {
            throw new Refused(Refused.NO_FILE, ": the client is closed");
        }
        return of;
    }

    /** Whether the path was not looked at within a second: then the caller does it. */
    private boolean mayLook() {
        long next = nextLookNs.get();
        long nowNs = System.nanoTime();
        return nowNs >= next && nextLookNs.compareAndSet(next, nowNs + LOOK_NS);
    }

    /**
     * What is read in place of this; null where that is still it. Looks at the path, unless it was looked at within a second, and
     * takes another file that is there, where it passes the checks of opening one. The old one is closed, or goes with the
     * collector. A file that an interrupt has closed is opened anew at once, by a thread that would not close it again.
     */
    private Opened otherThan(Opened of) {
        Opened found = opened.get();
        if (found != of) {
            return found;
        }
        boolean isGone = of.isGone();
        if (Thread.currentThread().isInterrupted() || !isGone && !mayLook()) {
            return null;
        }
        try {
            if (!isGone && of.key().equals(Files.readAttributes(path, PosixFileAttributes.class, LinkOption.NOFOLLOW_LINKS).fileKey())) {
                return null;
            }
            Opened anew = openedAnew();
            boolean isTaken = opened.compareAndSet(of, anew);
            (isTaken ? of : anew).close();
            return opened.get();
        } catch (IOException | Refused failed) {
            return null;
        }
    }

    private Reading nowOf(Opened of) {
        Publication published = readOf(of);
        // The clock is read after the publication, so it is not below that of the publication.
        Reading now = published.readAt(System.nanoTime());
        if (now.latestNs() - now.earliestNs() > maxWidthNs) {
            throw new Refused(Refused.READING_TOO_WIDE);
        }
        return now;
    }

    private static Publication readOf(Opened of) {
        ByteBuffer mapped = of.mapped();
        FileChannel file = of.file();
        boolean isRaw = of.isRaw();
        for (int tries = 0; tries < TRIES; tries++) {
            long index = index(mapped, file);
            // The publication's count is odd where an odd number of the eight bytes of the index are odd.
            int at = FIRST_SLOT_AT + SLOT_BYTES * (Long.bitCount(index & LOWEST_BITS) & 1);
            ByteBuffer bytes = mapped == null ? bytesAt(file, at, SLOT_BYTES) : mapped;
            int slot = mapped == null ? 0 : at;
            // The first base, or the second one where the clock of the file is the raw one. Both are judged, whichever is read.
            int base = slot + (isRaw ? 72 : 8);
            int other = slot + (isRaw ? 8 : 72);
            long echo = word(bytes, slot);
            Publication published = new Publication(word(bytes, base), word(bytes, base + 8), word(bytes, base + 16),
                word(bytes, slot + (isRaw ? 104 : 32)), word(bytes, slot + (isRaw ? 112 : 64)),
                word(bytes, slot + 40), word(bytes, slot + 48), word(bytes, slot + (isRaw ? 96 : 56)));
            boolean isOther = isBase(word(bytes, other), word(bytes, other + 8), word(bytes, other + 16), word(bytes, slot + (isRaw ? 56 : 96)));
            long usable = word(bytes, slot + 64);
            long zero = word(bytes, slot + 120);
            // The slot was read behind the index, and before the index again.
            VarHandle.acquireFence();
            if (index(mapped, file) != index) {
                continue;
            }
            if (index == 0) {
                throw new Refused(801);
            }
            if (echo != index || zero != 0 || !published.isInRange() || !isOther) {
                throw new Refused(1703);
            }
            if (usable == 0) {
                throw new Refused(801);
            }
            if (published.usableUntilNs() == 0) {
                throw new Refused(1710);
            }
            return published;
        }
        throw new Refused(1704);
    }

    private static long index(ByteBuffer mapped, FileChannel file) {
        return mapped == null ? bytesAt(file, INDEX_AT, Long.BYTES).getLong(0) : (long) WORD.getAcquire(mapped, INDEX_AT);
    }

    /** A word of a slot. It need not be one step: {@link #read} takes it only where none of its bytes changed meanwhile. */
    private static long word(ByteBuffer bytes, int at) {
        return (long) WORD.get(bytes, at);
    }

    /** So many bytes of a file, before any that is read later. Refuses with 1701. */
    private static ByteBuffer bytesAt(FileChannel file, int at, int length) {
        ByteBuffer bytes = ByteBuffer.allocate(length).order(ByteOrder.LITTLE_ENDIAN);
        try {
            while (bytes.hasRemaining()) {
                if (file.read(bytes, at + bytes.position()) <= 0) {
                    throw new Refused(Refused.NO_FILE, ": it has become shorter");
                }
            }
        } catch (IOException failed) {
            throw new Refused(Refused.NO_FILE, failed);
        }
        VarHandle.acquireFence();
        return bytes;
    }

    /** The file at the path, where it is such a file. */
    private Opened openedAnew() throws IOException {
        PosixFileAttributes found = Files.readAttributes(path, PosixFileAttributes.class, LinkOption.NOFOLLOW_LINKS);
        if (!found.isRegularFile() || found.size() != BYTES) {
            throw new Refused(Refused.OTHER_FILE, ": it is no file of " + BYTES + " bytes");
        }
        String number = Integer.toUnsignedString((int) Files.getAttribute(path, "unix:uid", LinkOption.NOFOLLOW_LINKS));
        if (!owner.equals(number) && !owner.equals(found.owner().getName())) {
            throw new Refused(Refused.OTHER_FILE, ": its owner is " + found.owner().getName() + ", not " + owner);
        }
        if (found.permissions().contains(PosixFilePermission.GROUP_WRITE)
                || found.permissions().contains(PosixFilePermission.OTHERS_WRITE)) {
            throw new Refused(Refused.OTHER_FILE, ": others may write to it");
        }
        FileChannel file = FileChannel.open(path, StandardOpenOption.READ, LinkOption.NOFOLLOW_LINKS);
        boolean isKept = false;
        try {
            boolean isRaw = clockOf(bytesAt(file, 0, FIRST_SLOT_AT)) == CLOCK_MONOTONIC_RAW;
            isKept = !isMapped;
            ByteBuffer mapped = isMapped ? file.map(FileChannel.MapMode.READ_ONLY, 0, BYTES) : null;
            return new Opened(mapped, isMapped ? null : file, found.fileKey(), isRaw);
        } finally {
            if (!isKept) {
                file.close();
            }
        }
    }

    /** The clock of a file with this head, where it is such a file. */
    private static long clockOf(ByteBuffer head) throws IOException {
        byte[] boot = new byte[36];
        head.get(24, boot);
        long clock = head.getLong(8);
        boolean isClock = clock == CLOCK_MONOTONIC || clock == CLOCK_MONOTONIC_RAW;
        if (head.getLong(0) != MAGIC_AND_LENGTH || !isClock || head.getInt(60) != 0) {
            throw new Refused(Refused.OTHER_FILE, ": it is of another format, or of another version");
        }
        if (!isSameClock(boot)) {
            throw new Refused(Refused.OTHER_FILE, ": it is of another boot, or of another clock");
        }
        return clock;
    }

    /** Whether both clocks are here what they are to the daemon: the same boot, and no time namespace that shifts them. */
    private static boolean isSameClock(byte[] boot) throws IOException {
        byte[] here = Files.readString(Path.of("/proc/sys/kernel/random/boot_id")).strip().getBytes(StandardCharsets.US_ASCII);
        if (!Arrays.equals(here, boot)) {
            return false;
        }
        try {
            String first = Files.readAllLines(Path.of("/proc/self/timens_offsets")).get(0);
            return first.strip().matches("monotonic +0 +0");
        } catch (NoSuchFileException noNamespaces) {
            return true;
        }
    }
}
