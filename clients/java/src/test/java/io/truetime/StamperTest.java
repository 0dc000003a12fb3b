package io.truetime;

import java.io.IOException;
import java.nio.ByteBuffer;
import java.nio.ByteOrder;
import java.nio.channels.FileChannel;
import java.nio.charset.StandardCharsets;
import java.nio.file.Files;
import java.nio.file.Path;
import java.nio.file.StandardOpenOption;
import java.time.Duration;
import java.util.ArrayList;
import java.util.Arrays;
import java.util.Comparator;
import java.util.List;
import java.util.concurrent.Callable;
import java.util.concurrent.CyclicBarrier;
import java.util.concurrent.ExecutorService;
import java.util.concurrent.Executors;
import java.util.concurrent.Future;
import java.util.concurrent.atomic.AtomicInteger;

/**
 * Tests the stamper: its rule by values worked out by hand, and stampers over files that the tests write.
 *
 * <p>Run as {@code java -cp OUT io.truetime.StamperTest}.
 */
public final class StamperTest {
    private static final long MAX = TrueTime.MAX_TIME_NS;
    private static final long AHEAD = 10_000_000_000L;
    /** Far above the readings of these tests, so the stamps do not depend on the clock. */
    private static final long LO = 500_000_000_000_000_000L;
    private static final long NO_LIMIT = -1;
    private static final int THREADS = 8;
    private static final AtomicInteger CHECKS = new AtomicInteger();

    private StamperTest() {}

    /** A file with publications, in a folder of its own. */
    private static final class Shared implements AutoCloseable {
        private final Path folder = Files.createTempDirectory("truetime");
        private final Path path = folder.resolve("time");

        /** One in which nothing was published. Its clock is CLOCK_MONOTONIC_RAW. */
        Shared() throws IOException {
            ByteBuffer bytes = ByteBuffer.allocate(320).order(ByteOrder.LITTLE_ENDIAN);
            bytes.putLong(0, 0x0000_0140_3353_5454L).putLong(8, 4);
            byte[] boot = Files.readString(Path.of("/proc/sys/kernel/random/boot_id")).getBytes(StandardCharsets.US_ASCII);
            bytes.put(24, boot, 0, 36);
            Files.write(path, bytes.array());
        }

        /** One with this interval at this moment, and no drift. */
        Shared(long loNs, long hiNs) throws IOException {
            this();
            publish(1, loNs, hiNs, NO_LIMIT);
        }

        /** Publishes as the daemon does: the slot, and then the index. The count is 1 or 2. */
        void publish(long count, long loNs, long hiNs, long usableUntilNs) throws IOException {
            publish(count, loNs, hiNs, usableUntilNs, -1);
        }

        /** The same, where the publication by the raw clock, of which nothing is told, may be used until a reading of that. */
        void publish(long count, long loNs, long hiNs, long usableUntilNs, long rawUntilNs) throws IOException {
            long clock = System.nanoTime();
            ByteBuffer slot = ByteBuffer.allocate(128).order(ByteOrder.LITTLE_ENDIAN);
            for (long word : new long[] {count, MAX, 1, 2, 3, 70 + count, 9, 100_000, rawUntilNs, clock, loNs, hiNs, 0, clock, usableUntilNs, 0}) {
                slot.putLong(word);
            }
            // Byte 0 of the index is the count's less byte 1 of that, which is 0.
            ByteBuffer index = ByteBuffer.allocate(8).order(ByteOrder.LITTLE_ENDIAN).putLong(0, count);
            try (FileChannel file = FileChannel.open(path, StandardOpenOption.WRITE)) {
                file.write(slot.flip(), 64 + 128 * (count % 2));
                file.write(index, 16);
            }
        }

        TrueTime client() throws IOException {
            return TrueTime.open(path, Files.getOwner(path).getName());
        }

        @Override
        public void close() throws IOException {
            Files.delete(path);
            Files.delete(folder);
        }
    }

    private static void check(boolean isSo, Object... what) {
        CHECKS.incrementAndGet();
        if (!isSo) {
            throw new AssertionError(Arrays.toString(what));
        }
    }

    /** What a call gives, or the number of its refusal below 0. */
    private static long given(Callable<Long> call) throws Exception {
        try {
            return call.call();
        } catch (TrueTime.Refused refused) {
            return -refused.number();
        }
    }

    private static void equal(long wanted, Callable<Long> call) throws Exception {
        long came = given(call);
        check(came == wanted, came, "in place of", wanted);
    }

    private static void stamps(long wanted, Stamper stamper, long floorNs) throws Exception {
        equal(wanted, () -> stamper.stamp(floorNs).stampNs());
    }

    /** Rows of the least free number, latest, floor, both ends of the lease, and the answer. */
    private static void ruleByHand() throws Exception {
        long[][] rows = {
            {0, 0, 0, 0, MAX, 0},
            {1, 0, 0, 0, MAX, 1}, // 0 was given
            {0, 250, 0, 0, MAX, 250},
            {0, 250, 249, 0, MAX, 250},
            {0, 250, 251, 0, MAX, 251},
            {250, 250, 0, 0, MAX, 250},
            {251, 250, 0, 0, MAX, 251},
            {251, 250, 251, 0, MAX, 251},
            {1_000, 250, 999, 0, MAX, 1_000},
            {0, 250, 0, 300, MAX, 300},
            {301, 250, 0, 300, MAX, 301},
            // The floor may be ten seconds ahead of the latest, and no more.
            {0, 0, 10_000_000_000L, 0, MAX, 10_000_000_000L},
            {0, 0, 10_000_000_001L, 0, MAX, -902},
            {0, 250, 10_000_000_250L, 0, MAX, 10_000_000_250L},
            {0, 250, 10_000_000_251L, 0, MAX, -902},
            {20_000_000_000L, 250, 10_000_000_251L, 0, MAX, -902},
            {0, 250, 10_000_000_251L, 20_000_000_000L, MAX, -902},
            {0, 250, -1, 0, MAX, -902}, // 2^64 - 1
            {0, 250, Long.MIN_VALUE, 0, MAX, -902}, // 2^63
            // The end of time.
            {0, MAX, 0, 0, MAX, MAX},
            {MAX, MAX, MAX, MAX, MAX, MAX},
            {MAX, 250, 0, 0, MAX, MAX},
            {MAX + 1, 250, 0, 0, MAX, -901},
            {-1, 250, 0, 0, MAX, -901},
            {0, MAX, MAX + 1, 0, MAX, -901},
            {0, MAX, MAX + AHEAD, 0, MAX, -901},
            {0, MAX, MAX + AHEAD + 1, 0, MAX, -902},
            // The ends of the lease.
            {0, 250, 0, 250, 250, 250},
            {0, 250, 0, 0, 250, 250},
            {0, 250, 0, 0, 249, -903},
            {0, 250, 251, 0, 250, -903},
            {250, 250, 0, 0, 250, 250},
            {251, 250, 0, 0, 250, -903}, // the last stamp is the lease's end
            {0, 0, 0, 0, 0, 0},
            {1, 0, 0, 0, 0, -903},
            // The order of the refusals.
            {0, 250, 10_000_000_251L, 0, 100, -902},
            {MAX + 1, 250, 10_000_000_251L, 0, 100, -902},
            {MAX + 1, 250, 0, 0, 300, -901},
            {MAX, 250, 0, 0, MAX - 1, -903},
        };
        for (long[] row : rows) {
            long came = given(() -> Stamper.stampOf(row[0], row[1], row[2], row[3], row[4], Stamper.MAX_AHEAD_NS, 1));
            check(came == row[5], Arrays.toString(row), came);
        }
    }

    private static long opened(TrueTime client, long loNs, long hiNs) throws Exception {
        return given(() -> new Stamper(client, loNs, hiNs) == null ? 1L : 0L);
    }

    private static void leases() throws Exception {
        try (Shared shared = new Shared(); TrueTime client = shared.client()) {
            check(opened(client, 8, 7) == -101);
            check(opened(client, -1, MAX + 1) == -101);
            check(opened(client, 7, MAX + 1) == -102);
            check(opened(client, 7, -1) == -102);
            check(opened(client, 7, 7) == 0);
            check(opened(client, 0, MAX) == 0);
        }
    }

    private static void stampsOfLease() throws Exception {
        try (Shared shared = new Shared(1_000, 2_000); TrueTime client = shared.client()) {
            Stamper stamper = new Stamper(client, LO, LO + 2);
            stamps(LO, stamper, 0);
            // After a refusal nothing is used up.
            stamps(-902, stamper, LO + 2);
            stamps(LO + 1, stamper, 3_000);
            stamps(-902, stamper, -1);
            stamps(LO + 2, stamper, 0);
            stamps(-903, stamper, 0);
            stamps(-902, stamper, LO);
            stamps(-903, stamper, 0);
        }
    }

    private static void stampsAtEndOfTime() throws Exception {
        try (Shared shared = new Shared(MAX, MAX); TrueTime client = shared.client()) {
            Stamper stamper = new Stamper(client);
            stamps(-901, stamper, MAX + 1);
            stamps(MAX, stamper, 0);
            stamps(-901, stamper, 0);
            stamps(-902, stamper, MAX + AHEAD + 1);
            check(stamper.isPast(MAX - 1));
            check(!stamper.isPast(MAX));
            check(!stamper.isPast(-1));
            check(stamper.awaitPast(MAX - 1, Duration.ZERO));
            check(!stamper.awaitPast(MAX, Duration.ZERO));
        }
    }

    private static void onlyTheEarliestHasPassed() throws Exception {
        try (Shared shared = new Shared(1_000, MAX); TrueTime client = shared.client()) {
            Stamper stamper = new Stamper(client);
            check(stamper.isPast(999));
            check(!stamper.isPast(LO));
            check(stamper.awaitPast(999, Duration.ZERO));
            check(!stamper.awaitPast(LO, Duration.ZERO));
        }
    }

    private static void readingsOfStamps() throws Exception {
        try (Shared shared = new Shared(1_000, 2_000); TrueTime client = shared.client()) {
            Stamper stamper = new Stamper(client);
            Stamper.Stamp first = stamper.stamp(0);
            check(first.stampNs() == first.reading().latestNs(), first);
            check(first.reading().latestNs() - first.reading().earliestNs() == 1_000, first);
            // It was published as overdue, in life 71.
            check(first.reading().epoch() == 71 && !first.reading().fresh(), first);
            shared.publish(2, 1_000, 2_000, NO_LIMIT);
            Stamper.Stamp next = stamper.stamp(first.stampNs() + 900_000_000);
            check(next.stampNs() == first.stampNs() + 900_000_000 && next.reading().epoch() == 72, next);
            // A floor put that one ahead of the time.
            stamps(next.stampNs() + 1, stamper, 0);
        }
    }

    private static void refuses(long number, Stamper stamper) throws Exception {
        stamps(-number, stamper, -1);
        equal(-number, () -> stamper.isPast(0) ? 1L : 0L);
        equal(-number, () -> stamper.awaitPast(0, Duration.ZERO) ? 1L : 0L);
    }

    private static void refusalsOfReading() throws Exception {
        try (Shared shared = new Shared(); TrueTime client = shared.client()) {
            Stamper stamper = new Stamper(client, LO, LO);
            refuses(801, stamper);
            shared.publish(1, 1_000, 2_000, 1);
            refuses(1708, stamper);
            shared.publish(2, 1_000, 2_000, 1, 0);
            refuses(801, stamper);
            shared.publish(1, 2_000, 1_000, NO_LIMIT);
            refuses(1703, stamper);
            shared.publish(2, 2_000, 1_000, 0, 0);
            refuses(1703, stamper);
            shared.publish(2, 1_000, 2_000, NO_LIMIT);
            stamps(LO, stamper, 0);
        }
    }

    private static void waits() throws Exception {
        try (Shared shared = new Shared(1_000_000_000, 1_000_000_000); TrueTime client = shared.client()) {
            Stamper stamper = new Stamper(client);
            long began = System.nanoTime();
            long stampNs = stamper.stamp(stamper.stamp(0).stampNs() + 70_000_000).stampNs();
            check(!stamper.isPast(stampNs));
            // The time-out, before and after a sleep.
            check(!stamper.awaitPast(stampNs + 1_000_000_000_000L, Duration.ZERO));
            check(!stamper.awaitPast(stampNs + 1_000_000_000_000L, Duration.ofSeconds(Long.MIN_VALUE)));
            long before = System.nanoTime();
            check(!stamper.awaitPast(-1, Duration.ofMillis(10)));
            check(System.nanoTime() - before >= 10_000_000);
            // The time of the stamp, after two sleeps.
            check(stamper.awaitPast(stampNs, Duration.ofSeconds(Long.MAX_VALUE)));
            long took = System.nanoTime() - began;
            check(took > 70_000_000 && took < 30_000_000_000L, took);
            check(stamper.isPast(stampNs));
            // One that has passed, and no time to wait.
            check(stamper.awaitPast(stampNs, Duration.ZERO));
            Thread.currentThread().interrupt();
            try {
                check(stamper.awaitPast(stampNs + 1_000_000_000_000L, Duration.ofSeconds(60)), "not interrupted");
            } catch (InterruptedException interrupted) {
                check(!Thread.currentThread().isInterrupted());
            }
        }
    }

    /** Whether a call answers this within 40 milliseconds; where the host is busy, one of 50 has to. */
    private static boolean isShort(boolean wanted, Callable<Boolean> call) throws Exception {
        for (int turn = 0; turn < 50; turn++) {
            long began = System.nanoTime();
            check(call.call() == wanted);
            if (System.nanoTime() - began < 40_000_000) {
                return true;
            }
        }
        return false;
    }

    private static void waitsNoLonger() throws Exception {
        try (Shared shared = new Shared(1_000, 2_000); TrueTime client = shared.client()) {
            Stamper stamper = new Stamper(client);
            check(isShort(false, () -> stamper.awaitPast(LO, Duration.ofMillis(10))));
            check(isShort(true, () -> stamper.awaitPast(client.now().latestNs() + 10_000_000, Duration.ofSeconds(60))));
        }
    }

    private static void waitsForPublication() throws Exception {
        try (Shared shared = new Shared(1_000, 2_000); TrueTime client = shared.client()) {
            Stamper stamper = new Stamper(client);
            long began = System.nanoTime();
            ExecutorService pool = Executors.newFixedThreadPool(1);
            Future<Boolean> waiting = pool.submit(() -> stamper.awaitPast(LO, Duration.ofSeconds(60)));
            pool.shutdown();
            Thread.sleep(20);
            shared.publish(2, LO + 1, LO + 1, NO_LIMIT);
            check(waiting.get());
            check(System.nanoTime() - began < 30_000_000_000L);
        }
    }

    /** Nothing is published by CLOCK_MONOTONIC for a while: stamps and looks are refused, and a wait lasts until something is again. */
    private static void waitsForSecondBase() throws Exception {
        try (Shared shared = new Shared(1_000_000_000, 1_000_000_000); TrueTime client = shared.client()) {
            Stamper stamper = new Stamper(client);
            long stampNs = stamper.stamp(0).stampNs();
            shared.publish(2, 2_000_000_000, 2_000_000_000, 0);
            stamps(-1710, stamper, 0);
            equal(-1710, () -> stamper.isPast(stampNs) ? 1L : 0L);
            equal(-1710, () -> stamper.leftNs(stampNs));
            long began = System.nanoTime();
            check(!stamper.awaitPast(stampNs, Duration.ofMillis(10)));
            check(System.nanoTime() - began >= 10_000_000);
            ExecutorService pool = Executors.newFixedThreadPool(1);
            Future<Boolean> waiting = pool.submit(() -> stamper.awaitPast(stampNs, Duration.ofSeconds(60)));
            pool.shutdown();
            Thread.sleep(80);
            check(!waiting.isDone());
            shared.publish(1, 3_000_000_000L, 3_000_000_000L, NO_LIMIT);
            check(waiting.get());
        }
    }

    /** What eight threads get that begin together, each of them in its order. */
    private static <T> List<List<T>> inThreads(Callable<List<T>> call) throws Exception {
        ExecutorService pool = Executors.newFixedThreadPool(THREADS);
        CyclicBarrier start = new CyclicBarrier(THREADS);
        List<Future<List<T>>> threads = new ArrayList<>();
        for (int thread = 0; thread < THREADS; thread++) {
            threads.add(pool.submit(() -> {
                start.await();
                return call.call();
            }));
        }
        pool.shutdown();
        List<List<T>> given = new ArrayList<>();
        for (Future<List<T>> thread : threads) {
            given.add(thread.get());
        }
        return given;
    }

    private record Asked(Stamper.Stamp given, long floorNs) {
        long stampNs() {
            return given.stampNs();
        }
    }

    private static List<Asked> manyStamps(TrueTime client, Stamper stamper) {
        List<Asked> given = new ArrayList<>();
        for (int call = 0; call < 5_000; call++) {
            // Each seventh floor is a millisecond ahead, each eleventh too far.
            long floorNs = call % 11 == 0 ? -1 : call % 7 == 0 ? client.now().latestNs() + 1_000_000 : 0;
            try {
                given.add(new Asked(stamper.stamp(floorNs), floorNs));
            } catch (TrueTime.Refused refused) {
                if (refused.number() != 902 || floorNs != -1) {
                    throw refused;
                }
            }
        }
        return given;
    }

    private static void threadsGetLeastStamps() throws Exception {
        try (Shared shared = new Shared(1_000, 2_000); TrueTime client = shared.client()) {
            Stamper stamper = new Stamper(client);
            List<Asked> all = new ArrayList<>();
            for (List<Asked> ofThread : inThreads(() -> manyStamps(client, stamper))) {
                for (int place = 1; place < ofThread.size(); place++) {
                    check(ofThread.get(place - 1).stampNs() < ofThread.get(place).stampNs(), ofThread.get(place));
                }
                all.addAll(ofThread);
            }
            check(all.size() == THREADS * 4_545, all.size()); // 455 floors of each thread are too far
            all.sort(Comparator.comparingLong(Asked::stampNs));
            long free = 0;
            for (Asked one : all) {
                // Each is the least that could follow those below it.
                long least = Math.max(Math.max(one.given().reading().latestNs(), one.floorNs()), free);
                check(one.stampNs() == least, one, free);
                free = least + 1;
            }
        }
    }

    private static List<Long> stampsToTheEnd(Stamper stamper) {
        List<Long> given = new ArrayList<>();
        while (true) {
            try {
                given.add(stamper.stamp(0).stampNs());
            } catch (TrueTime.Refused refused) {
                check(refused.number() == 903, refused);
                return given;
            }
        }
    }

    private static void threadsUseUpLease() throws Exception {
        try (Shared shared = new Shared(1_000, 2_000); TrueTime client = shared.client()) {
            Stamper stamper = new Stamper(client, LO, LO + 299_999);
            List<Long> all = new ArrayList<>();
            inThreads(() -> stampsToTheEnd(stamper)).forEach(all::addAll);
            check(all.size() == 300_000, all.size());
            all.sort(null);
            for (int place = 0; place < all.size(); place++) {
                check(all.get(place) == LO + place, place, all.get(place));
            }
        }
    }

    private static void limits() {
        for (long[] limits : new long[][] {{-1, 1}, {Stamper.MAX_AHEAD_NS + 1, 1}, {0, 0}, {0, Stamper.MAX_GRID_NS + 1}}) {
            try {
                new Stamper(null, 0, MAX, limits[0], limits[1]);
                check(false, limits[0], limits[1]);
            } catch (IllegalArgumentException wanted) {
                check(true);
            }
        }
        new Stamper(null, 0, MAX, Stamper.MAX_AHEAD_NS, Stamper.MAX_GRID_NS);
    }

    public static void main(String[] words) throws Exception {
        ruleByHand();
        limits();
        leases();
        stampsOfLease();
        stampsAtEndOfTime();
        readingsOfStamps();
        refusalsOfReading();
        onlyTheEarliestHasPassed();
        waits();
        waitsNoLonger();
        waitsForPublication();
        waitsForSecondBase();
        threadsGetLeastStamps();
        threadsUseUpLease();
        System.out.println("passed: " + CHECKS + " checks");
    }
}
