package io.truetime;

import java.io.BufferedReader;
import java.io.IOException;
import java.io.InputStreamReader;
import java.net.InetSocketAddress;
import java.net.SocketTimeoutException;
import java.net.UnixDomainSocketAddress;
import java.nio.charset.StandardCharsets;
import java.nio.file.Path;
import java.time.Duration;
import java.util.ArrayDeque;
import java.util.ArrayList;
import java.util.Deque;
import java.util.HashSet;
import java.util.List;
import java.util.OptionalLong;
import java.util.Queue;
import java.util.TreeSet;
import java.util.concurrent.Callable;
import java.util.concurrent.ConcurrentLinkedQueue;
import java.util.concurrent.CyclicBarrier;
import java.util.concurrent.ExecutionException;
import java.util.concurrent.ExecutorService;
import java.util.concurrent.Executors;
import java.util.concurrent.Future;
import java.util.concurrent.TimeUnit;
import java.util.concurrent.atomic.AtomicBoolean;
import java.util.concurrent.atomic.AtomicInteger;
import java.util.function.Supplier;
import java.util.stream.Collectors;

/** What reader, stamper and sessions answer, for the tests: as ../../c/test/probe.c. */
public final class Probe {
    private Probe() {}

    private static String reading(String line) {
        String[] words = line.split(" ");
        long clock = Long.parseLong(words[0]);
        long lo = Long.parseLong(words[1]);
        long hi = Long.parseLong(words[2]);
        long drift = Long.parseLong(words[3]);
        long usable = Long.parseUnsignedLong(words[4]);
        // A clock reading past 2^63 shows as negative, and is refused like each one past the greatest time.
        long now = Long.parseUnsignedLong(words[5]);
        long[] more = numbers(words, 6);
        try {
            TrueTime.Reading found = new TrueTime.Publication(clock, lo, hi, more[0], usable, more[1], more[2], drift).readAt(now);
            return found.earliestNs() + " " + found.latestNs() + " " + Long.toUnsignedString(found.epoch()) + " "
                + Long.toUnsignedString(found.number()) + (found.fresh() ? " fresh" : " stale") + (found.after(more[3]) ? " yes" : " no")
                + (found.before(more[3]) ? " yes" : " no");
        } catch (TrueTime.Refused refused) {
            return "refused " + refused.number();
        }
    }

    /** What a reader says, which is opened first where that is so. */
    private static String published(Supplier<TrueTime> reader) {
        try {
            TrueTime.Publication p = reader.get().read();
            return String.format("published %d %d %d %s %s %s %s %d", p.clockNs(), p.loNs(), p.hiNs(),
                Long.toUnsignedString(p.validUntilNs()), Long.toUnsignedString(p.usableUntilNs()),
                Long.toUnsignedString(p.epoch()), Long.toUnsignedString(p.number()), p.driftPpm());
        } catch (TrueTime.Refused refused) {
            return "refused " + refused.number();
        }
    }

    /** The reading of a file where CLOCK_MONOTONIC, whose number is 1, shows this. */
    private static String readAt(TrueTime client, long nowNs) {
        try {
            TrueTime.Reading now = client.read().readAt(nowNs);
            return "1 " + now.earliestNs() + " " + now.latestNs() + " " + Long.toUnsignedString(now.epoch()) + " "
                + Long.toUnsignedString(now.number()) + (now.fresh() ? " fresh" : " stale");
        } catch (TrueTime.Refused refused) {
            return "refused " + refused.number();
        }
    }

    private static void tryFiles(BufferedReader lines) throws IOException {
        String user = System.getProperty("user.name");
        TrueTime[] client = new TrueTime[1];
        for (String line = lines.readLine(); line != null; line = lines.readLine()) {
            if (line.startsWith("open ")) {
                Path path = Path.of(line.substring(5));
                System.out.println(published(() -> client[0] = TrueTime.openUnmapped(path, user)));
            } else if (line.startsWith("map ")) {
                Path path = Path.of(line.substring(4));
                System.out.println(published(() -> client[0] = TrueTime.open(path, user)));
            } else if (line.startsWith("at ")) {
                System.out.println(readAt(client[0], numbers(line.split(" "), 1)[0]));
            } else {
                System.out.println(published(() -> client[0]));
            }
        }
    }

    private static Session opened(String address) throws IOException {
        String[] words = address.split(" ");
        Duration timeout = Duration.ofMillis(Long.parseLong(words[2]));
        Session session = words[0].equals("unix")
            ? Session.connect(UnixDomainSocketAddress.of(words[1]), timeout)
            : Session.connect(new InetSocketAddress("127.0.0.1", Integer.parseInt(words[1])), timeout);
        return words.length == 4 ? session.limitWidth(Long.parseLong(words[3])) : session;
    }

    /** What a call of a session gives. */
    private static String given(Session session, String name, String rest) throws IOException {
        switch (name) {
            case "now":
                Session.Interval now = session.now();
                return now.earliestNs() + " " + now.latestNs();
            case "after":
                return session.after(Long.parseLong(rest)) ? "yes" : "no";
            case "before":
                return session.before(Long.parseLong(rest)) ? "yes" : "no";
            case "begin":
                return Long.toString(session.begin(Long.parseLong(rest)));
            case "wait":
                return Long.toString(session.awaitRelease());
            case "commit":
                return Long.toString(session.commit(Long.parseLong(rest)));
            case "lease":
                String[] ends = rest.split(" ");
                session.lease(Long.parseLong(ends[0]), Long.parseLong(ends[1]));
                return "leased " + rest;
            case "ask":
                return session.ask(rest);
            case "interrupt":
                interruptSoon(Thread.currentThread());
                return name;
            case "interrupted":
                return Thread.interrupted() ? "yes" : "no";
            default:
                session.close();
                return "closed";
        }
    }

    /** Interrupts this thread 10 milliseconds later. */
    private static void interruptSoon(Thread waiting) {
        new Thread(() -> {
            try {
                Thread.sleep(10);
            } catch (InterruptedException ended) {
                return;
            }
            waiting.interrupt();
        }).start();
    }

    /** An error of a session, with what it carries. */
    private static String said(Exception failed) {
        if (failed instanceof Session.CommitPending pending) {
            return "refused " + pending.number() + " " + pending.commit() + " " + pending.stampNs();
        }
        if (failed instanceof TrueTime.Refused refused) {
            return "refused " + refused.number();
        }
        if (failed instanceof Session.Lost lost) {
            String commit = lost.commit() == 0 ? "" : " " + lost.commit() + " " + lost.stampNs();
            return said((IOException) lost.getCause()) + commit + (lost.hadLease() ? " lease" : "");
        }
        return failed instanceof SocketTimeoutException ? "timed out" : "failed";
    }

    private static void trySessions(BufferedReader calls) throws IOException {
        Session session = null;
        Exception last = null;
        for (String call = calls.readLine(); call != null; call = calls.readLine()) {
            String[] words = call.split(" ", 2);
            String rest = words.length == 2 ? words[1] : "";
            String said;
            try {
                if (words[0].equals("open")) {
                    session = opened(rest);
                    said = "open";
                } else if (words[0].equals("told")) {
                    said = String.valueOf(last);
                } else {
                    said = given(session, words[0], rest);
                }
            } catch (TrueTime.Refused | IOException failed) {
                last = failed;
                said = said(failed);
            } catch (IllegalStateException | IllegalArgumentException invalid) {
                last = invalid;
                said = "invalid";
            }
            System.out.println(said);
        }
    }

    private static long[] numbers(String[] words, int from) {
        long[] numbers = new long[words.length - from];
        for (int place = 0; place < numbers.length; place++) {
            numbers[place] = Long.parseUnsignedLong(words[from + place]);
        }
        return numbers;
    }

    /** The stamp behind the last one, 0 where none was given, by the reading [_, LATEST], with limits where the row has some. */
    private static String row(long[] n) {
        new Stamper(null, n[4], n[5]);
        // Behind the greatest number there is none, and each past the greatest time is as good.
        long free = n[0] == 0 || n[0] == -1 ? n[0] : n[0] + 1;
        long[] limits = n.length == 8 ? new long[] {n[6], n[7]} : new long[] {Stamper.MAX_AHEAD_NS, 1};
        return "stamp " + Long.toUnsignedString(Stamper.stampOf(free, n[2], n[3], n[4], n[5], limits[0], limits[1]));
    }

    private static String stamp(Stamper stamper, long floorNs) {
        Stamper.Stamp given = stamper.stamp(floorNs);
        TrueTime.Reading by = given.reading();
        return "stamp " + given.stampNs() + " " + by.earliestNs() + " " + by.latestNs() + (by.fresh() ? " fresh " : " stale ")
            + Long.toUnsignedString(by.epoch());
    }

    /** Stamps of so many threads, which begin together; the lines of each one behind those of the last. */
    private static String stampsInThreads(Stamper stamper, int threads, int each, long floorNs)
            throws InterruptedException, ExecutionException {
        ExecutorService pool = Executors.newFixedThreadPool(threads);
        CyclicBarrier begin = new CyclicBarrier(threads);
        List<Future<List<String>>> running = new ArrayList<>();
        for (int number = 0; number < threads; number++) {
            String before = number + " ";
            Callable<List<String>> stampOn = () -> {
                List<String> lines = new ArrayList<>();
                begin.await();
                for (int turn = 0; turn < each; turn++) {
                    lines.add(before + answer(() -> stamp(stamper, floorNs)));
                }
                return lines;
            };
            running.add(pool.submit(stampOn));
        }
        pool.shutdown();
        StringBuilder lines = new StringBuilder();
        for (Future<List<String>> thread : running) {
            thread.get().forEach(line -> lines.append(line).append('\n'));
        }
        return lines + "end";
    }

    /** What a call of a stamper gives. */
    private static String stamped(Stamper stamper, String name, long[] n) throws InterruptedException, ExecutionException {
        switch (name) {
            case "row":
                return row(n);
            case "stamp":
                return stamp(stamper, n[0]);
            case "extend":
                stamper.extend(n[0]);
                return "extended";
            case "above":
                stamper.riseAbove(n[0]);
                return "risen";
            case "left":
                return Long.toString(stamper.leftNs(n[0]));
            case "past":
                return stamper.isPast(n[0]) ? "yes" : "no";
            case "wait":
                return stamper.awaitPast(n[0], Duration.ofMillis(n[1])) ? "yes" : "no";
            default:
                return stampsInThreads(stamper, (int) n[0], (int) n[1], n[2]);
        }
    }

    /** What a call gives, or its refusal. */
    private static String answer(Supplier<String> call) {
        try {
            return call.get();
        } catch (TrueTime.Refused refused) {
            return "refused " + refused.number();
        }
    }

    private static Stamper openedStamper(String[] words) {
        long[] lease = numbers(words, 2);
        TrueTime client = TrueTime.open(Path.of(words[1]), System.getProperty("user.name"));
        return lease.length == 2
            ? new Stamper(client, lease[0], lease[1])
            : new Stamper(client, lease[0], lease[1], lease[2], lease[3]);
    }

    private static void tryStampers(BufferedReader calls) throws IOException, InterruptedException, ExecutionException {
        Stamper stamper = null;
        for (String call = calls.readLine(); call != null; call = calls.readLine()) {
            String[] words = call.split(" ");
            String said;
            try {
                if (words[0].equals("open")) {
                    stamper = openedStamper(words);
                    said = "open";
                } else {
                    said = stamped(stamper, words[0], numbers(words, 1));
                }
            } catch (TrueTime.Refused refused) {
                said = "refused " + refused.number();
            }
            System.out.println(said);
        }
    }

    private static long upTo(List<Long> log, long mark) {
        return log.stream().filter(stamp -> stamp <= mark).count();
    }

    /**
     * So many commits in each of so many threads, and a reader that takes snapshots at the watermark beside them: each has to have
     * all that is written up to it in the end.
     */
    private static String watchInThreads(PendingTable table, int threads, int each) throws InterruptedException, ExecutionException {
        List<Long> log = new ArrayList<>();
        AtomicBoolean isOver = new AtomicBoolean();
        ExecutorService running = Executors.newFixedThreadPool(threads + 1);
        Future<List<long[]>> reader = running.submit(() -> {
            List<long[]> snapshots = new ArrayList<>();
            while (!isOver.get()) {
                long mark = table.watermark().getAsLong();
                synchronized (log) {
                    snapshots.add(new long[] {mark, upTo(log, mark)});
                }
            }
            return snapshots;
        });
        List<Future<?>> writers = new ArrayList<>();
        for (int thread = 0; thread < threads; thread++) {
            writers.add(running.submit(() -> {
                for (int turn = 0; turn < each; turn++) {
                    long stamp = table.begin(0);
                    synchronized (log) {
                        log.add(stamp);
                    }
                    table.written(stamp);
                }
            }));
        }
        for (Future<?> writer : writers) {
            writer.get();
        }
        isOver.set(true);
        running.shutdown();
        long torn = reader.get().stream().filter(snapshot -> snapshot[1] != upTo(log, snapshot[0])).count();
        return log.size() + " stamps, " + new HashSet<>(log).size() + " different, " + (reader.get().isEmpty() ? "no" : "some")
            + " snapshots, " + torn + " torn";
    }

    /** What a call of a table of pending commits gives. */
    private static String tabled(PendingTable table, String name, long[] n) throws InterruptedException, ExecutionException {
        switch (name) {
            case "begin":
                return "begun " + table.begin(n[0]);
            case "written":
                table.written(n[0]);
                return "ended";
            case "given_up":
                table.giveUp(n[0]);
                return "ended";
            case "release":
                return table.release(n[0], Duration.ofMillis(n[1])) ? "yes" : "no";
            case "readable":
                return table.makeReadable(n[0], Duration.ofMillis(n[1])) ? "yes" : "no";
            case "watermark":
                OptionalLong mark = table.watermark();
                return mark.isEmpty() ? "none" : Long.toString(mark.getAsLong());
            default:
                return watchInThreads(table, (int) n[0], (int) n[1]);
        }
    }

    private static void tryTables(BufferedReader calls) throws IOException, InterruptedException, ExecutionException {
        PendingTable table = null;
        for (String call = calls.readLine(); call != null; call = calls.readLine()) {
            String[] words = call.split(" ");
            String said;
            try {
                if (words[0].equals("open")) {
                    TrueTime client = TrueTime.open(Path.of(words[1]), System.getProperty("user.name"));
                    table = new PendingTable(new Stamper(client, 0, TrueTime.MAX_TIME_NS, Stamper.MAX_AHEAD_NS, 1));
                    said = "open";
                } else {
                    said = tabled(table, words[0], numbers(words, 1));
                }
            } catch (TrueTime.Refused refused) {
                said = "refused " + refused.number();
            } catch (IllegalStateException invalid) {
                said = "invalid";
            }
            System.out.println(said);
        }
    }

    /** So many commits by a pool. */
    private static void commitOn(Pool pool, int each, Queue<Long> stamps, AtomicInteger errors) {
        for (int turn = 0; turn < each; turn++) {
            try {
                stamps.add(pool.commit(0));
            } catch (IOException | InterruptedException | TrueTime.Refused failed) {
                errors.incrementAndGet();
            }
        }
    }

    /** So many by one session of it. */
    private static void commitAlone(Pool pool, int each, Queue<Long> stamps, AtomicInteger errors) {
        try (Pool.Lent lent = pool.lend()) {
            for (int turn = 0; turn < each; turn++) {
                stamps.add(lent.session().commit(0));
            }
        } catch (IOException | InterruptedException | TrueTime.Refused failed) {
            errors.incrementAndGet();
        }
    }

    /** So many commits in each of so many threads; each keeps one session where it is alone. */
    private static String commits(Pool pool, int threads, int each, boolean isAlone) throws InterruptedException {
        ExecutorService running = Executors.newFixedThreadPool(threads);
        Queue<Long> stamps = new ConcurrentLinkedQueue<>();
        AtomicInteger errors = new AtomicInteger();
        for (int thread = 0; thread < threads; thread++) {
            running.execute(() -> {
                if (isAlone) {
                    commitAlone(pool, each, stamps, errors);
                } else {
                    commitOn(pool, each, stamps, errors);
                }
            });
        }
        running.shutdown();
        running.awaitTermination(1, TimeUnit.MINUTES);
        return stamps.size() + " stamps, " + new HashSet<>(stamps).size() + " different, " + errors + " errors";
    }

    /** What a call of a pool gives. */
    private static String pooled(Pool pool, Deque<Pool.Lent> out, String[] words) throws IOException, InterruptedException {
        switch (words[0]) {
            case "commits":
            case "alone":
                return commits(pool, Integer.parseInt(words[1]), Integer.parseInt(words[2]), words[0].equals("alone"));
            case "hold":
                out.push(pool.lend());
                return "held";
            case "begin":
                return Long.toString(out.peek().session().begin(0));
            case "free":
                while (!out.isEmpty()) {
                    out.pop().close();
                }
                return "freed";
            default:
                pool.close();
                return "closed";
        }
    }

    private static void tryPools(BufferedReader calls) throws IOException, InterruptedException {
        String[] opening = calls.readLine().split(" ");
        String address = opening[1] + " " + opening[2] + " " + opening[4];
        Pool pool = new Pool(Integer.parseInt(opening[3]), Duration.ofMillis(Long.parseLong(opening[4])), () -> opened(address));
        Deque<Pool.Lent> out = new ArrayDeque<>();
        System.out.println("open");
        for (String call = calls.readLine(); call != null; call = calls.readLine()) {
            String said;
            try {
                said = pooled(pool, out, call.split(" "));
            } catch (TrueTime.Refused | IOException failed) {
                said = said(failed);
            }
            System.out.println(said);
        }
    }

    private static final int QUESTIONS = 3;

    /** A reader, one with a stamper, or a session. */
    private static AutoCloseable openedOne(String[] words) throws IOException {
        String user = System.getProperty("user.name");
        switch (words[1]) {
            case "unmapped":
                return TrueTime.openUnmapped(Path.of(words[2]), user);
            case "mapped":
            case "stamper":
                return TrueTime.open(Path.of(words[2]), user);
            default:
                return opened(words[1] + " " + words[2] + " " + words[4]);
        }
    }

    /** How many questions it answers. */
    private static int answers(AutoCloseable one, boolean isStamper) {
        int answers = 0;
        for (int turn = 0; turn < QUESTIONS; turn++) {
            try {
                if (one instanceof Session session) {
                    session.now();
                } else if (isStamper) {
                    new Stamper((TrueTime) one).stamp(0);
                } else {
                    ((TrueTime) one).now();
                }
                answers++;
            } catch (IOException | TrueTime.Refused failed) {
                // It is not counted.
            }
        }
        return answers;
    }

    private static String openedAll(String[] words, List<AutoCloseable> all) {
        int answers = 0;
        for (int turn = 0; turn < Integer.parseInt(words[3]); turn++) {
            try {
                all.add(openedOne(words));
                answers += answers(all.get(all.size() - 1), words[1].equals("stamper"));
            } catch (IOException | TrueTime.Refused failed) {
                // It is not counted.
            }
        }
        return all.size() + " opened, " + answers + " answers";
    }

    private static void tryOpenings(BufferedReader lines) throws Exception {
        List<AutoCloseable> all = new ArrayList<>();
        for (String line = lines.readLine(); line != null; line = lines.readLine()) {
            String[] words = line.split(" ");
            if (words[0].equals("open")) {
                all.clear();
                System.out.println(openedAll(words, all));
            } else if (words[0].equals("close")) {
                for (AutoCloseable one : all) {
                    one.close();
                }
                System.out.println("closed");
            } else {
                // What is closed is kept until here, but for mapped readers: their memory goes with them.
                all.removeIf(one -> one instanceof TrueTime);
                System.gc();
                System.out.println("rested");
            }
        }
    }

    /** Threads that read again and again, and what they saw. */
    private static final class Rereading {
        private final AtomicBoolean isOver = new AtomicBoolean();
        private final List<Thread> threads = new ArrayList<>();
        private final Queue<Long> epochs = new ConcurrentLinkedQueue<>();
        private final AtomicInteger torn = new AtomicInteger();
        private final AtomicInteger refused = new AtomicInteger();

        Rereading(TrueTime client, int count) {
            for (int number = 0; number < count; number++) {
                Thread thread = new Thread(() -> reread(client));
                threads.add(thread);
                thread.start();
            }
        }

        private void reread(TrueTime client) {
            long last = 0;
            while (!isOver.get()) {
                try {
                    TrueTime.Reading now = client.now();
                    if (now.epoch() != last) {
                        last = now.epoch();
                        epochs.add(last);
                    }
                    if (now.latestNs() - now.earliestNs() != now.epoch()) {
                        torn.incrementAndGet();
                    }
                } catch (TrueTime.Refused failed) {
                    refused.incrementAndGet();
                }
            }
        }

        String end() throws InterruptedException {
            isOver.set(true);
            for (Thread thread : threads) {
                thread.join();
            }
            String seen = new TreeSet<>(epochs).stream().map(epoch -> epoch + " ").collect(Collectors.joining());
            return seen + "seen, " + torn + " torn, " + refused + " refused";
        }
    }

    private static void tryRenewals(BufferedReader lines) throws IOException, InterruptedException {
        String user = System.getProperty("user.name");
        TrueTime client = null;
        Stamper stamper = null;
        Rereading running = null;
        for (String line = lines.readLine(); line != null; line = lines.readLine()) {
            String[] words = line.split(" ");
            String said = "rested";
            try {
                if (words[0].equals("open")) {
                    Path path = Path.of(words[2]);
                    client = words[1].equals("mapped") ? TrueTime.open(path, user) : TrueTime.openUnmapped(path, user);
                    if (words.length == 4) {
                        client.limitWidth(Long.parseLong(words[3]));
                    }
                    stamper = new Stamper(client);
                    said = "open";
                } else if (words[0].equals("stamp")) {
                    said = Long.toString(stamper.stamp(0).stampNs());
                } else if (words[0].equals("now")) {
                    TrueTime.Reading now = client.now();
                    said = now.epoch() + " " + (now.latestNs() - now.earliestNs()) + (now.fresh() ? " fresh" : " stale");
                } else if (words[0].equals("threads")) {
                    running = new Rereading(client, Integer.parseInt(words[1]));
                    said = "started";
                } else if (words[0].equals("end")) {
                    said = running.end();
                } else if (words[0].equals("close")) {
                    client.close();
                    said = "closed";
                } else {
                    System.gc();
                }
            } catch (TrueTime.Refused refused) {
                said = "refused " + refused.number();
            }
            System.out.println(said);
        }
    }

    public static void main(String[] words) throws Exception {
        if (words.length == 2 && words[0].equals("open")) {
            System.out.println(published(() -> TrueTime.open(Path.of(words[1]), System.getProperty("user.name"))));
            return;
        }
        BufferedReader lines = new BufferedReader(new InputStreamReader(System.in, StandardCharsets.US_ASCII));
        if (words.length == 1 && words[0].equals("files")) {
            tryFiles(lines);
            return;
        }
        if (words.length == 1 && words[0].equals("session")) {
            trySessions(lines);
            return;
        }
        if (words.length == 1 && words[0].equals("stamper")) {
            tryStampers(lines);
            return;
        }
        if (words.length == 1 && words[0].equals("pending")) {
            tryTables(lines);
            return;
        }
        if (words.length == 1 && words[0].equals("pool")) {
            tryPools(lines);
            return;
        }
        if (words.length == 1 && words[0].equals("openings")) {
            tryOpenings(lines);
            return;
        }
        if (words.length == 1 && words[0].equals("renewals")) {
            tryRenewals(lines);
            return;
        }
        StringBuilder answers = new StringBuilder();
        for (String line = lines.readLine(); line != null; line = lines.readLine()) {
            answers.append(reading(line)).append('\n');
        }
        System.out.print(answers);
    }
}
