package io.truetime;

import java.io.BufferedReader;
import java.io.IOException;
import java.io.InputStreamReader;
import java.net.InetAddress;
import java.net.InetSocketAddress;
import java.net.ServerSocket;
import java.net.Socket;
import java.net.SocketException;
import java.net.SocketTimeoutException;
import java.net.StandardProtocolFamily;
import java.net.UnixDomainSocketAddress;
import java.nio.ByteBuffer;
import java.nio.ByteOrder;
import java.nio.channels.ClosedChannelException;
import java.nio.channels.ServerSocketChannel;
import java.nio.channels.SocketChannel;
import java.nio.charset.StandardCharsets;
import java.nio.file.Files;
import java.nio.file.NoSuchFileException;
import java.nio.file.Path;
import java.nio.file.StandardCopyOption;
import java.nio.file.attribute.PosixFilePermissions;
import java.time.Duration;
import java.util.ArrayList;
import java.util.Arrays;
import java.util.List;
import java.util.concurrent.atomic.AtomicBoolean;
import java.util.logging.Handler;
import java.util.logging.Level;
import java.util.logging.LogRecord;
import java.util.logging.Logger;
import java.util.logging.SimpleFormatter;

/** Tests what is Java's own: causes of refusals, owners, closing, interrupts, long time-outs, pools, connecting in time, and what is logged. */
public final class ClientTest {
    private static final Duration TIMEOUT = Duration.ofSeconds(10);
    private static int checks;

    private ClientTest() {}

    private interface Call {
        Object make() throws Exception;
    }

    private static void check(boolean isSo, Object... what) {
        checks++;
        if (!isSo) {
            throw new AssertionError(Arrays.toString(what));
        }
    }

    /** What a call throws. */
    private static Exception thrown(Call call) {
        try {
            throw new AssertionError("it gave " + call.make());
        } catch (Exception failed) {
            return failed;
        }
    }

    private static byte[] file() throws IOException {
        ByteBuffer bytes = ByteBuffer.allocate(320).order(ByteOrder.LITTLE_ENDIAN);
        bytes.putLong(0, 0x0000_0140_3353_5454L).putLong(8, 4);
        byte[] boot = Files.readString(Path.of("/proc/sys/kernel/random/boot_id")).getBytes(StandardCharsets.US_ASCII);
        return bytes.put(24, boot, 0, 36).array();
    }

    private static void refuses(Path path, byte[] bytes, String mode, String owner, String why) throws IOException {
        Files.write(path, bytes);
        Files.setPosixFilePermissions(path, PosixFilePermissions.fromString(mode));
        for (Call call : new Call[] {() -> TrueTime.open(path, owner), () -> TrueTime.openUnmapped(path, owner)}) {
            TrueTime.Refused refused = (TrueTime.Refused) thrown(call);
            check(refused.number() == TrueTime.Refused.OTHER_FILE && refused.getMessage().endsWith(": " + why), refused);
        }
    }

    private static void causesOfFiles(Path room) throws Exception {
        Path path = room.resolve("time");
        Files.write(path, file());
        String me = Files.getOwner(path).getName();
        int number = (int) Files.getAttribute(path, "unix:uid");
        String readable = "rw-r--r--";
        byte[] other = file();
        other[3] = '1';
        byte[] version2 = file();
        version2[3] = '2';
        byte[] clock = file();
        clock[8] = 7;
        byte[] boot = file();
        boot[24] ^= 1;
        refuses(path, Arrays.copyOf(file(), 319), readable, me, "it is no file of 320 bytes");
        refuses(path, file(), readable, "no-such-user", "its owner is " + me + ", not no-such-user");
        refuses(path, file(), "rw-rw-r--", me, "others may write to it");
        for (byte[] bytes : new byte[][] {other, version2, clock}) {
            refuses(path, bytes, readable, me, "it is of another format, or of another version");
        }
        refuses(path, boot, readable, me, "it is of another boot, or of another clock");
        Exception failed = thrown(() -> TrueTime.open(room.resolve("none"), me));
        check(failed instanceof TrueTime.Refused refused && refused.number() == TrueTime.Refused.NO_FILE
            && refused.getCause() instanceof NoSuchFileException, failed);
        Files.write(path, file());
        Files.setPosixFilePermissions(path, PosixFilePermissions.fromString(readable));
        TrueTime[] clients = {
            TrueTime.open(path, number), TrueTime.open(path, Integer.toString(number)), TrueTime.openUnmapped(path, me)};
        for (TrueTime client : clients) {
            check(thrown(client::now) instanceof TrueTime.Refused refused && refused.number() == TrueTime.Refused.NOTHING, client);
            client.close();
            client.close();
            check(thrown(client::now) instanceof TrueTime.Refused refused && refused.number() == TrueTime.Refused.NO_FILE, client);
        }
    }

    /** A file of one publication. */
    private static byte[] published() throws IOException {
        return published(4, 1, 0, 5, 15, -1, 7, 1, 0, -1, 0, 5, 15, 0, -1, -1, 0);
    }

    /** A file by this clock, with this slot. */
    private static byte[] published(long clock, long... words) throws IOException {
        ByteBuffer bytes = ByteBuffer.wrap(file()).order(ByteOrder.LITTLE_ENDIAN);
        bytes.putLong(8, clock).putLong(16, 1);
        for (int place = 0; place < words.length; place++) {
            bytes.putLong(192 + 8 * place, words[place]);
        }
        return bytes.array();
    }

    /** What a file gives where CLOCK_MONOTONIC shows this. */
    private static String readAt(TrueTime client, long nowNs) {
        try (client) {
            TrueTime.Reading now = client.read().readAt(nowNs);
            return now.earliestNs() + " " + now.latestNs() + (now.fresh() ? " fresh" : " stale");
        } catch (TrueTime.Refused refused) {
            return "refused " + refused.number();
        }
    }

    /** Reads a slot with one word in place of another where CLOCK_MONOTONIC shows this. */
    private static void reads(Path path, long clock, int place, long word, long nowNs, String wanted) throws IOException {
        long[] words = {1, 1_000, 5, 15, 6_000, 7, 9, 200, 7_000, 500_000, 2_000, 3_000, 1_000, 510_000, 520_000, 0};
        words[place] = word;
        Files.write(path, published(clock, words));
        String me = Files.getOwner(path).getName();
        String came = readAt(TrueTime.open(path, me), nowNs);
        check(came.equals(wanted) && readAt(TrueTime.openUnmapped(path, me), nowNs).equals(wanted), clock, place, word, nowNs, came, wanted);
    }

    /** Slots by hand: the first base where the clock of the file is CLOCK_MONOTONIC, and else the second one. */
    private static void slots(Path room) throws IOException {
        final long max = TrueTime.MAX_TIME_NS;
        Path path = room.resolve("time");
        reads(path, 1, 0, 1, 1_000, "5 15 fresh");
        reads(path, 1, 0, 1, 6_000, "5004 5016 fresh");
        reads(path, 1, 0, 1, 6_001, "5004 5018 stale");
        reads(path, 1, 0, 1, 7_000, "6003 6017 stale");
        reads(path, 1, 0, 1, 7_001, "refused 1708");
        reads(path, 1, 0, 1, 999, "refused 802");
        reads(path, 1, 14, 0, 1_000, "5 15 fresh");
        reads(path, 4, 0, 1, 500_000, "2000 3000 fresh");
        reads(path, 4, 0, 1, 510_000, "11990 13010 fresh");
        reads(path, 4, 0, 1, 510_001, "11990 13012 stale");
        reads(path, 4, 0, 1, 520_000, "21980 23020 stale");
        reads(path, 4, 0, 1, 520_001, "refused 1708");
        reads(path, 4, 0, 1, 499_999, "refused 802");
        reads(path, 4, 14, -1, max + 1, "refused 802");
        reads(path, 4, 14, 0, 499_999, "refused 1710");
        reads(path, 4, 14, 0, max + 1, "refused 1710");
        reads(path, 4, 8, 0, 500_000, "refused 801");
        for (long clock : new long[] {1, 4}) {
            reads(path, clock, 0, 2, 500_000, "refused 1703");
            reads(path, clock, 1, max + 1, 500_000, "refused 1703");
            reads(path, clock, 2, 16, 500_000, "refused 1703");
            reads(path, clock, 3, max + 1, 500_000, "refused 1703");
            reads(path, clock, 7, 100_001, 500_000, "refused 1703");
            reads(path, clock, 9, max + 1, 500_000, "refused 1703");
            reads(path, clock, 9, -1, 500_000, "refused 1703");
            reads(path, clock, 10, 3_001, 500_000, "refused 1703");
            reads(path, clock, 11, max + 1, 500_000, "refused 1703");
            reads(path, clock, 12, 100_001, 500_000, "refused 1703");
            reads(path, clock, 15, 1, 500_000, "refused 1703");
        }
    }

    /** Each file is read by CLOCK_MONOTONIC, also one that takes the place of one by the other clock. */
    private static void clocksOfFiles(Path room) throws Exception {
        Path path = room.resolve("time");
        for (boolean isMapped : new boolean[] {true, false}) {
            TrueTime client = null;
            for (int turn = 0; turn < 3; turn++) {
                // The reading is what the clock shows. By the other base it would be of the greatest time.
                long[] by = {0, 0, 0}, other = {0, TrueTime.MAX_TIME_NS, TrueTime.MAX_TIME_NS};
                boolean isRaw = turn % 2 == 0;
                long[] first = isRaw ? other : by, second = isRaw ? by : other;
                Files.write(room.resolve("new"), published(isRaw ? 4 : 1, 1, first[0], first[1], first[2], 0, turn, 1, 0, -1,
                    second[0], second[1], second[2], 0, 0, -1, 0));
                Files.move(room.resolve("new"), path, StandardCopyOption.REPLACE_EXISTING);
                String me = Files.getOwner(path).getName();
                if (client == null) {
                    client = isMapped ? TrueTime.open(path, me) : TrueTime.openUnmapped(path, me);
                } else {
                    Thread.sleep(1010); // until it looks at the path again
                }
                long before = System.nanoTime();
                TrueTime.Reading now = client.now();
                check(before <= now.earliestNs() && now.latestNs() <= System.nanoTime() && now.epoch() == turn, turn, isMapped, before, now);
            }
            client.close();
        }
    }

    /** An interrupt closes a file that is not mapped; it is read all the same once the interrupt is over, also beside another reader. */
    private static void interruptedReaders(Path room) throws Exception {
        Path path = room.resolve("time");
        Files.write(path, published());
        try (TrueTime client = TrueTime.openUnmapped(path, Files.getOwner(path).getName())) {
            AtomicBoolean isOver = new AtomicBoolean();
            Thread other = new Thread(() -> {
                while (!isOver.get()) {
                    try {
                        client.now();
                    } catch (TrueTime.Refused refused) {
                        // The file was closed twice meanwhile.
                    }
                }
            });
            int before = descriptors();
            other.start();
            for (int turn = 0; turn < 20; turn++) {
                Thread.currentThread().interrupt();
                check(thrown(client::now) instanceof TrueTime.Refused refused && refused.number() == TrueTime.Refused.NO_FILE, turn);
                check(thrown(client::read) instanceof TrueTime.Refused, turn);
                check(Thread.interrupted(), turn);
                check(client.now().epoch() == 7 && client.read().number() == 1, turn);
            }
            check(new Stamper(client).awaitPast(1, TIMEOUT), "a wait");
            isOver.set(true);
            other.join();
            check(client.now().epoch() == 7 && descriptors() <= before + 1, before, descriptors());
        }
    }

    /** A time-out may be as long as a Duration may. */
    private static void longTimeouts(Path room) throws Exception {
        Path path = room.resolve("time");
        Files.write(path, published());
        for (Duration timeout : new Duration[] {Duration.ofDays(30), Duration.ofSeconds(Long.MAX_VALUE)}) {
            try (ServerSocket server = serve(0)) {
                Pool pool = new Pool(1, timeout, () -> Session.connect(server.getLocalSocketAddress(), timeout));
                Pool.Lent lent = pool.lend();
                start(() -> {
                    pause();
                    lent.close();
                });
                check(pool.commit(0) == 200, timeout);
                pool.close();
            }
            PendingTable table = new PendingTable(new Stamper(TrueTime.open(path, Files.getOwner(path).getName())));
            long stampNs = table.begin(0);
            start(() -> {
                pause();
                table.written(stampNs);
            });
            check(table.makeReadable(stampNs, timeout) && table.release(stampNs, timeout), timeout);
        }
        for (Duration timeout : new Duration[] {Duration.ZERO, Duration.ofNanos(999_999), Duration.ofSeconds(Long.MIN_VALUE)}) {
            check(thrown(() -> Session.connect(new InetSocketAddress(1), timeout)) instanceof IllegalArgumentException, timeout);
        }
    }

    private static void pause() {
        try {
            Thread.sleep(100);
        } catch (InterruptedException interrupted) {
            throw new AssertionError(interrupted);
        }
    }

    /** A negative time is sent as what it is unsigned, so that the service says that it is too great. */
    private static void negativeTimes() throws Exception {
        List<String> came = new ArrayList<>();
        try (ServerSocket server = new ServerSocket(0, 50, InetAddress.getLoopbackAddress())) {
            start(() -> {
                try (Socket one = server.accept();
                        BufferedReader lines = new BufferedReader(new InputStreamReader(one.getInputStream(), StandardCharsets.US_ASCII))) {
                    for (String line = lines.readLine(); line != null; line = lines.readLine()) {
                        came.add(line);
                        one.getOutputStream().write("refused 902\n".getBytes(StandardCharsets.US_ASCII));
                    }
                }
            });
            try (Session session = Session.connect(server.getLocalSocketAddress(), TIMEOUT)) {
                for (Call call : new Call[] {() -> session.after(-1), () -> session.before(-2), () -> session.begin(-3), () -> session.commit(-4)}) {
                    check(thrown(call) instanceof TrueTime.Refused refused && refused.number() == TrueTime.Refused.FLOOR_TOO_FAR, came);
                }
            }
        }
        check(came.equals(List.of("after 18446744073709551615", "before 18446744073709551614", "commit 1 18446744073709551613",
            "commit 1 18446744073709551612")), came);
    }

    /** Serves sessions: a commit is released so long after it was begun, `now` ends the session, `before` is refused. */
    private static ServerSocket serve(long releasedAfterMs) throws IOException {
        ServerSocket server = new ServerSocket(0, 50, InetAddress.getLoopbackAddress());
        start(() -> {
            while (true) {
                Socket one = server.accept();
                start(() -> play(one, releasedAfterMs));
            }
        });
        return server;
    }

    private interface Work {
        void run() throws IOException;
    }

    private static void start(Work work) {
        Thread thread = new Thread(() -> {
            try {
                work.run();
            } catch (IOException ended) {
                // It was closed.
            }
        });
        thread.setDaemon(true);
        thread.start();
    }

    private static void play(Socket one, long releasedAfterMs) throws IOException {
        String last = "";
        long began = 0;
        try (one; BufferedReader lines = new BufferedReader(new InputStreamReader(one.getInputStream(), StandardCharsets.US_ASCII))) {
            for (String line = lines.readLine(); line != null && !line.equals("now"); line = lines.readLine()) {
                String[] words = line.split(" ");
                boolean isFirst = !words[1].equals(last);
                if (isFirst) {
                    last = words[1];
                    began = System.nanoTime();
                }
                boolean isReleased = !isFirst && System.nanoTime() - began > 1_000_000 * releasedAfterMs;
                String reply = words[0].equals("before") ? "refused 801" : (isReleased ? "committed " : "waiting ") + words[1] + " 200";
                one.getOutputStream().write((reply + "\n").getBytes(StandardCharsets.US_ASCII));
            }
        }
    }

    private static void log() throws Exception {
        List<String> told = new ArrayList<>();
        Logger logger = Logger.getLogger("io.truetime");
        logger.setUseParentHandlers(false);
        logger.setLevel(Level.ALL);
        logger.addHandler(new Handler() {
            @Override
            public void publish(LogRecord record) {
                told.add(record.getLevel() + " " + new SimpleFormatter().formatMessage(record));
            }

            @Override
            public void flush() {}

            @Override
            public void close() {}
        });
        try (ServerSocket server = serve(1500); Session session = Session.connect(server.getLocalSocketAddress(), TIMEOUT)) {
            check(thrown(() -> session.before(1)) instanceof TrueTime.Refused, told);
            check(thrown(session::now) instanceof IOException, told);
            check(session.commit(0) == 200, told);
        }
        List<String> wanted = List.of("FINE before 1: refused 801", "FINE the connection to ", "FINE connected anew to ",
            "WARNING the commit with timestamp 200 waits for long");
        boolean isSo = told.size() == wanted.size();
        for (int place = 0; isSo && place < told.size(); place++) {
            isSo = told.get(place).startsWith(wanted.get(place));
        }
        check(isSo, told.toArray());
    }

    private static void pools() throws Exception {
        try (ServerSocket server = serve(0)) {
            Pool pool = new Pool(1, Duration.ofMillis(200), () -> Session.connect(server.getLocalSocketAddress(), TIMEOUT));
            Pool.Lent lent = pool.lend();
            check(thrown(() -> pool.commit(0)) instanceof SocketTimeoutException, "all are lent");
            Thread.currentThread().interrupt();
            check(thrown(() -> pool.commit(0)) instanceof InterruptedException, "it is interrupted");
            lent.close();
            lent.close();
            check(pool.commit(0) == 200, "it is free");
            Pool.Lent again = pool.lend();
            check(again.session() == lent.session(), "it is the same");
            check(thrown(() -> pool.commit(0)) instanceof SocketTimeoutException, "it came back once");
            pool.close();
            check(thrown(() -> pool.commit(0)) instanceof ClosedChannelException, "it is closed");
            again.close();
            check(thrown(() -> again.session().after(1)) instanceof ClosedChannelException, "it is closed with it");
        }
        closedPool();
        check(thrown(() -> new Pool(0, TIMEOUT, () -> null)) instanceof IllegalArgumentException, "none");
        Pool none = new Pool(1, TIMEOUT, () -> {
            throw new IOException("none");
        });
        for (int turn = 0; turn < 3; turn++) {
            check("none".equals(thrown(() -> none.commit(0)).getMessage()), turn);
        }
    }

    /** Who waits for a session of a pool that is closed waits no longer. */
    private static void closedPool() throws Exception {
        try (ServerSocket server = serve(0)) {
            Pool pool = new Pool(1, TIMEOUT, () -> Session.connect(server.getLocalSocketAddress(), TIMEOUT));
            Pool.Lent lent = pool.lend();
            Thread closing = new Thread(() -> {
                try {
                    Thread.sleep(300);
                    pool.close();
                } catch (IOException | InterruptedException failed) {
                    throw new IllegalStateException(failed);
                }
            });
            long began = System.nanoTime();
            closing.start();
            check(thrown(() -> pool.commit(0)) instanceof ClosedChannelException, "it is closed");
            check(System.nanoTime() - began < TIMEOUT.toNanos() / 2, "it is told so at once");
            lent.close();
            closing.join();
        }
    }

    /** Connecting to a Unix socket at which as many wait as may ends in time. */
    private static void fullSocket(Path room) throws Exception {
        UnixDomainSocketAddress address = UnixDomainSocketAddress.of(room.resolve("socket"));
        List<SocketChannel> others = new ArrayList<>();
        try (ServerSocketChannel server = ServerSocketChannel.open(StandardProtocolFamily.UNIX)) {
            server.bind(address, 1);
            boolean isIn = true;
            while (isIn) {
                SocketChannel other = SocketChannel.open(StandardProtocolFamily.UNIX);
                others.add(other);
                other.configureBlocking(false);
                try {
                    isIn = other.connect(address);
                } catch (SocketException full) {
                    isIn = false;
                }
            }
            long began = System.nanoTime();
            Exception failed = thrown(() -> Session.connect(address, Duration.ofMillis(300)));
            long tookMs = (System.nanoTime() - began) / 1_000_000;
            check(failed instanceof SocketTimeoutException && tookMs >= 300 && tookMs < 20_000, failed, tookMs);
            server.accept().close();
            Session.connect(address, TIMEOUT).close();
        }
        for (SocketChannel other : others) {
            other.close();
        }
        Files.delete(address.getPath());
    }

    private static int descriptors() {
        return new java.io.File("/proc/self/fd").list().length;
    }

    /** Connecting that fails leaves nothing open, also before there is an address. */
    private static void failedConnecting() throws Exception {
        InetSocketAddress nowhere = InetSocketAddress.createUnresolved("x".repeat(64) + ".test", 1);
        thrown(() -> Session.connect(nowhere, TIMEOUT));
        int before = descriptors();
        for (int turn = 0; turn < 50; turn++) {
            thrown(() -> Session.connect(nowhere, TIMEOUT));
        }
        check(descriptors() < before + 50, before, descriptors());
    }

    /** Runs all. */
    public static void main(String[] words) throws Exception {
        Path room = Files.createTempDirectory("truetime");
        causesOfFiles(room);
        slots(room);
        clocksOfFiles(room);
        interruptedReaders(room);
        longTimeouts(room);
        negativeTimes();
        log();
        pools();
        fullSocket(room);
        failedConnecting();
        Files.delete(room.resolve("time"));
        Files.delete(room);
        System.out.println("passed: " + checks + " checks");
    }
}
