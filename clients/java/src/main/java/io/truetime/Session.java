package io.truetime;

import java.io.EOFException;
import java.io.IOException;
import java.io.InterruptedIOException;
import java.net.SocketAddress;
import java.net.SocketException;
import java.net.SocketTimeoutException;
import java.net.StandardProtocolFamily;
import java.net.StandardSocketOptions;
import java.net.UnixDomainSocketAddress;
import java.nio.ByteBuffer;
import java.nio.channels.ClosedChannelException;
import java.nio.channels.SelectionKey;
import java.nio.channels.Selector;
import java.nio.channels.SocketChannel;
import java.nio.charset.StandardCharsets;
import java.time.Duration;
import java.util.Map;
import java.util.Set;
import java.util.regex.Pattern;

/**
 * The time with an error bound, and timestamps for commits, by a session with the time service of this machine:
 *
 * <pre>{@code
 * var address = new InetSocketAddress("127.0.0.1", 5601); // or UnixDomainSocketAddress.of(path)
 * try (Session session = Session.connect(address, Duration.ofSeconds(30))) {
 *     long stampNs = session.begin(0); // no other commit of this machine has this timestamp
 *     // write and commit locally, under this timestamp
 *     session.awaitRelease(); // only now may anybody be told of the commit
 * }
 * }</pre>
 *
 * <p>A session has one line and its reply at a time; calls of several threads take turns. It has one commit at a time, so each
 * thread that commits wants a session of its own, or one of a {@link Pool}. What sessions meet is told to the {@link
 * System.Logger} {@code io.truetime}: at DEBUG that they connected anew, that a connection failed, and what is refused, at
 * WARNING that a commit waits for more than a second. Times are unsigned, so a negative one is past the greatest time. A call throws {@link TrueTime.Refused} where the
 * service refuses, and an {@link IOException} where the connection fails: {@link SocketTimeoutException} where no reply came
 * in time, {@link EOFException} where the service ended the session. Nobody knows then whether a commit that was asked for
 * was begun. It is {@link Lost}, with that as its cause, where a commit of {@link #begin} was pending or a lease was set.
 *
 * <p>An interrupt of a thread that waits in a call ends the connection, too: the call throws {@link InterruptedIOException}, {@link
 * java.nio.channels.ClosedByInterruptException} or {@link Lost}, and the thread still counts as interrupted. To cancel what waits
 * and keep its commit, let it end.
 *
 * <p>The next call after that connects anew, to a new session of the service. So does a call that finds the connection ended
 * before its line was sent, as behind a pause, where that loses nothing of the caller's. No line is sent a second time by that:
 * the last commit is forgotten. Nor is the lease set again: once {@link #lease} was called, {@link #begin} and {@link #commit}
 * refuse with 903 as long as the connection has no lease. A session that was closed throws {@link ClosedChannelException}.
 */
public final class Session implements AutoCloseable {
    /** The most bytes of a line and of a reply, without the line feed. */
    private static final int LINE_BYTES = 64;
    /** The refusals that say of the line of a pending commit that the service knows of no such one. */
    private static final Set<Integer> NOT_PENDING = Set.of(
        TrueTime.Refused.COMMIT_PASSED, TrueTime.Refused.COMMIT_PENDING, TrueTime.Refused.COMMIT_GONE);
    /**
     * The refusals that say of the first line of a commit that it was not begun. Another one may also come of the step that
     * would have released it.
     */
    private static final Set<Integer> NOT_BEGUN = Set.of(
        TrueTime.Refused.USED_UP, TrueTime.Refused.FLOOR_TOO_FAR, TrueTime.Refused.LEASE_OVER, TrueTime.Refused.TOO_MANY_COMMITS,
        TrueTime.Refused.ID_USED, TrueTime.Refused.STAMP_USED, TrueTime.Refused.COMMIT_PENDING, TrueTime.Refused.FLOOR_ABOVE_CAP);
    private static final long PAUSE_MS = 1;
    /** The longest time-out, some 24 days: connecting takes no longer one. */
    private static final Duration LONGEST = Duration.ofMillis(Integer.MAX_VALUE);
    /** The pause before connecting again to a Unix socket at which as many wait as may. */
    private static final long CONNECT_PAUSE_MS = 5;
    /** How long a commit waits before that is told. */
    private static final long LONG_WAIT_NS = 1_000_000_000;
    private static final System.Logger LOGGER = System.getLogger("io.truetime");
    private static final Pattern LINE = Pattern.compile("[ -~]{0,64}");
    private static final Pattern NUMBER = Pattern.compile("0|[1-9][0-9]{0,18}");
    private static final Map<String, Integer> YES_OR_NO = Map.of("yes", 0, "no", 0);
    private static final Map<String, Integer> LEASED = Map.of("leased", 2);
    private static final Map<String, Integer> COMMITTED_OR_WAITING = Map.of("committed", 2, "waiting", 2);

    /** UNSURE: the first line was refused, and the commit may have begun all the same. */
    private enum State { NO_COMMIT, UNSURE, WAITING, COMMITTED }

    /** Who may wait for the last commit: the caller, to which commit gave no timestamp so far, or begin has. */
    private enum Waiter { NOBODY, OF_COMMIT, OF_BEGIN }

    private final SocketAddress address;
    private final Duration timeout;
    private long maxWidthNs = Long.MAX_VALUE;
    private boolean isClosed;
    /** Whether a lease was ever asked for: then no commit begins without one. */
    private boolean wantsLease;
    /** Until when a line may take with its reply, by {@link System#nanoTime}. */
    private long giveUpNs;
    /** The connection, and null where there is none. What follows belongs to it. */
    private SocketChannel channel;
    private Selector selector;
    /** The last commit that may have begun, counted from 1, and its timestamp, or 0. */
    private long number;
    private long stampNs;
    private State state = State.NO_COMMIT;
    private Waiter waiter = Waiter.NOBODY;
    private boolean hasLease;

    private Session(SocketAddress address, Duration timeout) {
        this.address = address;
        this.timeout = timeout;
    }

    /** The true time lies from earliestNs to latestNs, both included. */
    public record Interval(long earliestNs, long latestNs) {}

    /** The refusal 1104: a commit of {@link #begin} is not known as released. Call {@link #awaitRelease}. */
    public static final class CommitPending extends TrueTime.Refused {
        private static final long serialVersionUID = 1;
        private final long commit;
        private final long stampNs;

        private CommitPending(long commit, long stampNs) {
            super(COMMIT_PENDING, ": await the release of commit " + commit + ", whose timestamp is " + stampNs);
            this.commit = commit;
            this.stampNs = stampNs;
        }

        /** Its number in the session. */
        public long commit() {
            return commit;
        }

        /** Its timestamp. */
        public long stampNs() {
            return stampNs;
        }
    }

    /** The connection failed, as its cause says, and took along what the caller has to make good. */
    public static final class Lost extends IOException {
        private static final long serialVersionUID = 1;
        private final long commit;
        private final long stampNs;
        private final boolean hadLease;

        private Lost(IOException failed, long commit, long stampNs, boolean hadLease) {
            super(failed
                + (commit == 0 ? "" : "; commit " + commit + ", whose timestamp is " + stampNs
                    + ", was pending: begin it again, or give it up")
                + (hadLease ? "; the lease has to be set again" : ""), failed);
            this.commit = commit;
            this.stampNs = stampNs;
            this.hadLease = hadLease;
        }

        /** The number of the commit of begin that was pending, and 0 where none was. It is never known as released. */
        public long commit() {
            return commit;
        }

        /** Its timestamp. */
        public long stampNs() {
            return stampNs;
        }

        /** Whether the session had a lease: a new one has none until it is set again. */
        public boolean hadLease() {
            return hadLease;
        }
    }

    private record Reply(String word, long[] numbers) {}

    /**
     * Connects to a TCP address or a Unix socket. The time-out is how long connecting, sending, each receiving and the
     * waiting for a release may take, at least a millisecond; one of more than 24 days counts as 24 days. Connecting anew is part
     * of the sending and receiving that follow it.
     */
    public static Session connect(SocketAddress address, Duration timeout) throws IOException {
        if (timeout.compareTo(Duration.ofMillis(1)) < 0) {
            throw new IllegalArgumentException("a time-out below a millisecond");
        }
        Session session = new Session(address, atMost(timeout));
        session.connect();
        return session;
    }

    /**
     * Has readings that are wider than this refused with 1824, in nanoseconds, also where the machine allows them: {@link #now}
     * looks at each, {@link #after} and {@link #before} compare with one of that, and before a commit begins one is asked for. The
     * session itself.
     */
    public synchronized Session limitWidth(long maxWidthNs) {
        this.maxWidthNs = maxWidthNs;
        return this;
    }

    private boolean isLimited() {
        return maxWidthNs != Long.MAX_VALUE;
    }

    /** A time-out that is not too long. */
    static Duration atMost(Duration timeout) {
        return timeout.compareTo(LONGEST) > 0 ? LONGEST : timeout;
    }

    private void connect() throws IOException {
        boolean isUnix = address instanceof UnixDomainSocketAddress;
        SocketChannel made = isUnix ? reached() : SocketChannel.open();
        try {
            if (!isUnix) {
                made.socket().connect(address, (int) timeout.toMillis());
                made.setOption(StandardSocketOptions.TCP_NODELAY, true);
            }
            made.configureBlocking(false);
            selector = Selector.open();
            made.register(selector, SelectionKey.OP_READ);
            channel = made;
        } catch (IOException | RuntimeException failed) {
            made.close();
            drop();
            throw failed;
        }
    }

    /** A channel that is connected to the Unix socket. Where as many wait there as may, it is tried again. */
    private SocketChannel reached() throws IOException {
        long giveUpNs = System.nanoTime() + timeout.toNanos();
        while (true) {
            SocketChannel made = SocketChannel.open(StandardProtocolFamily.UNIX);
            try {
                made.configureBlocking(false);
                if (made.connect(address)) {
                    return made;
                }
            } catch (SocketException failed) {
                // The text of EAGAIN; one in another language is thrown.
                if (!"Resource temporarily unavailable".equals(failed.getMessage())) {
                    made.close();
                    throw failed;
                }
            } catch (IOException | RuntimeException failed) {
                made.close();
                throw failed;
            }
            made.close();
            if (System.nanoTime() - giveUpNs > 0) {
                throw new SocketTimeoutException("no connection in time");
            }
            pause(CONNECT_PAUSE_MS);
        }
    }

    /** Whether it is connected, as far as can be seen, and no commit of it is pending. */
    synchronized boolean isIdle() {
        if (isClosed || channel == null || state == State.WAITING || state == State.UNSURE) {
            return false;
        }
        try {
            return channel.read(ByteBuffer.allocate(1)) == 0;
        } catch (IOException failed) {
            return false;
        }
    }

    /** Gives the connection up, and all that belongs to it. */
    private void drop() throws IOException {
        SocketChannel channel = this.channel;
        Selector selector = this.selector;
        this.channel = null;
        this.selector = null;
        number = 0;
        stampNs = 0;
        state = State.NO_COMMIT;
        waiter = Waiter.NOBODY;
        hasLease = false;
        try (selector; channel) {
            // Both are closed, where there are any.
        }
    }

    private boolean isPending() {
        return state == State.WAITING && waiter == Waiter.OF_BEGIN;
    }

    /** Gives the connection up; the exception that says so. */
    private IOException lost(IOException failed) throws IOException {
        if (channel != null) {
            LOGGER.log(System.Logger.Level.DEBUG, "the connection to {0} failed: {1}", address, failed);
        }
        IOException lost = failed;
        if (isPending()) {
            lost = new Lost(failed, number, stampNs, hasLease);
        } else if (hasLease) {
            lost = new Lost(failed, 0, 0, true);
        }
        drop();
        return lost;
    }

    /**
     * Gives up a connection that has ended, or on which something came that nobody asked for. Throws where that loses what the
     * caller has to make good.
     */
    private void look() throws IOException {
        checkOpen();
        if (channel == null) {
            return;
        }
        IOException ended = new EOFException("the service ended the session");
        try {
            if (channel.read(ByteBuffer.allocate(1)) == 0) {
                return;
            }
        } catch (IOException failed) {
            ended = failed;
        }
        if (lost(ended) instanceof Lost lost) {
            throw lost;
        }
    }

    private void checkOpen() throws ClosedChannelException {
        if (isClosed) {
            throw new ClosedChannelException();
        }
    }

    /**
     * Ends the session for good, once no call of another thread is under way. A commit that is not released then is never known as
     * released.
     */
    @Override
    public synchronized void close() throws IOException {
        isClosed = true;
        drop();
    }

    /**
     * Sends one line and gives its reply, both without the line feed; {@code refused N} is a reply like another. Begin no
     * commit and set no lease by it: the other calls do not know of that. Throws {@link IllegalArgumentException} where the
     * line has more than 64 bytes, or a byte that is no printable ASCII.
     */
    public synchronized String ask(String line) throws IOException {
        if (!LINE.matcher(line).matches()) {
            throw new IllegalArgumentException("not a line: " + line);
        }
        look();
        return exchange(line);
    }

    /** Sends a line and gives its reply. Without a reply the connection is given up. */
    private String exchange(String line) throws IOException {
        giveUpNs = System.nanoTime() + timeout.toNanos();
        if (channel == null) {
            connect();
            LOGGER.log(System.Logger.Level.DEBUG, "connected anew to {0}", address);
        }
        try {
            send(line + "\n");
            String reply = receive();
            if (!LINE.matcher(reply).matches()) {
                throw new IOException("not a reply to " + line);
            }
            return reply;
        } catch (IOException failed) {
            throw lost(failed);
        } catch (RuntimeException failed) {
            drop();
            throw failed;
        }
    }

    /** The time now. */
    public synchronized Interval now() throws IOException {
        look();
        return reading();
    }

    /** {@link #now} on a connection that was looked at. */
    private Interval reading() throws IOException {
        long[] numbers = answered("now", Map.of("now", 2)).numbers;
        if (numbers[0] > numbers[1]) {
            throw failed("now");
        }
        if (numbers[1] - numbers[0] > maxWidthNs) {
            throw new TrueTime.Refused(TrueTime.Refused.READING_TOO_WIDE);
        }
        return new Interval(numbers[0], numbers[1]);
    }

    /** Whether time {@code tNs} has surely passed. */
    public synchronized boolean after(long tNs) throws IOException {
        look();
        if (isLimited()) {
            return Long.compareUnsigned(tNs, reading().earliestNs()) < 0;
        }
        return answered("after " + Long.toUnsignedString(tNs), YES_OR_NO).word.equals("yes");
    }

    /** Whether time {@code tNs} has surely not arrived. */
    public synchronized boolean before(long tNs) throws IOException {
        look();
        if (isLimited()) {
            return Long.compareUnsigned(tNs, reading().latestNs()) > 0;
        }
        return answered("before " + Long.toUnsignedString(tNs), YES_OR_NO).word.equals("yes");
    }

    /**
     * Sets the lease: timestamps of commits that begin from now on lie from {@code loNs} to {@code hiNs}, both included.
     * Refuses with 101 and 102, and then the lease is what it was; where there was none, {@link #begin} and {@link #commit} refuse
     * with 903 until one is set.
     */
    public synchronized void lease(long loNs, long hiNs) throws IOException {
        checkOpen();
        wantsLease = true;
        look();
        String line = "lease " + Long.toUnsignedString(loNs) + " " + Long.toUnsignedString(hiNs);
        Reply reply = answered(line, LEASED);
        if (reply.numbers[0] != loNs || reply.numbers[1] != hiNs) {
            throw failed(line);
        }
        hasLease = true;
    }

    /**
     * Begins a commit and gives its timestamp, no less than {@code floorNs}. One commit at a time: throws {@link CommitPending}
     * before the release of the last one that was begun by this. One that {@link #commit} left pending is ended first, as that
     * says. Refuses with 903 where the lease is over or was lost with its connection: set it again. After another refusal begin
     * again, with the same floor: one that began all the same is ended first, too.
     */
    public synchronized long begin(long floorNs) throws IOException {
        start(floorNs, System.nanoTime());
        waiter = Waiter.OF_BEGIN;
        return stampNs;
    }

    /**
     * Waits until the timestamp of the commit has surely passed, and gives it. Throws {@link SocketTimeoutException} where
     * that takes longer than the time-out; as after a refusal, the commit still waits then, and may be waited for again.
     * Throws {@link IllegalStateException} where no commit was begun, or the connection of the last one failed.
     */
    public synchronized long awaitRelease() throws IOException {
        long began = System.nanoTime();
        look();
        if (waiter == Waiter.NOBODY) {
            throw new IllegalStateException("no commit was begun");
        }
        release(began);
        return stampNs;
    }

    /**
     * Begins a commit, waits for its release, and gives its timestamp, with the exceptions of {@link #begin} and {@link
     * #awaitRelease}. Where it fails while it waits, the commit stays pending, and nobody has its timestamp: {@link
     * #awaitRelease} goes on with it, and the next {@link #commit} or {@link #begin} waits for its release first, and then
     * begins another one.
     */
    public synchronized long commit(long floorNs) throws IOException {
        long began = System.nanoTime();
        start(floorNs, began);
        release(began);
        return stampNs;
    }

    /** Begins a commit for which the caller may wait. */
    private void start(long floorNs, long began) throws IOException {
        look();
        if (isPending()) {
            throw new CommitPending(number, stampNs);
        }
        if (isLimited()) {
            reading();
        }
        boolean isUnsure = state == State.UNSURE;
        waiter = Waiter.NOBODY;
        end(began);
        try {
            sendFirst(floorNs);
        } catch (TrueTime.Refused refused) {
            if (refused.number() != TrueTime.Refused.COMMIT_PENDING || !isUnsure) {
                throw refused;
            }
            state = State.WAITING; // it began, though it was refused
            end(began);
            sendFirst(floorNs);
        }
        waiter = Waiter.OF_COMMIT;
    }

    /** Waits for the release of a commit whose timestamp nobody has: it may be too early for the one that begins now. */
    private void end(long began) throws IOException {
        try {
            release(began);
        } catch (TrueTime.Refused refused) {
            if (!NOT_PENDING.contains(refused.number())) {
                throw refused;
            }
        }
    }

    /** Sends the first line of the next commit. */
    private void sendFirst(long floorNs) throws IOException {
        if (wantsLease && !hasLease) {
            throw new TrueTime.Refused(TrueTime.Refused.LEASE_OVER);
        }
        long next = number + 1;
        state = State.NO_COMMIT;
        try {
            sendCommit(next, floorNs);
        } catch (TrueTime.Refused refused) {
            if (!NOT_BEGUN.contains(refused.number())) {
                number = next;
                stampNs = 0;
                state = State.UNSURE;
            }
            throw refused;
        }
    }

    /**
     * Sends the line of the last commit until it is released. One of which the service does not know is forgotten, with the
     * connection.
     */
    private void release(long began) throws IOException {
        boolean isTold = false;
        while (state == State.WAITING) {
            try {
                sendCommit(number, 0);
            } catch (TrueTime.Refused refused) {
                if (NOT_PENDING.contains(refused.number())) {
                    drop();
                }
                throw refused;
            }
            if (state == State.WAITING) {
                if (System.nanoTime() - began > timeout.toNanos()) {
                    throw new SocketTimeoutException("the commit is not released in time");
                }
                if (System.nanoTime() - began > LONG_WAIT_NS && !isTold) {
                    isTold = true;
                    LOGGER.log(System.Logger.Level.WARNING, "the commit with timestamp {0,number,#} waits for long", stampNs);
                }
                pause(PAUSE_MS);
            }
        }
    }

    /** Sends the line of a commit. The timestamp of one that has none so far has to be at least {@code floorNs}. */
    private void sendCommit(long commit, long floorNs) throws IOException {
        String line = "commit " + commit + " " + Long.toUnsignedString(floorNs);
        Reply reply = answered(line, COMMITTED_OR_WAITING);
        long stamp = reply.numbers[1];
        boolean isRight = commit == number ? stampNs == 0 || stamp == stampNs : Long.compareUnsigned(stamp, floorNs) >= 0;
        if (reply.numbers[0] != commit || !isRight) {
            throw failed(line);
        }
        number = commit;
        stampNs = stamp;
        state = reply.word.equals("committed") ? State.COMMITTED : State.WAITING;
    }

    /** The reply as a word and its numbers; each word that is wanted has so many. */
    private Reply answered(String line, Map<String, Integer> wanted) throws IOException {
        String[] words = exchange(line).split(" ", -1);
        long[] numbers = new long[words.length - 1];
        for (int place = 0; place < numbers.length; place++) {
            numbers[place] = number(line, words[place + 1]);
        }
        if (words[0].equals("refused") && numbers.length == 1 && numbers[0] >= 1 && numbers[0] <= 65_535) {
            TrueTime.Refused refused = new TrueTime.Refused((int) numbers[0]);
            LOGGER.log(System.Logger.Level.DEBUG, "{0}: {1}", line, refused.getMessage());
            throw refused;
        }
        if (wanted.getOrDefault(words[0], -1) != numbers.length) {
            throw failed(line);
        }
        return new Reply(words[0], numbers);
    }

    /** A number has one spelling, and is at most the greatest time. */
    private long number(String line, String text) throws IOException {
        // One of 19 digits is below 2^64.
        long value = NUMBER.matcher(text).matches() ? Long.parseUnsignedLong(text) : -1;
        if (value < 0 || value > TrueTime.MAX_TIME_NS) {
            throw failed(line);
        }
        return value;
    }

    private IOException failed(String line) throws IOException {
        return lost(new IOException("not a reply to " + line));
    }

    private void send(String line) throws IOException {
        ByteBuffer bytes = ByteBuffer.wrap(line.getBytes(StandardCharsets.US_ASCII));
        while (bytes.hasRemaining()) {
            if (channel.write(bytes) == 0) {
                awaitChannel(SelectionKey.OP_WRITE);
            }
        }
    }

    private String receive() throws IOException {
        ByteBuffer bytes = ByteBuffer.allocate(LINE_BYTES + 1);
        while (bytes.position() == 0 || bytes.get(bytes.position() - 1) != '\n') {
            if (!bytes.hasRemaining()) {
                throw new IOException("the reply is too long");
            }
            int received = channel.read(bytes);
            if (received < 0) {
                throw new EOFException("the service ended the session");
            }
            if (received == 0) {
                awaitChannel(SelectionKey.OP_READ);
            }
        }
        return new String(bytes.array(), 0, bytes.position() - 1, StandardCharsets.ISO_8859_1);
    }

    private void awaitChannel(int operation) throws IOException {
        channel.keyFor(selector).interestOps(operation);
        long leftMs = (giveUpNs - System.nanoTime() + 999_999) / 1_000_000;
        int ready = selector.select(Math.max(leftMs, 1));
        selector.selectedKeys().clear();
        if (ready == 0) {
            throw Thread.currentThread().isInterrupted()
                ? new InterruptedIOException("interrupted")
                : new SocketTimeoutException("no reply in time");
        }
    }

    private static void pause(long milliseconds) throws InterruptedIOException {
        try {
            Thread.sleep(milliseconds);
        } catch (InterruptedException interrupted) {
            Thread.currentThread().interrupt();
            throw new InterruptedIOException("interrupted");
        }
    }
}
