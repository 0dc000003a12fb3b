package io.truetime;

import java.io.IOException;
import java.net.SocketTimeoutException;
import java.nio.channels.ClosedChannelException;
import java.time.Duration;
import java.util.ArrayDeque;
import java.util.ArrayList;
import java.util.Deque;
import java.util.List;

/**
 * Sessions with one machine for many threads, each of which has one to itself while it commits:
 *
 * <pre>{@code
 * var timeout = Duration.ofSeconds(30);
 * try (Pool pool = new Pool(16, timeout, () -> Session.connect(new InetSocketAddress("127.0.0.1", 5601), timeout))) {
 *     try (Pool.Lent lent = pool.lend()) {
 *         long stampNs = lent.session().begin(0);
 *         // write and commit locally, under this timestamp
 *         lent.session().awaitRelease();
 *     }
 * }
 * }</pre>
 *
 * <p>A session is opened when none is idle, and lent again only where its connection has not ended and none of its commits is
 * pending. One that comes back otherwise is closed: nobody else gets its commit.
 */
public final class Pool implements AutoCloseable {
    private final int size;
    private final Duration timeout;
    private final Opening opening;
    /** Those that are idle, the one that was used last in front. */
    private final Deque<Session> idle = new ArrayDeque<>();
    /** How many are lent, or about to be. */
    private int lent;
    private boolean isClosed;

    /** How a session is opened, and its lease set where commits have one. */
    @FunctionalInterface
    public interface Opening {
        /** Opens a session. */
        Session open() throws IOException;
    }

    /** A session that nobody else has until this is closed. A commit that is pending then is never known as released. */
    public final class Lent implements AutoCloseable {
        private final Session session;
        private boolean isBack;

        private Lent(Session session) {
            this.session = session;
        }

        /** The session. It is not to be used once this is closed. */
        public Session session() {
            return session;
        }

        /** Gives the session back. */
        @Override
        public void close() throws IOException {
            if (!isBack) {
                isBack = true;
                takeBack(session);
            }
        }
    }

    /** A pool of at most so many sessions. The time-out is how long a thread waits for one. No session is opened so far. */
    public Pool(int size, Duration timeout, Opening opening) {
        if (size < 1) {
            throw new IllegalArgumentException("a pool has one session at least");
        }
        this.size = size;
        this.timeout = Session.atMost(timeout);
        this.opening = opening;
    }

    /**
     * Lends the idle session that was used last, or a new one. Throws {@link SocketTimeoutException} where none is free in time,
     * {@link ClosedChannelException} where the pool is closed, {@link InterruptedException} where this thread is interrupted
     * while it waits, and what opening throws.
     */
    public Lent lend() throws IOException, InterruptedException {
        takePlace();
        Session session = null;
        try {
            session = usable();
            if (session == null) {
                session = opening.open();
            }
            return new Lent(session);
        } finally {
            if (session == null) {
                leavePlace(null);
            }
        }
    }

    /** As {@link Session#commit}, by a session of the pool, with the exceptions of {@link #lend}. */
    public long commit(long floorNs) throws IOException, InterruptedException {
        try (Lent lent = lend()) {
            return lent.session().commit(floorNs);
        }
    }

    /** Closes the sessions that are idle, and each other one when it comes back. */
    @Override
    public void close() throws IOException {
        List<Session> ended;
        synchronized (this) {
            isClosed = true;
            ended = new ArrayList<>(idle);
            idle.clear();
            notifyAll();
        }
        for (Session session : ended) {
            session.close();
        }
    }

    private synchronized void takePlace() throws IOException, InterruptedException {
        long giveUpNs = System.nanoTime() + timeout.toNanos();
        while (lent >= size && !isClosed) {
            long leftMs = (giveUpNs - System.nanoTime() + 999_999) / 1_000_000;
            if (leftMs <= 0) {
                throw new SocketTimeoutException("no session is free in time");
            }
            wait(leftMs);
        }
        if (isClosed) {
            throw new ClosedChannelException();
        }
        lent++;
    }

    /** Gives a place back, and with it a session that is idle, or none. Whether the session is kept. */
    private synchronized boolean leavePlace(Session session) {
        lent--;
        notify();
        if (session == null || isClosed) {
            return false;
        }
        idle.push(session);
        return true;
    }

    private synchronized Session last() {
        return idle.poll();
    }

    /** The idle session that was used last and is of use; null where there is none. */
    private Session usable() throws IOException {
        Session session = last();
        while (session != null && !session.isIdle()) {
            session.close();
            session = last();
        }
        return session;
    }

    /** One that is not idle is closed before another one has its place. */
    private void takeBack(Session session) throws IOException {
        boolean isIdle = session.isIdle();
        boolean isKept = false;
        try {
            if (!isIdle) {
                session.close();
            }
        } finally {
            isKept = leavePlace(isIdle ? session : null);
        }
        if (isIdle && !isKept) {
            session.close();
        }
    }
}
