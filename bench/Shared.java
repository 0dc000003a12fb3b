import io.truetime.TrueTime;
import java.nio.file.Path;

/**
 * What a reading of the shared file takes by the Java client, for bench/service: `Shared PATH` prints the least nanoseconds of 500 batches of
 * 1,000 calls, by the call.
 */
public final class Shared {
    private Shared() {}

    private static long batch(TrueTime client) {
        long sum = 0;
        for (int call = 0; call < 1000; call++) sum += client.now().earliestNs();
        return sum;
    }

    public static void main(String[] words) {
        TrueTime client = TrueTime.open(Path.of(words[0]), System.getProperty("user.name"));
        long least = Long.MAX_VALUE;
        long sum = 0;
        for (int turn = 0; turn < 500; turn++) {
            long since = System.nanoTime();
            sum += batch(client);
            least = Math.min(least, System.nanoTime() - since);
        }
        if (sum == 0) throw new IllegalStateException("no time");
        System.out.printf("%.1f%n", least / 1000.0);
    }
}
