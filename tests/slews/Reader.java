import io.truetime.TrueTime;
import java.io.IOException;
import java.nio.channels.Selector;
import java.nio.file.Path;
import java.time.Instant;

/** Reads a shared file until it is killed: tools/suites/slews.py says which lines it prints. */
public final class Reader {
    private static final int AT_ONCE = 20;

    private Reader() {}

    private static long trueNs() {
        Instant now = Instant.now();
        return now.getEpochSecond() * 1_000_000_000L + now.getNano();
    }

    private static String look(TrueTime client) {
        long before = trueNs();
        try {
            TrueTime.Reading now = client.now();
            return before + " " + trueNs() + " 0 " + now.earliestNs() + " " + now.latestNs() + "\n";
        } catch (TrueTime.Refused refused) {
            return before + " " + trueNs() + " " + refused.number() + " 0 0\n";
        }
    }

    public static void main(String[] words) throws IOException {
        TrueTime client = TrueTime.open(Path.of(words[0]), System.getProperty("user.name"));
        try (Selector nothing = Selector.open()) {
            while (true) {
                StringBuilder said = new StringBuilder();
                for (int turn = 0; turn < AT_ONCE; turn++) said.append(look(client));
                System.out.print(said);
                System.out.flush();
                nothing.select(5); // a sleep ends at a time by CLOCK_MONOTONIC
            }
        }
    }
}
