import java.lang.management.ManagementFactory;
import java.lang.management.ThreadMXBean;
import java.lang.reflect.Method;
import java.nio.file.Files;
import java.nio.file.Paths;

/** Runs a contract's verify in a JVM and prints how long a processor was at it, in nanoseconds, and the answer. It is no contract itself. */
public final class Timed {
    private Timed() {
    }

    /** The class of the contract, and the path of its input. */
    public static void main(String[] words) throws Exception {
        Method verify = Class.forName(words[0]).getMethod("verify", byte[].class);
        byte[] input = Files.readAllBytes(Paths.get(words[1]));
        ThreadMXBean clock = ManagementFactory.getThreadMXBean();
        long start = clock.getCurrentThreadCpuTime();
        byte[] answer = (byte[]) verify.invoke(null, (Object) input);
        long end = clock.getCurrentThreadCpuTime();
        StringBuilder text = new StringBuilder();
        for (byte each : answer) {
            text.append(String.format("%02x", each));
        }
        System.out.println((end - start) + " " + text);
    }
}
