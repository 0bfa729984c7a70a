/** Calls of static methods, of methods of a class and of an interface, some thirty deep. */
public class Calls implements Runnable {
    private int count;

    /** The first two bytes of the input say how many thousand rounds there are. */
    public static byte[] verify(byte[] input) {
        int rounds = ((input[0] & 255) << 8 | input[1] & 255) * 1000;
        Calls one = new Calls();
        Calls other = new Below();
        Runnable asked = other;
        int sum = 0;
        for (int at = 0; at < rounds; at++) {
            sum += one.next(at) + other.next(at);
            asked.run();
            if (at % 10 == 0) {
                sum += depth(30);
            }
        }
        return new byte[] {(byte) sum, (byte) one.count, (byte) other.count};
    }

    private static int depth(int left) {
        return left == 0 ? 0 : 1 + depth(left - 1);
    }

    int next(int number) {
        return number ^ count;
    }

    public void run() {
        count++;
    }

    /** It has one of the methods of its own. */
    private static final class Below extends Calls {
        Below() {
        }

        @Override
        int next(int number) {
            return number + 1;
        }
    }
}
