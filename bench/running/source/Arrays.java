/** Loads and stores of arrays: a sieve, sums of rows, and copies. */
public final class Arrays {
    private static final int SIZE = 1000;

    private Arrays() {
    }

    /** The first two bytes of the input say how many tens of rounds there are. */
    public static byte[] verify(byte[] input) {
        int rounds = ((input[0] & 255) << 8 | input[1] & 255) * 10;
        boolean[] crossed = new boolean[SIZE];
        int[] numbers = new int[SIZE];
        long[] sums = new long[SIZE];
        int found = 0;
        for (int at = 0; at < rounds; at++) {
            found += sieve(crossed);
            for (int place = 1; place < SIZE; place++) {
                numbers[place] += numbers[place - 1] + at;
                sums[place] += numbers[place];
            }
            System.arraycopy(numbers, 0, numbers, 1, SIZE - 1);
        }
        return new byte[] {(byte) found, (byte) numbers[SIZE - 1], (byte) sums[SIZE - 1]};
    }

    /** How many numbers below the size are a product of two others. */
    private static int sieve(boolean[] crossed) {
        for (int place = 0; place < SIZE; place++) {
            crossed[place] = false;
        }
        int found = 0;
        for (int factor = 2; factor * factor < SIZE; factor++) {
            for (int product = factor * factor; product < SIZE; product += factor) {
                if (!crossed[product]) {
                    crossed[product] = true;
                    found++;
                }
            }
        }
        return found;
    }
}
