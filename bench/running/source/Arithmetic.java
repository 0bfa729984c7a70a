/** Whole numbers in a loop. */
public final class Arithmetic {
    private Arithmetic() {
    }

    /** The first two bytes of the input say how many thousand rounds there are. */
    public static byte[] verify(byte[] input) {
        int rounds = ((input[0] & 255) << 8 | input[1] & 255) * 1000;
        int number = 7;
        long sum = 1;
        for (int at = 0; at < rounds; at++) {
            number = number * 31 + (at ^ number >>> 9);
            sum += number % 1000 - (at & 63);
            sum ^= sum << 7;
        }
        return new byte[] {(byte) number, (byte) sum, (byte) (sum >> 32)};
    }
}
