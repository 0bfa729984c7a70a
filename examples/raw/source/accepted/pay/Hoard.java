package pay;

/** A contract that makes one array after another and keeps none of them. */
public final class Hoard {
    private static final int MEBIBYTE = 1 << 20;

    private Hoard() {
    }

    public static byte[] verify(byte[] input) {
        byte[] last = input;
        for (;;) {
            last = new byte[MEBIBYTE];
        }
    }
}
