package pay;

/** A contract that never ends. */
public final class Spin {
    private Spin() {
    }

    public static byte[] verify(byte[] input) {
        for (;;) {
        }
    }
}
