package pay;

/** A contract whose class can't be initialised. */
public final class Early {
    private static final int PARTIES = count("");

    private Early() {
    }

    private static int count(String names) {
        if (names.isEmpty()) {
            throw new IllegalStateException("nobody");
        }
        return names.length();
    }

    public static byte[] verify(byte[] input) {
        return new byte[PARTIES];
    }
}
