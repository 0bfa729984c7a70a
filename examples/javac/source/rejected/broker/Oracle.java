package broker;

/** A contract that no sandbox can run: it asks the machine, and it wants to be told when it is thrown away. */
public class Oracle {
    private static native long rate(String currency);

    public static byte[] verify(byte[] input) {
        return rate("EUR") > 0 ? input : null;
    }

    @Override
    protected void finalize() {
        System.currentTimeMillis();
    }
}
