package bank;

/** A contract that violates no rule. */
public class Bank {
    interface Rule {
        boolean ok(int amount, long total);
    }

    abstract static class Base implements Rule, Runnable {
        protected int hits;

        public void run() {
            hits++;
        }

        public String toString() {
            return "Base" + hits;
        }
    }

    static final class Limit extends Base {
        private final long most;

        Limit(long most) {
            this.most = most;
        }

        public boolean ok(int amount, long total) {
            run();
            return total + amount <= most;
        }
    }

    static class Refused extends IllegalStateException {
        final int at;

        Refused(String message, Throwable cause, int at) {
            super(message, cause);
            this.at = at;
        }
    }

    static final int[][] TABLE = {{1, 2}, {3}, null};
    static long total;

    private static synchronized int sum(byte[] data) {
        int sum = 0;
        for (int at = 0; at < data.length; at++) {
            sum += data[at] & 255;
        }
        return sum;
    }

    static String kind(String word) {
        switch (word) {
            case "in":
                return "deposit";
            case "out":
                return "payment";
            default:
                return word.concat("?");
        }
    }

    public static byte[] verify(byte[] data) {
        Rule rule = new Limit(1000);
        try {
            if (!rule.ok(sum(data), total)) {
                throw new Refused("limit " + total, new ArithmeticException(), data.length);
            }
            synchronized (rule) {
                total += data[0];
            }
        } catch (ArrayIndexOutOfBoundsException e) {
            throw new IllegalArgumentException(e.getMessage(), e);
        } finally {
            total++;
        }
        Object table = TABLE;
        if (table instanceof int[][] && ((int[][]) table)[0].length == 2) {
            return new byte[] {(byte) kind("in").length(), -1};
        }
        return rule.toString().isEmpty() ? null : data;
    }
}
