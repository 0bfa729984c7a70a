package cash;

/** A contract: each amount keeps the rules. */
public final class Transfer {
    private static int checked;

    private Transfer() {
    }

    /** The sum of the amounts, eight bytes; an exception where a rule is broken. */
    public static byte[] verify(byte[] input) {
        Amounts amounts = new Amounts(input);
        Rule[] rules = {new Positive(), new Limited(Limited.LIMIT)};
        long sum = 0;
        for (int i = 0; i < amounts.count(); i++) {
            check(rules, amounts.at(i));
            sum += amounts.at(i);
        }
        return bytes(sum);
    }

    private static void check(Rule[] rules, int amount) {
        try {
            for (Rule rule : rules) {
                if (!rule.holds(amount)) {
                    throw new IllegalStateException("bad amount " + amount);
                }
            }
        } finally {
            checked++;
        }
    }

    private static byte[] bytes(long sum) {
        byte[] bytes = new byte[8];
        for (int i = 7; i >= 0; i--) {
            bytes[i] = (byte) sum;
            sum >>= 8;
        }
        return bytes;
    }
}
