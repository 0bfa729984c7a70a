package pay;

/** A contract: payments among four parties. Two bytes of the input are one payment: the party, and what it gets or gives. */
public final class Payment {
    private static final int PARTIES = 4;

    private Payment() {
    }

    /** What each party has in the end, a byte each; an exception where a rule is broken. */
    public static byte[] verify(byte[] input) {
        Rule rule = new NoDebt();
        byte[] purses = new byte[PARTIES];
        for (int at = 0; at < input.length; at += 2) {
            int party = input[at];
            int sum = purses[party] + input[at + 1];
            if (!rule.holds(sum)) {
                throw new Refused("party " + party + " has " + sum);
            }
            purses[party] = (byte) sum;
        }
        return purses;
    }
}
