package pay;

/** Nobody has less than nothing. It is no Rule any more. */
final class NoDebt {
    public boolean holds(int sum) {
        return sum >= 0;
    }
}
