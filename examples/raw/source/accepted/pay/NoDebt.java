package pay;

/** Nobody has less than nothing. */
final class NoDebt implements Rule {
    @Override
    public boolean holds(int sum) {
        return sum >= 0;
    }
}
