package cash;

/** An amount is at most a limit. */
final class Limited implements Rule {
    static final int LIMIT = 100_000;
    private final long limit;

    Limited(long limit) {
        this.limit = limit;
    }

    @Override
    public boolean holds(int amount) {
        return amount <= limit;
    }
}
