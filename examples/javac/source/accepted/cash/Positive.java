package cash;

/** An amount is above zero. */
final class Positive implements Rule {
    @Override
    public boolean holds(int amount) {
        return amount > 0;
    }
}
