package cash;

/** A rule on the amounts of a transaction. */
interface Rule {
    boolean holds(int amount);
}
