package pay;

/** A rule on what a party has. */
interface Rule {
    boolean holds(int sum);
}
