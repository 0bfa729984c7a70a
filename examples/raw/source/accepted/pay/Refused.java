package pay;

/** A rule is broken. */
public final class Refused extends RuntimeException {
    Refused(String why) {
        super(why);
    }
}
