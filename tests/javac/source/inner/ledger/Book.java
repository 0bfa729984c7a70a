// Inner, local and anonymous classes, an enum, an annotation, generics, try with resources, and switches on texts and on enums.
package ledger;

public class Book<T extends Comparable<T>> {
    private T last;
    private static int count;
    class Page { T first = last; int n() { return count++; } }
    static class Index implements AutoCloseable { final long at; Index(long at) { this.at = at; } public void close() { } }
    @interface Marked { int[] value() default {1, 2}; String why() default ""; }
    enum Side { LEFT, RIGHT }
    @Marked(why = "x") long find(String s, Side side) throws Exception {
        class Local { long of(Index i) { return i.at; } }
        try (Index i = new Index(7)) {
            switch (s) { case "a": case "bb": return new Local().of(i); default: break; }
            switch (side) { case LEFT: return 1; case RIGHT: return 2; }
        } catch (IllegalStateException | IllegalArgumentException e) { throw new Exception(e);
        } finally { count--; }
        Comparable<String> c = new Comparable<String>() { public int compareTo(String o) { return o.length(); } };
        synchronized (this) { return c.compareTo(s); }
    }
}
