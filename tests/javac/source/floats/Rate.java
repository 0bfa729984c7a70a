/** Floats in fields, in a descriptor, in an array and in code, and a method without any. */
class Rate {
    float share;
    static double[] table;

    static int half(int amount) {
        return (int) (amount * 0.5f);
    }

    static long none(long amount) {
        return amount / 2;
    }

    static boolean less(double one, double other) {
        return one < other;
    }
}
