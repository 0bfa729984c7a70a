/** An enum, a switch on it, and its class as a constant. */
class Use {
    enum Side { LEFT, RIGHT }

    static int f(Side side) {
        switch (side) {
            case LEFT:
                return 0;
            default:
                return 1;
        }
    }

    static Class<?> c() {
        return Side.class;
    }
}
