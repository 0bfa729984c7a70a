/** The class of an object, a class as a constant, a lambda and an assertion. */
class Who {
    static String name(Object object) {
        return object.getClass().getName();
    }

    static Object own() {
        return Who.class;
    }

    static boolean is(Object object) {
        return object instanceof Who;
    }

    static Runnable later(int number) {
        return () -> is(null);
    }

    static int check(int number) {
        assert number > 0;
        return number;
    }
}
