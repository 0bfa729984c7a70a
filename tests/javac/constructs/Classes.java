// Classes and their members, as in Types.java.

// a class in a class, `static`: 04
class Nested {
    static class Inside {
        private int hidden = 4;
    }

    public static byte[] verify(byte[] input) {
        return new byte[] { (byte) new Inside().hidden };
    }
}

// a class in a class without `static`, made by `new Inside()`: 07
class Inner {
    int base = 5;

    class Inside {
        int sum() {
            return base + 2;
        }
    }

    int sum() {
        return new Inside().sum();
    }

    public static byte[] verify(byte[] input) {
        return new byte[] { (byte) new Inner().sum() };
    }
}

// a class in a class without `static`, made by `outer.new Inside()`: WHITELIST
class InnerOfAnother {
    class Inside {
    }

    public static byte[] verify(byte[] input) {
        InnerOfAnother outer = new InnerOfAnother();
        return outer.new Inside() == null ? null : input;
    }
}

// an anonymous class, also with variables from outside: 06
class Anonymous {
    interface Rule {
        int apply(int number);
    }

    public static byte[] verify(final byte[] input) {
        final int two = 2;
        Rule twice = new Rule() {
            public int apply(int number) {
                return number * two * input[1];
            }
        };
        return new byte[] { (byte) twice.apply(input[0]) };
    }
}

// a class in a method: 03
class Local {
    public static byte[] verify(byte[] input) {
        class Counter {
            byte count = input[0];
        }
        return new byte[] { new Counter().count };
    }
}

// `abstract` classes, `super`, overriding: 0c
class Abstract {
    abstract static class Shape {
        abstract int area();

        int twice() {
            return 2 * area();
        }
    }

    static class Square extends Shape {
        int side = 2;

        int area() {
            return side * side;
        }

        int twice() {
            return super.twice() + area();
        }
    }

    public static byte[] verify(byte[] input) {
        Shape shape = new Square();
        return new byte[] { (byte) shape.twice() };
    }
}

// an own interface: 0102
class Interfaces {
    interface Numbered {
        byte number();
    }

    static class One implements Numbered {
        public byte number() {
            return 1;
        }
    }

    static class Two implements Numbered {
        public byte number() {
            return 2;
        }
    }

    public static byte[] verify(byte[] input) {
        Numbered[] all = { new One(), new Two() };
        return new byte[] { all[0].number(), all[1].number() };
    }
}

// a constant of an interface: 0508
class InterfaceConstants {
    interface Limits {
        int MOST = 5;
        int[] ALL = { 8, 9 };
    }

    public static byte[] verify(byte[] input) {
        return new byte[] { Limits.MOST, (byte) Limits.ALL[0] };
    }
}

// a `default` method of an interface: INTERFACE_CODE
class DefaultMethod {
    interface Rule {
        default int most() {
            return 5;
        }
    }

    static class Own implements Rule {
    }

    public static byte[] verify(byte[] input) {
        return new byte[new Own().most()];
    }
}

// a `static` method of an interface: INTERFACE_CODE
class StaticOfInterface {
    interface Rule {
        static int most() {
            return 5;
        }
    }

    public static byte[] verify(byte[] input) {
        return new byte[Rule.most()];
    }
}

// `static` and instance initialisers, `this(..)`: 070102
class Initialisers {
    static final byte[] TABLE = new byte[2];

    static {
        TABLE[1] = 2;
    }

    final byte seven;

    {
        TABLE[0] = 1;
    }

    Initialisers() {
        this((byte) 7);
    }

    Initialisers(byte seven) {
        this.seven = seven;
    }

    public static byte[] verify(byte[] input) {
        byte seven = new Initialisers().seven;
        return new byte[] { seven, TABLE[0], TABLE[1] };
    }
}

// a method with any number of arguments, `int...`: 0002
class Varargs {
    static int count(int... numbers) {
        return numbers.length;
    }

    public static byte[] verify(byte[] input) {
        return new byte[] { (byte) count(), (byte) count(4, 5) };
    }
}

// recursion: 78
class Recursion {
    static int factorial(int number) {
        return number < 2 ? 1 : number * factorial(number - 1);
    }

    public static byte[] verify(byte[] input) {
        return new byte[] { (byte) factorial(5) };
    }
}

// `synchronized`, `transient`, `volatile`, `final`: 05
class Modifiers {
    private transient int one = 1;
    private volatile int four = 4;

    synchronized int five() {
        return one + four;
    }

    public static byte[] verify(byte[] input) {
        final Modifiers object = new Modifiers();
        return new byte[] { (byte) object.five() };
    }
}

// own `equals`, `hashCode`, `toString`: 010970
class OwnEquals {
    public boolean equals(Object other) {
        return other instanceof OwnEquals;
    }

    public int hashCode() {
        return 9;
    }

    public String toString() {
        return "p";
    }

    public static byte[] verify(byte[] input) {
        Object one = new OwnEquals();
        return new byte[] { (byte) (one.equals(new OwnEquals()) ? 1 : 0), (byte) one.hashCode(), (byte) one.toString().charAt(0) };
    }
}

// `implements Comparable<Own>`: ff
class Compared implements Comparable<Compared> {
    final int number;

    Compared(int number) {
        this.number = number;
    }

    public int compareTo(Compared other) {
        return number < other.number ? -1 : number > other.number ? 1 : 0;
    }

    static <T extends Comparable<T>> int compare(T one, T other) {
        return one.compareTo(other);
    }

    public static byte[] verify(byte[] input) {
        return new byte[] { (byte) compare(new Compared(3), new Compared(4)) };
    }
}

// `implements Runnable`, `Serializable`, `CharSequence`: 030561
class LibraryInterfaces {
    static class Letters implements CharSequence {
        public int length() {
            return 5;
        }

        public char charAt(int at) {
            return (char) ('a' + at);
        }

        public CharSequence subSequence(int from, int end) {
            return "";
        }
    }

    static class Task implements Runnable, java.io.Serializable {
        private static final long serialVersionUID = 1;
        byte runs = 2;

        public void run() {
            runs++;
        }
    }

    public static byte[] verify(byte[] input) {
        Task task = new Task();
        ((Runnable) task).run();
        CharSequence text = new Letters();
        return new byte[] { task.runs, (byte) text.length(), (byte) text.charAt(0) };
    }
}

// `implements Comparator`: HIERARCHY
class OwnComparator {
    static class Order implements java.util.Comparator<String> {
        public int compare(String one, String other) {
            return one.compareTo(other);
        }
    }

    public static byte[] verify(byte[] input) {
        return new byte[] { (byte) new Order().compare("a", "b") };
    }
}

// `super.clone()`: WHITELIST
class OwnClone implements Cloneable {
    OwnClone copy() throws CloneNotSupportedException {
        return (OwnClone) super.clone();
    }

    public static byte[] verify(byte[] input) {
        return input;
    }
}

// `@Override`, `@Deprecated`, `@FunctionalInterface`: 03
class Annotations {
    @FunctionalInterface
    interface Rule {
        int apply();
    }

    static class Three implements Rule {
        @Override
        @Deprecated
        public int apply() {
            return 3;
        }
    }

    public static byte[] verify(byte[] input) {
        return new byte[] { (byte) new Three().apply() };
    }
}

// an own annotation, `@interface`: HIERARCHY
class OwnAnnotation {
    @interface Checked {
    }

    @Checked
    public static byte[] verify(byte[] input) {
        return input;
    }
}

// a `native` method: NATIVE
class NativeMethod {
    static native int answer();

    public static byte[] verify(byte[] input) {
        return input;
    }
}

// `finalize()`: FINALIZER
class Finalizer {
    protected void finalize() {
    }

    public static byte[] verify(byte[] input) {
        return input;
    }
}

// a list of one's own over an array: 040109
class OwnList {
    static class Numbers {
        private int[] held = new int[1];
        private int count;

        void add(int number) {
            if (count == held.length) {
                int[] more = new int[2 * count];
                System.arraycopy(held, 0, more, 0, count);
                held = more;
            }
            held[count++] = number;
        }

        int get(int at) {
            return held[at];
        }
    }

    public static byte[] verify(byte[] input) {
        Numbers numbers = new Numbers();
        numbers.add(1);
        numbers.add(5);
        numbers.add(9);
        return new byte[] { (byte) numbers.held.length, (byte) numbers.get(0), (byte) numbers.get(2) };
    }
}

// an iterator of one's own: 06
class OwnIterator {
    interface Numbers {
        boolean hasNext();

        int next();
    }

    static Numbers below(final int end) {
        return new Numbers() {
            int at;

            public boolean hasNext() {
                return at < end;
            }

            public int next() {
                return at++;
            }
        };
    }

    public static byte[] verify(byte[] input) {
        int sum = 0;
        for (Numbers numbers = below(4); numbers.hasNext();) {
            sum += numbers.next();
        }
        return new byte[] { (byte) sum };
    }
}
