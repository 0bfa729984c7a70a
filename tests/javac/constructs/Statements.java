// Statements, as in Types.java.

// `if`, `while`, `do`, `for`: 06
class Loops {
    public static byte[] verify(byte[] input) {
        int sum = 0;
        for (int i = 0; i < 3; i++) {
            sum += i;
        }
        do {
            sum++;
        } while (sum < 5);
        while (sum < 6) {
            if (sum > 0) {
                sum++;
            }
        }
        return new byte[] { (byte) sum };
    }
}

// `for` over an array: 06
class ForArray {
    public static byte[] verify(byte[] input) {
        byte sum = 0;
        for (byte number : input) {
            sum += number;
        }
        return new byte[] { sum };
    }
}

// `for` over an own `Iterable`: HIERARCHY
class ForIterable {
    static class Numbers implements Iterable<String> {
        public java.util.Iterator<String> iterator() {
            return null;
        }
    }

    public static byte[] verify(byte[] input) {
        for (String text : new Numbers()) {
            return new byte[text.length()];
        }
        return input;
    }
}

// `for` over a `List`: WHITELIST
class ForList {
    static int sum(java.util.List<String> texts) {
        int sum = 0;
        for (String text : texts) {
            sum += text.length();
        }
        return sum;
    }

    public static byte[] verify(byte[] input) {
        return input;
    }
}

// `break` and `continue`, with a label too: 02
class Labels {
    public static byte[] verify(byte[] input) {
        byte count = 0;
        rows: for (int i = 0; i < 9; i++) {
            for (int j = 0; j < 9; j++) {
                if (j == 1) {
                    continue rows;
                }
                if (i == 2) {
                    break rows;
                }
                count++;
            }
        }
        return new byte[] { count };
    }
}

// `switch` over an `int` or a `char`: 0b16
class IntSwitch {
    static byte far(int number) {
        switch (number) {
            case -1000000:
                return 1;
            case 3:
                return 11;
            default:
                return 2;
        }
    }

    public static byte[] verify(byte[] input) {
        byte near = 0;
        switch ("b".charAt(0)) {
            case 'a':
                near = 1;
                break;
            case 'b':
                near = 20;
            case 'c':
                near += 2;
        }
        return new byte[] { far(input[0]), near };
    }
}

// `switch` over a text: 02
class TextSwitch {
    public static byte[] verify(byte[] input) {
        switch ("Aa" + input[0]) {
            case "BB3":
                return new byte[] { 1 };
            case "Aa3":
                return new byte[] { 2 };
            default:
                return null;
        }
    }
}

// `switch` over an `enum`: HIERARCHY, REFLECTION
class EnumSwitch {
    enum Side { LEFT, RIGHT }

    static byte number(Side side) {
        switch (side) {
            case LEFT:
                return 1;
            default:
                return 2;
        }
    }

    public static byte[] verify(byte[] input) {
        return new byte[] { number(Side.LEFT) };
    }
}

// `assert`: REFLECTION, WHITELIST
class Assertion {
    public static byte[] verify(byte[] input) {
        assert input.length > 0;
        return input;
    }
}

// `try` with `finally`: 0605
class Finally {
    static byte count;

    static byte five() {
        try {
            return 5;
        } finally {
            count = 6;
        }
    }

    public static byte[] verify(byte[] input) {
        byte five = five();
        return new byte[] { count, five };
    }
}

// `catch` of two classes: 01
class CatchTwo {
    public static byte[] verify(byte[] input) {
        try {
            return new byte[] { input[9] };
        } catch (NullPointerException | IndexOutOfBoundsException e) {
            return new byte[] { 1 };
        }
    }
}

// `catch` of `Exception` or `Throwable`: 0102
class CatchAll {
    public static byte[] verify(byte[] input) {
        byte[] found = new byte[2];
        try {
            found[5] = 9;
        } catch (Exception e) {
            found[0] = 1;
        }
        try {
            throw new Error("e");
        } catch (Throwable e) {
            found[1] = 2;
        }
        return found;
    }
}

// `catch` of `StackOverflowError` or `OutOfMemoryError`: CATCH
class CatchOverflow {
    static int depth(int number) {
        return depth(number + 1);
    }

    public static byte[] verify(byte[] input) {
        try {
            return new byte[depth(0)];
        } catch (StackOverflowError e) {
            return input;
        } catch (OutOfMemoryError e) {
            return null;
        }
    }
}

// `try` with a resource: HIERARCHY
class WithResource {
    static class Door implements AutoCloseable {
        public void close() {
        }
    }

    public static byte[] verify(byte[] input) {
        try (Door door = new Door()) {
            return input;
        }
    }
}

// `synchronized` as a statement: 03
class SynchronizedBlock {
    public static byte[] verify(byte[] input) {
        synchronized (input) {
            return new byte[] { input[0] };
        }
    }
}
