// Types and values. tests/constructs compiles these, and reads the comment before each class: TITLE: RULES, or the bytes that an accepted one returns for 03 01 02.

// `int`, `short`, `byte`, `char`, `boolean`: 7f8001ff
class SmallTypes {
    static short shorts = (short) 0x18001;
    static char units = (char) -1;
    static boolean isSet = true;

    public static byte[] verify(byte[] input) {
        byte low = (byte) 0x17f;
        return new byte[] { low, (byte) (shorts >>> 8), (byte) (isSet ? shorts : 0), (byte) units };
    }
}

// `long`: 0000005555555556
class Longs {
    public static byte[] verify(byte[] input) {
        long number = (1L << 40) / input[0] + input[1];
        byte[] bytes = new byte[8];
        for (int at = bytes.length - 1; at >= 0; at--) {
            bytes[at] = (byte) number;
            number >>>= 8;
        }
        return number < 1 ? bytes : null;
    }
}

// `Integer.MAX_VALUE` and the like: 7fff80
class Constants {
    public static byte[] verify(byte[] input) {
        return new byte[] { (byte) (Integer.MAX_VALUE >> 24), (byte) Short.MAX_VALUE, Byte.MIN_VALUE };
    }
}

// a `double` or a `float` in an expression: FLOAT
class DoubleMath {
    public static byte[] verify(byte[] input) {
        double number = input.length * 2.5;
        return new byte[] { (byte) number };
    }
}

// a literal like `1.5f`: FLOAT
class FloatLiteral {
    static float share = 1.5f;

    public static byte[] verify(byte[] input) {
        return input;
    }
}

// a `double` in a method that nothing calls: FLOAT
class UnusedDouble {
    static double half(double number) {
        return number / 2;
    }

    public static byte[] verify(byte[] input) {
        return input;
    }
}

// an array `new int[n]`: 0309
class OneArray {
    public static byte[] verify(byte[] input) {
        int[] ints = new int[input.length];
        ints[2] = 9;
        return new byte[] { (byte) ints.length, (byte) ints[2] };
    }
}

// an array with its values, `{{1}, {2, 3}}`: 0203
class ArrayOfValues {
    public static byte[] verify(byte[] input) {
        int[][] rows = { { 1 }, { 2, 3 } };
        return new byte[] { (byte) rows.length, (byte) rows[1][1] };
    }
}

// an array of arrays, `new int[n][]`: 0304
class Jagged {
    public static byte[] verify(byte[] input) {
        int[][] rows = new int[input.length][];
        for (int i = 0; i < rows.length; i++) {
            rows[i] = new int[4];
        }
        return new byte[] { (byte) rows.length, (byte) rows[2].length };
    }
}

// `new int[n][n]`: MULTI_ARRAY
class TwoDimensions {
    public static byte[] verify(byte[] input) {
        int[][] rows = new int[input.length][input.length];
        return new byte[] { (byte) rows.length };
    }
}

// `array.clone()`: WHITELIST
class ArrayClone {
    public static byte[] verify(byte[] input) {
        return input.clone();
    }
}

// an `Integer` made of an `int`: WHITELIST
class BoxedInt {
    public static byte[] verify(byte[] input) {
        Integer count = input.length;
        return new byte[] { count.byteValue() };
    }
}

// a `Long` made of a `long`: WHITELIST
class BoxedLong {
    public static byte[] verify(byte[] input) {
        Long count = (long) input.length;
        return new byte[] { count.byteValue() };
    }
}

// a `Boolean` made of a `boolean`: WHITELIST
class BoxedBoolean {
    public static byte[] verify(byte[] input) {
        Boolean isLong = input.length > 2;
        return new byte[isLong ? 1 : 0];
    }
}

// `enum`: HIERARCHY, REFLECTION
class AnEnum {
    enum Colour { RED, GREEN }

    public static byte[] verify(byte[] input) {
        return new byte[] { (byte) Colour.GREEN.ordinal() };
    }
}

// an own generic class: 0302
class Generic {
    static class Box<T> {
        final T held;

        Box(T held) {
            this.held = held;
        }
    }

    static <T extends CharSequence> int length(Box<? extends T> box) {
        return box.held.length();
    }

    public static byte[] verify(byte[] input) {
        return new byte[] { (byte) new Box<byte[]>(input).held.length, (byte) length(new Box<String>("ab")) };
    }
}
