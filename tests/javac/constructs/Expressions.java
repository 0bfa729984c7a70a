// Expressions, as in Types.java.

// `+ - * / % << >> >>> & ^ ~`: fe01fd7f
class Operators {
    public static byte[] verify(byte[] input) {
        int three = input[0];
        return new byte[] { (byte) ~(three - input[2]), (byte) (7 / three * 5 % 4 ^ 3), (byte) -three, (byte) (-1 >>> 24 >> 1 & (three << 30 | 0xff)) };
    }
}

// `+=`, `++` and the like: 0504
class Compound {
    public static byte[] verify(byte[] input) {
        input[0] += 2;
        int number = input[1]++;
        number <<= 2;
        return new byte[] { input[0], (byte) number };
    }
}

// `? :`, `&&`, `!`: 07
class Conditions {
    public static byte[] verify(byte[] input) {
        return new byte[] { (byte) (input.length == 3 && !(input[0] == 0 || input[1] == 2) ? 7 : 8) };
    }
}

// arithmetic with `char`: 6300
class CharArithmetic {
    public static byte[] verify(byte[] input) {
        char letter = 'a';
        letter += 2;
        return new byte[] { (byte) letter, (byte) ('0' - "0".charAt(0)) };
    }
}

// a division by zero: 0102
class Division {
    public static byte[] verify(byte[] input) {
        byte[] found = new byte[2];
        try {
            found[0] = (byte) (1L / (input[1] - 1L));
        } catch (ArithmeticException e) {
            found[0] = 1;
        }
        try {
            found[1] = (byte) (1 % (input[1] - 1));
        } catch (ArithmeticException e) {
            found[1] = 2;
        }
        return found;
    }
}

// `instanceof`: 0100
class InstanceOf {
    public static byte[] verify(byte[] input) {
        Object text = "t";
        return new byte[] { (byte) (text instanceof String ? 1 : 0), (byte) (text instanceof Runnable ? 1 : 0) };
    }
}

// a cast: 03
class Cast {
    public static byte[] verify(byte[] input) {
        Object object = input;
        return new byte[] { (byte) ((byte[]) object).length };
    }
}

// a cast that fails: 01
class WrongCast {
    public static byte[] verify(byte[] input) {
        Object object = input;
        try {
            return new byte[] { (byte) ((String) object).length() };
        } catch (ClassCastException e) {
            return new byte[] { 1 };
        }
    }
}

// a text joined by `+` with texts, numbers, a `char` and a `boolean`: 612d376231747275652d39
class Joined {
    public static byte[] verify(byte[] input) {
        byte small = -7;
        short nine = -9;
        return Texts.bytes("a" + small + 'b' + input[1] + true + nine);
    }
}

// a text joined by `+` with a text that is null: 616e756c6c
class JoinedNull {
    public static byte[] verify(byte[] input) {
        String none = null;
        return Texts.bytes("a" + none);
    }
}

// `"" + object`: WHITELIST
class JoinedObject {
    static class Party {
        public String toString() {
            return "p";
        }
    }

    public static byte[] verify(byte[] input) {
        return new byte[("" + new Party()).length()];
    }
}

// `"" + object.toString()`: 70
class JoinedText {
    static class Party {
        public String toString() {
            return "p";
        }
    }

    public static byte[] verify(byte[] input) {
        return Texts.bytes("" + new Party().toString());
    }
}

// a lambda: DYNAMIC
class Lambda {
    public static byte[] verify(byte[] input) {
        Runnable none = () -> { };
        none.run();
        return input;
    }
}

// a method reference: DYNAMIC
class MethodReference {
    static void nothing() {
    }

    public static byte[] verify(byte[] input) {
        Runnable none = MethodReference::nothing;
        none.run();
        return input;
    }
}

// `Name.class`: REFLECTION
class ClassLiteral {
    public static byte[] verify(byte[] input) {
        Object type = ClassLiteral.class;
        return type == null ? null : input;
    }
}

// `object.getClass()`: REFLECTION
class GetClass {
    public static byte[] verify(byte[] input) {
        return input.getClass() == null ? null : input;
    }
}
