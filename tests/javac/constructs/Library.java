// Other classes of Java, as in Types.java.

// `Math.max`, `min`, `abs` of `int` and `long`: 070204
class Maths {
    public static byte[] verify(byte[] input) {
        return new byte[] { (byte) Math.max(input[0], 7), (byte) Math.min(2L, 5L), (byte) Math.abs(-4) };
    }
}

// `Math.addExact`, `toIntExact` and the like: WHITELIST
class Exact {
    public static byte[] verify(byte[] input) {
        return new byte[Math.addExact(input[0], 1) + Math.toIntExact(Math.multiplyExact(2L, 3L))];
    }
}

// `Math.floorMod`: WHITELIST
class FloorMod {
    public static byte[] verify(byte[] input) {
        return new byte[Math.floorMod(-1, 4)];
    }
}

// `Math.pow`: FLOAT, WHITELIST
class Power {
    public static byte[] verify(byte[] input) {
        return new byte[(int) Math.pow(2, 3)];
    }
}

// `Integer.toString(n)`: WHITELIST
class TextOfInt {
    public static byte[] verify(byte[] input) {
        return new byte[Integer.toString(5).length()];
    }
}

// `Integer.parseInt`: WHITELIST
class Parse {
    public static byte[] verify(byte[] input) {
        return new byte[Integer.parseInt("5")];
    }
}

// `Integer.compare`, `Long.compare`: WHITELIST
class Compare {
    public static byte[] verify(byte[] input) {
        return new byte[Integer.compare(2, 1) + Long.compare(2, 1)];
    }
}

// `Byte.toUnsignedInt`: WHITELIST
class Unsigned {
    public static byte[] verify(byte[] input) {
        return new byte[Byte.toUnsignedInt(input[0])];
    }
}

// `Character.isDigit`: WHITELIST
class IsDigit {
    public static byte[] verify(byte[] input) {
        return Character.isDigit('5') ? input : null;
    }
}

// `Objects.requireNonNull`: WHITELIST
class NonNull {
    public static byte[] verify(byte[] input) {
        return java.util.Objects.requireNonNull(input);
    }
}

// `object.hashCode()`, `object.toString()`, `System.identityHashCode`: 01
class Hashes {
    public static byte[] verify(byte[] input) {
        Object object = new Object();
        boolean isSame = System.identityHashCode(null) == 0;
        return object.toString().startsWith("java.lang.Object@") && isSame ? new byte[] { 1 } : new byte[] { (byte) object.hashCode() };
    }
}

// `System.arraycopy`: 010203
class ArrayCopy {
    public static byte[] verify(byte[] input) {
        byte[] copy = new byte[3];
        System.arraycopy(input, 1, copy, 0, 2);
        copy[2] = input[0];
        return copy;
    }
}

// `Arrays.copyOf`: WHITELIST
class CopyOf {
    public static byte[] verify(byte[] input) {
        return java.util.Arrays.copyOf(input, 2);
    }
}

// `Arrays.equals`, `Arrays.fill`, `Arrays.sort`: WHITELIST
class OfArrays {
    public static byte[] verify(byte[] input) {
        java.util.Arrays.fill(input, (byte) 1);
        java.util.Arrays.sort(input);
        return java.util.Arrays.equals(input, new byte[1]) ? input : null;
    }
}

// `ArrayList`, `HashMap` and the like: WHITELIST
class Collections {
    public static byte[] verify(byte[] input) {
        return new byte[new java.util.ArrayList<String>().size() + new java.util.HashMap<String, String>().size()];
    }
}

// `Optional`: WHITELIST
class Maybe {
    public static byte[] verify(byte[] input) {
        return java.util.Optional.of(input).get();
    }
}

// `BigInteger`: WHITELIST
class Big {
    public static byte[] verify(byte[] input) {
        return java.math.BigInteger.valueOf(5).toByteArray();
    }
}

// `ByteBuffer`: WHITELIST
class OfBytes {
    public static byte[] verify(byte[] input) {
        return java.nio.ByteBuffer.allocate(4).putInt(5).array();
    }
}

// `MessageDigest`: WHITELIST
class Digest {
    public static byte[] verify(byte[] input) throws Exception {
        return java.security.MessageDigest.getInstance("SHA-256").digest(input);
    }
}

// `Random`: WHITELIST
class Dice {
    public static byte[] verify(byte[] input) {
        return new byte[new java.util.Random(1).nextInt(6)];
    }
}

// `Thread`: WHITELIST
class OwnThread {
    public static byte[] verify(byte[] input) {
        new Thread().start();
        return input;
    }
}

// `System.out.println`: WHITELIST
class Printing {
    public static byte[] verify(byte[] input) {
        System.out.println("p");
        return input;
    }
}

// `System.currentTimeMillis`, `nanoTime`: WHITELIST
class Clock {
    public static byte[] verify(byte[] input) {
        return new byte[] { (byte) (System.currentTimeMillis() - System.nanoTime()) };
    }
}
