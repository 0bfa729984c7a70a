// Exceptions, as in Types.java.

// an own exception: 6e6f
class OwnException {
    static class Refused extends Exception {
        Refused(String why) {
            super(why);
        }
    }

    static void refuse() throws Refused {
        throw new Refused("no");
    }

    public static byte[] verify(byte[] input) {
        try {
            refuse();
            return input;
        } catch (Refused e) {
            return Texts.bytes(e.getMessage());
        }
    }
}

// `new IllegalArgumentException(text)` and the like: 7761
class LibraryExceptions {
    public static byte[] verify(byte[] input) {
        String found = "";
        try {
            throw new IllegalArgumentException("w");
        } catch (RuntimeException e) {
            found += e.getMessage();
        }
        try {
            throw new UnsupportedOperationException("a");
        } catch (UnsupportedOperationException e) {
            found += e.getMessage();
        }
        return Texts.bytes(found);
    }
}

// an exception with a cause: 63
class Cause {
    public static byte[] verify(byte[] input) {
        try {
            throw new IllegalStateException("e", new RuntimeException("c"));
        } catch (IllegalStateException e) {
            return Texts.bytes(e.getCause().getMessage());
        }
    }
}

// an exception that leaves `verify`: EXCEPTION java/lang/RuntimeException 1 006e
class Leaves {
    public static byte[] verify(byte[] input) {
        throw new RuntimeException("n");
    }
}

// a message that `getMessage` alone has: EXCEPTION OwnMessage$Refused null
class OwnMessage {
    static class Refused extends RuntimeException {
        @Override
        public String getMessage() {
            return "why";
        }
    }

    public static byte[] verify(byte[] input) {
        throw new Refused();
    }
}

// the message of an exception that an instruction raises: EXCEPTION java/lang/ArithmeticException null
class Raised {
    public static byte[] verify(byte[] input) {
        return new byte[1 / (input[1] - 1)];
    }
}

// `"" + exception`: WHITELIST
class JoinedException {
    public static byte[] verify(byte[] input) {
        return new byte[("" + new RuntimeException("e")).length()];
    }
}

// `exception.toString()`: 01, in Java 00
class TextOfException {
    public static byte[] verify(byte[] input) {
        String text = new RuntimeException("e").toString();
        return new byte[] { (byte) (text.startsWith("java.lang.RuntimeException@") ? 1 : 0) };
    }
}

// `exception.printStackTrace()`: WHITELIST
class StackTrace {
    public static byte[] verify(byte[] input) {
        new RuntimeException("e").printStackTrace();
        return input;
    }
}

// `exception.addSuppressed(..)`: WHITELIST
class Suppressed {
    public static byte[] verify(byte[] input) {
        new RuntimeException("e").addSuppressed(new RuntimeException("f"));
        return input;
    }
}

// `new RuntimeException(cause)`: WHITELIST
class CauseAlone {
    public static byte[] verify(byte[] input) {
        throw new RuntimeException(new RuntimeException("c"));
    }
}

// `NumberFormatException`: WHITELIST
class NoNumber {
    public static byte[] verify(byte[] input) {
        throw new NumberFormatException("n");
    }
}

// `java.io.IOException`: WHITELIST
class InputOutput {
    public static byte[] verify(byte[] input) throws java.io.IOException {
        throw new java.io.IOException("i");
    }
}

// `AssertionError`: WHITELIST
class Failed {
    public static byte[] verify(byte[] input) {
        throw new AssertionError("a");
    }
}
