/** Computes terms as `2*(3+4)`, with recursion, texts and exceptions. */
public class Parse {
    private final String s;
    private int at;
    private static long evaluations = Parse.DIGITS.length();
    static final String DIGITS = "0123456789";

    Parse(String s) {
        this.s = s;
    }

    private char peek() {
        return at < s.length() ? s.charAt(at) : '$';
    }

    private long sum() {
        long value = product();
        for (;;) {
            switch (peek()) {
                case '+':
                    at++;
                    value += product();
                    break;
                case '-':
                    at++;
                    value -= product();
                    break;
                default:
                    return value;
            }
        }
    }

    private long product() {
        long value = atom();
        for (;;) {
            char op = peek();
            if (op == '*') {
                at++;
                value *= atom();
            } else if (op == '/') {
                at++;
                value /= atom();
            } else if (op == '%') {
                at++;
                value %= atom();
            } else if (op == '<') {
                at++;
                value <<= atom();
            } else if (op == '>') {
                at++;
                value >>>= atom();
            } else {
                return value;
            }
        }
    }

    private long atom() {
        evaluations++;
        char c = peek();
        at++;
        if (c == '(') {
            long value = sum();
            if (peek() != ')') {
                throw new IllegalArgumentException("open " + at);
            }
            at++;
            return value;
        }
        if (c == '-') {
            return -atom();
        }
        if (c == '!') {
            return Math.abs(atom());
        }
        if (c < '0' || c > '9') {
            throw new IllegalStateException("at " + (at - 1) + " " + c + " of " + s.substring(at - 1).concat("."), new ArithmeticException());
        }
        long value = c - '0';
        while (peek() >= '0' && peek() <= '9') {
            value = value * 10 + s.charAt(at++) - '0';
        }
        return value;
    }

    static byte[] bytes(String text) {
        char[] units = text.toCharArray();
        byte[] found = new byte[units.length];
        for (int i = 0; i < units.length; i++) {
            found[i] = (byte) units[i];
        }
        return found;
    }

    public static byte[] verify(byte[] data) {
        char[] units = new char[data.length];
        for (int i = 0; i < units.length; i++) {
            units[i] = (char) (data[i] & 255);
        }
        Parse parse = new Parse(String.valueOf(units));
        try {
            long value = parse.sum();
            if (parse.peek() != '$') {
                return bytes("rest " + parse.s.substring(parse.at));
            }
            return bytes(value + ";" + evaluations
                + (String.valueOf(value).equals(parse.s) ? "=" : parse.s.startsWith("(") ? "(" : "") + String.valueOf(value > 0).hashCode());
        } catch (IllegalStateException e) {
            if (e.getCause() instanceof RuntimeException && parse.at > 3) {
                throw e;
            }
            return bytes(e.getMessage());
        }
    }
}
