// Texts, as in Types.java. Each set has the class Texts as well, with what one writes in place of getBytes.

class Texts {
    static byte[] bytes(String ascii) {
        byte[] bytes = new byte[ascii.length()];
        for (int i = 0; i < bytes.length; i++) {
            bytes[i] = (byte) ascii.charAt(i);
        }
        return bytes;
    }
}

// `length`, `isEmpty`, `charAt`, `substring`, `startsWith`, `concat`, `toCharArray`: 03016362636404
class TextParts {
    public static byte[] verify(byte[] input) {
        String text = "abc";
        String all = text.substring(1).concat("d").substring(0, 3);
        int count = text.startsWith("ab") && "".isEmpty() ? 1 : 0;
        char[] units = (all + '\u0004').toCharArray();
        return new byte[] { (byte) text.length(), (byte) count, (byte) text.charAt(2), (byte) units[0], (byte) units[1], (byte) units[2], (byte) units[3] };
    }
}

// `equals`, `compareTo`, `hashCode` of a text: 01ff62
class TextComparisons {
    public static byte[] verify(byte[] input) {
        return new byte[] { (byte) ("ab".substring(1).equals("b") ? 1 : 0), (byte) "a".compareTo("b"), (byte) "b".hashCode() };
    }
}

// `==` of two constant texts: 01
class SameText {
    public static byte[] verify(byte[] input) {
        String one = "ab";
        return new byte[] { (byte) (one == "a" + "b" ? 1 : 0) };
    }
}

// `String.valueOf` of an `int`, a `long`, a `char`, a `boolean`, a `char[]`: 332d347874727565616263
class ValueOf {
    public static byte[] verify(byte[] input) {
        char[] units = { 'a', 'b', 'c' };
        String text = String.valueOf(3) + String.valueOf(-4L) + String.valueOf('x') + String.valueOf(true);
        return Texts.bytes(text + String.valueOf(units));
    }
}

// `String.valueOf(object)`: WHITELIST
class ValueOfObject {
    public static byte[] verify(byte[] input) {
        Object object = "t";
        return new byte[String.valueOf(object).length()];
    }
}

// `new String(chars)`: WHITELIST
class TextOfChars {
    public static byte[] verify(byte[] input) {
        return new byte[new String(new char[2]).length()];
    }
}

// `new String(bytes)`, `new String(bytes, UTF_8)`: WHITELIST
class TextOfBytes {
    public static byte[] verify(byte[] input) {
        String text = new String(input, java.nio.charset.StandardCharsets.UTF_8);
        return new byte[text.length() + new String(input).length()];
    }
}

// `getBytes()`, `getBytes(UTF_8)`: WHITELIST
class BytesOfText {
    public static byte[] verify(byte[] input) {
        return input.length > 3 ? "t".getBytes() : "t".getBytes(java.nio.charset.StandardCharsets.UTF_8);
    }
}

// `indexOf(char)`: WHITELIST
class IndexOfChar {
    public static byte[] verify(byte[] input) {
        return new byte["abc".indexOf('b')];
    }
}

// `indexOf(text)`: WHITELIST
class IndexOfText {
    public static byte[] verify(byte[] input) {
        return new byte["abc".indexOf("b")];
    }
}

// `contains`: WHITELIST
class ContainsText {
    public static byte[] verify(byte[] input) {
        return "abc".contains("b") ? input : null;
    }
}

// `endsWith`: WHITELIST
class EndsWith {
    public static byte[] verify(byte[] input) {
        return "abc".endsWith("c") ? input : null;
    }
}

// `equalsIgnoreCase`: WHITELIST
class IgnoreCase {
    public static byte[] verify(byte[] input) {
        return "abc".equalsIgnoreCase("ABC") ? input : null;
    }
}

// `trim`: WHITELIST
class Trim {
    public static byte[] verify(byte[] input) {
        return new byte[" a ".trim().length()];
    }
}

// `toLowerCase`, `toUpperCase`: WHITELIST
class Case {
    public static byte[] verify(byte[] input) {
        return new byte["A".toLowerCase().length() + "a".toUpperCase().length()];
    }
}

// `replace`: WHITELIST
class Replace {
    public static byte[] verify(byte[] input) {
        return new byte["abc".replace('a', 'b').length()];
    }
}

// `split`: WHITELIST
class Split {
    public static byte[] verify(byte[] input) {
        return new byte["a,b".split(",").length];
    }
}

// `String.format`: WHITELIST
class Format {
    public static byte[] verify(byte[] input) {
        return new byte[String.format("%s", "a").length()];
    }
}

// `String.join`: WHITELIST
class Join {
    public static byte[] verify(byte[] input) {
        return new byte[String.join(",", "a", "b").length()];
    }
}

// `intern`: WHITELIST
class Intern {
    public static byte[] verify(byte[] input) {
        return new byte["a".intern().length()];
    }
}

// `chars()`: WHITELIST
class Chars {
    public static byte[] verify(byte[] input) {
        return new byte[(int) "abc".chars().count()];
    }
}

// `new StringBuilder()`, `append` of a text, an `int`, a `long`, a `char`, a `boolean`: 616232632d3474727565
class Builder {
    public static byte[] verify(byte[] input) {
        StringBuilder builder = new StringBuilder("ab");
        builder.append(2).append('c').append(-4L).append(true);
        StringBuilder other = new StringBuilder().append(builder.toString());
        return other.charAt(other.length() - 1) == 'e' ? Texts.bytes(other.toString()) : null;
    }
}

// `new StringBuilder(n)`: WHITELIST
class BuilderOfSize {
    public static byte[] verify(byte[] input) {
        return new byte[new StringBuilder(16).length()];
    }
}

// `append(object)`: WHITELIST
class AppendObject {
    public static byte[] verify(byte[] input) {
        Object object = "t";
        return new byte[new StringBuilder().append(object).length()];
    }
}

// `append(chars)`: WHITELIST
class AppendChars {
    public static byte[] verify(byte[] input) {
        return new byte[new StringBuilder().append(new char[2]).length()];
    }
}

// `reverse`: WHITELIST
class Reverse {
    public static byte[] verify(byte[] input) {
        return new byte[new StringBuilder("ab").reverse().length()];
    }
}

// `setLength`: WHITELIST
class SetLength {
    public static byte[] verify(byte[] input) {
        new StringBuilder("ab").setLength(1);
        return input;
    }
}

// `deleteCharAt`, `insert`: WHITELIST
class Insert {
    public static byte[] verify(byte[] input) {
        return new byte[new StringBuilder("ab").deleteCharAt(0).insert(0, "c").length()];
    }
}

// `StringBuffer`: WHITELIST
class Buffer {
    public static byte[] verify(byte[] input) {
        return new byte[new StringBuffer().append("a").length()];
    }
}
