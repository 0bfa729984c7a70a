/** Strings that are built, compared and taken apart. */
public final class Texts {
    private Texts() {
    }

    /** The first two bytes of the input say how many rounds there are. */
    public static byte[] verify(byte[] input) {
        int rounds = (input[0] & 255) << 8 | input[1] & 255;
        String last = "";
        int sum = 0;
        for (int at = 0; at < rounds; at++) {
            String next = new StringBuilder("no ").append(at).append(' ').append(at % 2 == 0).append(": ").append(at * 1000L).toString();
            sum += next.compareTo(last) + next.hashCode() + next.substring(3, next.length() - 2).length();
            for (int place = 0; place < next.length(); place++) {
                sum = sum * 31 + next.charAt(place);
            }
            last = next;
        }
        return new byte[] {(byte) sum, (byte) last.length()};
    }
}
