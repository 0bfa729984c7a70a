// Constants of every kind, as values of fields, of ldc and of a switch.
public class Rates {
    static final int I = 123456; static final long L = 1L << 40; static final float F = 1.5f; static final double D = 1e300; static final String S = "réate \0 😀";
    static final boolean Z = true; static final char C = '€'; static final byte B = -1; static final short H = 300;
    final int own = 77777;
    double rate(float f, long l) { return f * 2.25 + l % 1000003 + (l > L ? D : F) - I; }
    Class<?>[] types() { return new Class<?>[] { Rates.class, int[].class, String.class }; }
    String name(int k) { switch (k) { case 1: return S; case 1000: return "thousand"; case -70000: return "less"; default: return S + C + k; } }
}
