// Native methods, finalizers, and an enum with a body.
package a.b;

public abstract class Door implements Cloneable {
    native void open();
    static synchronized native int[] keys(long at, String... names);
    abstract void finalize(int i);
    protected void finalize() throws Throwable { super.finalize(); }
    interface Lock { int turn(); }
    enum State { OPEN, SHUT { int n() { return 1; } }; int n() { return 0; } }
}
