public interface Closer {
    void finalize();
}
