package shop;

public interface Account {
    long balance();

    void close();
}
