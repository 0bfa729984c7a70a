public interface Hello {
    String hello(String name);
}
