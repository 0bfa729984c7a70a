import java.util.ArrayList;
import java.util.List;

/** Classes and members of Java that are in the library, and others that aren't. */
class Log {
    static void out(String text) {
        System.out.println(text);
    }

    static Integer box(int number) {
        return number;
    }

    static int count(List<String> list) {
        try {
            return list.size();
        } catch (UnsupportedOperationException e) {
            return 0;
        } catch (StackOverflowError e) {
            return 1;
        } catch (LinkageError e) {
            return 2;
        }
    }

    static List<String> fresh() {
        return new ArrayList<>();
    }

    static String text(Object object) {
        return "o" + object;
    }

    static String number(int number) {
        return "n" + number;
    }

    static long now() {
        return System.currentTimeMillis();
    }
}
