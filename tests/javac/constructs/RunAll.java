// Runs the method verify of each class that is named on 03 01 02, and writes the class's name and what is returned. tests/constructs compares it with what djvm says.
class RunAll {
    public static void main(String[] names) throws Exception {
        for (String name : names) {
            StringBuilder line = new StringBuilder(name).append(' ');
            for (byte number : (byte[]) Class.forName(name).getMethod("verify", byte[].class).invoke(null, (Object) new byte[] { 3, 1, 2 })) {
                line.append(String.format("%02x", number));
            }
            System.out.println(line);
        }
    }
}
