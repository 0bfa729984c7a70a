/** Arrays of arrays, a copy of an array, an interface with code, a native method and a finalizer. */
class Grid {
    interface Area {
        default int area() {
            return side() * side();
        }

        int side();

        static Area one() {
            return null;
        }
    }

    static int[][] make() {
        return new int[3][4];
    }

    static int[][] rows() {
        return new int[3][];
    }

    static Object copy(int[] row) {
        return row.clone();
    }

    native void draw();

    protected void finalize() {
    }
}
