/** Shortest ways in a graph, with arrays of each kind, casts, and stores that an array refuses. */
public class Graph {
    static class Node {
        int id;
        Node[] to = new Node[0];
        short[] cost = new short[0];
        Object tag;

        void link(Node other, int price) {
            Node[] more = new Node[to.length + 1];
            System.arraycopy(to, 0, more, 0, to.length);
            more[to.length] = other;
            to = more;
            short[] costs = new short[cost.length + 1];
            System.arraycopy(cost, 0, costs, 0, cost.length);
            costs[cost.length] = (short) price;
            cost = costs;
        }
    }

    static final int[][] MASK;
    static boolean[] seen = new boolean[4];

    static {
        MASK = new int[4][];
        for (int i = 0; i < 4; i++) {
            MASK[i] = new int[i + 1];
            for (int j = 0; j <= i; j++) {
                MASK[i][j] = i ^ j;
            }
        }
    }

    public static byte[] verify(byte[] data) {
        Node[] nodes = new Node[8];
        for (int i = 0; i < nodes.length; i++) {
            nodes[i] = new Node();
            nodes[i].id = i;
            nodes[i].tag = (i & 1) == 0 ? "even" : new byte[] {(byte) i};
        }
        for (byte b : data) {
            nodes[b & 7].link(nodes[b >> 3 & 7], (b & 255) >>> 6);
        }
        long[] far = new long[8];
        for (int i = 1; i < 8; i++) {
            far[i] = Long.MAX_VALUE;
        }
        boolean changed = true;
        int rounds = 0;
        search:
        while (changed) {
            changed = false;
            for (Node node : nodes) {
                if (far[node.id] == Long.MAX_VALUE) {
                    continue;
                }
                for (int k = 0; k < node.to.length; k++) {
                    long sum = far[node.id] + node.cost[k];
                    if (sum < far[node.to[k].id]) {
                        far[node.to[k].id] = sum;
                        changed = true;
                        if (++rounds > 40) {
                            break search;
                        }
                    }
                }
            }
        }
        byte[] found = new byte[12];
        for (int i = 0; i < 8; i++) {
            found[i] = (byte) (far[i] > 100 ? -1 : far[i]);
        }
        found[8] = (byte) rounds;
        found[9] = (byte) MASK[3][1];
        for (Node node : nodes) {
            if (node.tag instanceof byte[]) {
                found[10] += ((byte[]) node.tag)[0];
            } else if (((String) node.tag).charAt(0) == 'e') {
                found[11]++;
            }
        }
        seen[data.length & 7] ^= true;
        if (data.length == 3) {
            Object[] texts = new String[1];
            texts[0] = nodes[0];
        }
        if (data.length == 2) {
            Object object = nodes;
            return (byte[]) object;
        }
        return seen[1] ? null : found;
    }
}
