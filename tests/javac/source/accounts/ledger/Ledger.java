package ledger;

/** Books entries on accounts, with interfaces, inner classes, and exceptions of its own. */
public class Ledger {
    interface Check {
        String refuse(Entry entry, Ledger ledger);

        int order();
    }

    static final class Entry {
        final char kind;
        final int account;
        final int amount;
        final Entry before;

        Entry(byte[] data, int at, Entry before) {
            kind = (char) (data[at] & 255);
            account = data[at + 1];
            this.before = before;
            int amount = 0;
            for (int i = 2; i < 5; i++) {
                amount = amount << 8 | data[at + i] & 255;
            }
            this.amount = amount << 8 >> 8;
        }
    }

    abstract static class Named implements Check, Comparable<Named> {
        private static int made;
        final String name;
        protected final int number;

        Named(String name) {
            number = ++made;
            this.name = name;
        }

        public int order() {
            return number * 10;
        }

        public int compareTo(Named other) {
            int difference = order() - other.order();
            return difference != 0 ? difference : name.compareTo(other.name);
        }

        public String toString() {
            return name + "#" + number;
        }
    }

    static class Positive extends Named {
        Positive() {
            super("positive");
        }

        public String refuse(Entry entry, Ledger ledger) {
            return entry.amount > 0 ? null : toString();
        }
    }

    static class Funds extends Named {
        final long floor;

        Funds(long floor) {
            super("funds");
            this.floor = floor;
        }

        public int order() {
            return 5 - super.order();
        }

        public String refuse(Entry entry, Ledger ledger) {
            long left = ledger.balances[entry.account] - (entry.kind == 'P' ? entry.amount : -entry.amount);
            return left < floor ? new StringBuilder(toString()).append(':').append(left).append(' ').append(left < floor).toString() : null;
        }
    }

    static class Refused extends RuntimeException {
        final Entry entry;

        Refused(String message, Throwable cause, Entry entry) {
            super(message, cause);
            this.entry = entry;
        }

        public String getMessage() {
            return super.getMessage() + (entry == null ? "" : "@" + entry.account);
        }
    }

    final long[] balances = new long[8];
    int booked;
    Entry last;
    final Check[] checks = sort(new Named[] {new Positive(), new Funds(-100), new Positive() {
        public int order() {
            return -1;
        }

        public String refuse(Entry entry, Ledger ledger) {
            return entry.kind == 'D' || entry.kind == 'P' ? null : "kind " + entry.kind;
        }
    }});

    static Check[] sort(Named[] all) {
        for (int i = 1; i < all.length; i++) {
            Named one = all[i];
            int j = i;
            while (j > 0 && all[j - 1].compareTo(one) > 0) {
                all[j] = all[j - 1];
                j--;
            }
            all[j] = one;
        }
        return all;
    }

    void book(Entry entry) {
        try {
            for (Check check : checks) {
                String why = check.refuse(entry, this);
                if (why != null) {
                    throw new Refused(why, null, entry);
                }
            }
            balances[entry.account] += entry.kind == 'P' ? (long) -entry.amount : entry.amount;
            last = entry;
            booked++;
        } catch (ArrayIndexOutOfBoundsException e) {
            throw new Refused("account", e, null);
        } finally {
            booked += 100;
        }
    }

    public static byte[] verify(byte[] data) {
        Ledger ledger = new Ledger();
        Entry before = null;
        int refused = 0;
        for (int at = 0; at < data.length; at += 5) {
            try {
                ledger.book(before = new Entry(data, at, before));
            } catch (Refused e) {
                if (e.getCause() != null || e.getMessage().length() > 30) {
                    throw e;
                }
                if (++refused > 2) {
                    throw new IllegalStateException(e.getMessage(), e);
                }
            }
        }
        byte[] found = new byte[28];
        found[0] = (byte) ledger.booked;
        found[1] = (byte) refused;
        found[2] = (byte) (ledger.booked >> 8);
        for (Entry entry = ledger.last; entry != null; entry = entry.before) {
            found[3]++;
        }
        for (int i = 0; i < 3; i++) {
            for (int j = 0; j < 8; j++) {
                found[4 + 8 * i + j] = (byte) (ledger.balances[i] >>> 56 - 8 * j);
            }
        }
        return found;
    }
}
