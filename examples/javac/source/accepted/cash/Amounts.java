package cash;

/** The amounts of a transaction: four bytes each, the high byte first. */
final class Amounts {
    private final byte[] bytes;

    Amounts(byte[] bytes) {
        if (bytes.length % 4 != 0) {
            throw new IllegalArgumentException("cut after " + bytes.length + " bytes");
        }
        this.bytes = bytes;
    }

    int count() {
        return bytes.length / 4;
    }

    int at(int index) {
        int amount = 0;
        for (int i = 4 * index; i < 4 * index + 4; i++) {
            amount = amount << 8 | bytes[i] & 0xff;
        }
        return amount;
    }
}
