// Lambdas, with and without what they capture, and a reference to a method.
package ledger.fees;

import java.util.function.IntBinaryOperator;
import java.util.function.Supplier;

public final class Fees {
    private final int base;
    Fees(int base) { this.base = base; }
    int fee(int amount) {
        IntBinaryOperator cheaper = Math::min;
        IntBinaryOperator share = (a, b) -> a * base / (b + 1);
        Supplier<Fees> next = () -> new Fees(base + 1);
        return cheaper.applyAsInt(share.applyAsInt(amount, base), next.get().base);
    }
    static Runnable twice(Runnable r) { return () -> { r.run(); r.run(); }; }
}
