package java.util;

/** The parts of a vector are added to another one, while others change both. */
class VectorJoins {
    private final CopiedVector<Object> all = new CopiedVector<>();
    private final CopiedVector<Object> part = new CopiedVector<>();

    void joins() {
        all.addAll(part);
    }

    void grows() {
        part.add("x");
    }

    void adds() {
        all.add("y");
    }
}
