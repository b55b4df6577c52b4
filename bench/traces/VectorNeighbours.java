package java.util;

/** What else a vector does, by methods that take its lock around all of it. */
class VectorNeighbours {
    private final CopiedVector<Object> all = new CopiedVector<>();

    void adds() {
        all.add("x");
    }

    void puts() {
        all.insertElementAt("y", 0);
    }

    boolean removes() {
        return all.removeElement("x");
    }

    int measures() {
        return all.size() + all.capacity();
    }

    boolean finds() {
        return all.contains("y");
    }

    Object[] copies() {
        return all.toArray();
    }
}
