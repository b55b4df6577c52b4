package java.util;

/** What a table does by methods that take its lock around all of it. */
class HashtableNeighbours {
    private final CopiedHashtable<String, String> table = new CopiedHashtable<>();

    void puts() {
        table.put("a", "x");
    }

    void putsOther() {
        table.put("b", "y");
    }

    String gets() {
        return table.get("a");
    }

    String removes() {
        return table.remove("b");
    }

    boolean looks() {
        return table.containsKey("a");
    }

    int measures() {
        return table.size();
    }
}
