package java.lang;

/** What else a buffer does, by methods that take its lock around all of it. */
class StringBufferNeighbours {
    private final CopiedStringBuffer text = new CopiedStringBuffer("text");

    void appends() {
        text.append('x');
    }

    void appendsNumber() {
        text.append(17);
    }

    void inserts() {
        text.insert(0, 'y');
    }

    void cuts() {
        text.setLength(2);
    }

    int measures() {
        return text.length() + text.capacity();
    }

    int finds() {
        return text.indexOf("x");
    }

    String tells() {
        return text.toString();
    }
}
