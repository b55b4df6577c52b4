package java.lang;

/** A buffer is joined to another one, while others change it. */
class StringBufferJoins {
    private final CopiedStringBuffer all = new CopiedStringBuffer();
    private final CopiedStringBuffer part = new CopiedStringBuffer("part");

    void joins() {
        all.append(part);
    }

    void grows() {
        part.append('x');
    }

    void shrinks() {
        part.setLength(1);
    }
}
