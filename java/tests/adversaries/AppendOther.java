// The other buffer's text is read under its own lock, and then this one grows under another.
class AppendOther {
    private final StringBuffer all = new StringBuffer();

    /* atomic */ void add(StringBuffer more) { // refused
        all.append(more);
    }
}
