// Both calls take the other object's lock and give it back: its length may be another when its characters are copied.
class OtherArgument {
    @GuardedBy("this") private int length;
    @GuardedBy("this") private final char[] text = new char[16];

    synchronized int length() {
        return length;
    }

    synchronized void copyTo(int count, char[] target, int at) {
        for (int index = 0; index < count; index++) target[at + index] = text[index];
    }

    /* atomic */ synchronized void append(OtherArgument other) { // refused
        int count = other.length();
        other.copyTo(count, text, length);
        length += count;
    }
}

@interface GuardedBy {
    String value();
}
