// `"" + a` calls a.toString(), which takes a lock.
class ImplicitToString {
    @GuardedBy("this") private int value;

    @Override
    public synchronized String toString() {
        return "cell " + value;
    }

    /* atomic */ String twice() { // refused
        return this + " and " + this;
    }
}

@interface GuardedBy {
    String value();
}
