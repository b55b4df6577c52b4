// The catch block runs after a part of the body, and takes the lock once more.
class CatchAfterHalf {
    @GuardedBy("this") private int value;

    private synchronized void set(int value) {
        this.value = value;
    }

    /* atomic */ void parse(String text) { // refused
        try {
            set(0);
            Integer.parseInt(text);
        } catch (NumberFormatException bad) {
            set(-1);
        }
    }
}

@interface GuardedBy {
    String value();
}
