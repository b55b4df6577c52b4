// The finally block is a second region.
class FinallyTakesAgain {
    @GuardedBy("this") private int value;
    @GuardedBy("this") private int calls;

    /* atomic */ int get() { // refused
        try {
            synchronized (this) {
                return value;
            }
        } finally {
            synchronized (this) {
                calls++;
            }
        }
    }
}

@interface GuardedBy {
    String value();
}
