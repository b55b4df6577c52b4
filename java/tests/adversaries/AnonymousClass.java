// The class without a name overrides the method too.
class AnonymousClass {
    @GuardedBy("this") private int value;

    void set(int value) {
        synchronized (this) {
            this.value = value;
        }
    }

    static AnonymousClass twice() {
        return new AnonymousClass() {
            @Override
            void set(int value) {
                super.set(value);
                super.set(value + 1);
            }
        };
    }

    /* atomic */ void reset() { // refused
        set(0);
    }
}

@interface GuardedBy {
    String value();
}
