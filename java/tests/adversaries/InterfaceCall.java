// Nobody knows what the listener does: it may do two steps, or call back.
// judged with: --strict
class InterfaceCall {
    interface Listener {
        void changed(int value);
    }

    private final Listener listener;
    @GuardedBy("this") private int value;

    InterfaceCall(Listener listener) {
        this.listener = listener;
    }

    /* atomic */ synchronized void set(int value) { // refused
        this.value = value;
        listener.changed(value);
    }
}

@interface GuardedBy {
    String value();
}
