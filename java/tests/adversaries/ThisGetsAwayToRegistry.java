// The constructor hands `this` to a method that keeps it, and writes a guarded field behind that, without the guard.
import java.util.ArrayList;
import java.util.List;

class ThisGetsAwayToRegistry {
    @GuardedBy("this") private int value;

    ThisGetsAwayToRegistry(Registry registry) { // refused
        registry.add(this);
        value = 1;
    }

    synchronized int get() {
        return value;
    }
}

class Registry {
    @GuardedBy("this") private final List<ThisGetsAwayToRegistry> all = new ArrayList<>();

    synchronized void add(ThisGetsAwayToRegistry one) {
        all.add(one);
    }
}

@interface GuardedBy {
    String value();
}
