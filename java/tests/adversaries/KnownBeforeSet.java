// A field that is set when others may know its object already: who looks at it twice may see two values.
// judged with: --infer
import java.util.List;
import java.util.Map;
import java.util.concurrent.ConcurrentHashMap;

class KnownBeforeSet {
    interface Registry {
        int register(KnownBeforeSet one);
    }

    private final int number;
    private int plain;

    KnownBeforeSet(Registry registry) {
        number = registry.register(this);
    }

    KnownBeforeSet(List<Object> all) {
        number = 0;
        all.add(this);
        this.plain = 3;
    }

    /* atomic */ int twice() { // refused
        return number + number;
    }

    /* atomic */ int plainTwice() { // refused
        return plain + plain;
    }
}

class KnownByInitialiser {
    private static KnownByInitialiser last;

    private final int first = Integer.parseInt("1");
    private final int number = keep(this);
    private final int then = Integer.parseInt("2");

    private static int keep(KnownByInitialiser one) {
        last = one;
        return 1;
    }

    /* atomic */ int firstTwice() { // accepted
        return first + first;
    }

    /* atomic */ int twice() { // refused
        return number + number;
    }

    /* atomic */ int thenTwice() { // refused
        return then + then;
    }
}

class KnownByBase {
    static class Base {
        static volatile Base last;

        Base() {
            last = this;
        }
    }

    static class Heir extends Base {
        private final int number;
        private final int begun = Integer.parseInt("1");

        Heir(int number) {
            this.number = number;
        }

        /* atomic */ int twice() { // refused
            return number + number;
        }

        /* atomic */ int begunTwice() { // refused
            return begun + begun;
        }
    }
}

class KnownByInner {
    static volatile Inner last;

    class Inner {
        Inner() {
            last = this;
        }

        /* atomic */ int twice() { // refused
            return number + number;
        }
    }

    private final int number;
    private final Inner inner;

    KnownByInner(int number) {
        inner = new Inner();
        this.number = number;
    }
}

class KnownByTask {
    private final Runnable task = () -> this.loop();
    private final Object lock = new Object();
    private final int number;
    private int count;

    KnownByTask(int number) {
        begin();
        this.number = number;
    }

    private void begin() {
        new Thread(task).start();
    }

    private void loop() {
        synchronized (lock) {
            count++;
        }
    }

    /* atomic */ int twice() { // refused
        return number + number;
    }

    /* atomic */ void countTwice() { // accepted
        synchronized (lock) {
            count++;
            count++;
        }
    }
}

class StartedAtTheEnd {
    private final Thread thread;
    private final int number;

    StartedAtTheEnd(int number) {
        thread = new Thread(() -> loop());
        thread.setDaemon(true);
        this.number = number;
        thread.start();
    }

    private void loop() {
    }

    /* atomic */ int twice() { // accepted
        return number + number;
    }
}

class StartedBefore {
    private final Thread thread = new Thread(this::loop);
    private final int number;

    StartedBefore(int number) {
        thread.start();
        this.number = number;
    }

    private void loop() {
    }

    /* atomic */ int twice() { // refused
        return number + number;
    }
}

class KeptInMap {
    static final Map<String, KeptInMap> ALL = new ConcurrentHashMap<>();

    private final String name;
    private final int number;

    KeptInMap(String name) {
        this.name = name;
        ALL.put(name, this);
        number = name.length();
    }

    /* atomic */ int twice() { // refused
        return number + number;
    }

    /* atomic */ int nameTwice() { // accepted
        return name.length() + name.length();
    }
}

class KnownRecord {
    record Part(int number) {
        static volatile Part last;

        Part {
            last = this;
        }

        /* atomic */ int twice() { // refused
            return number + number;
        }
    }

    record Quiet(int number) {
        /* atomic */ int twice() { // accepted
            return number + number;
        }
    }
}
