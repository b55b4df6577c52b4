// A local that takes what a field holds, while the field gets a new object within the same region: then the method alone has it.
// judged with: --infer
import java.util.ArrayList;
import java.util.Iterator;
import java.util.List;

class TakenForGood {
    private List<String> names = new ArrayList<>();

    /* atomic */ int drain() { // accepted
        List<String> old;
        synchronized (this) {
            old = names;
            names = new ArrayList<>();
        }
        old.add("a");
        old.add("b");
        return old.size();
    }

    private void put(String name) {
        names.add(name);
        names.add(name);
    }

    /* atomic */ synchronized void add(String name) { // accepted
        put(name);
    }
}

class TakenAndKnown {
    private static volatile List<String> last;
    private List<String> names = new ArrayList<>();

    /* atomic */ void drain() { // refused
        List<String> old;
        synchronized (this) {
            old = names;
            names = new ArrayList<>();
        }
        last = old;
        old.add("a");
        old.add("b");
    }
}

class TakenAtTimes {
    private List<String> names = new ArrayList<>();

    /* atomic */ void drain() { // refused
        List<String> old;
        synchronized (this) {
            old = names;
            if (old.isEmpty()) {
                return;
            }
            names = new ArrayList<>();
            names = old;
        }
        old.add("a");
        old.add("b");
    }

    /* atomic */ synchronized void add(String name) { // refused
        names.add(name);
        names.add(name);
    }
}

class TakenByTwo {
    private List<String> names = new ArrayList<>();

    /* atomic */ void drain() { // refused
        List<String> old;
        synchronized (this) {
            old = names;
            names = new ArrayList<>();
        }
        old.add("a");
        old.add("b");
    }

    /* atomic */ void add(String name) { // refused
        List<String> now;
        synchronized (this) {
            now = names;
        }
        now.add(name);
        now.add(name);
    }
}

class TakenWithoutLock {
    private List<String> names = new ArrayList<>();

    /* atomic */ void drain() { // refused
        List<String> old = names;
        names = new ArrayList<>();
        old.add("a");
        old.add("b");
    }
}

class TakenUnderAnotherLock {
    private final Object one = new Object();
    private final Object other = new Object();
    private List<String> names = new ArrayList<>();

    /* atomic */ void drain() { // refused
        List<String> old;
        synchronized (one) {
            old = names;
            names = new ArrayList<>();
        }
        old.add("a");
        old.add("b");
    }

    /* atomic */ void add(String name) { // refused
        synchronized (other) {
            names.add(name);
            names.add(name);
        }
    }
}

class TakenWhileWalked {
    private List<String> names = new ArrayList<>();
    private Iterator<String> walk;

    synchronized void begin() {
        walk = names.iterator();
    }

    /* atomic */ void drain() { // refused
        List<String> old;
        synchronized (this) {
            old = names;
            names = new ArrayList<>();
        }
        old.add("a");
        old.add("b");
    }
}

class TakenAndSpared {
    private List<String> names = new ArrayList<>();
    private List<String> spare = new ArrayList<>();

    /* atomic */ void drain() { // refused
        List<String> old;
        synchronized (this) {
            old = names;
            names = spare;
            spare = old;
        }
        old.add("a");
        old.add("b");
    }
}

class TakenInHelper {
    private List<String> names = new ArrayList<>();

    /* atomic */ void drain() { // refused
        List<String> old;
        synchronized (this) {
            old = names;
            names = new ArrayList<>();
        }
        old.add("a");
        old.add("b");
    }

    private void put(String name) {
        names.add(name);
        names.add(name);
    }

    /* atomic */ void add(String name) { // refused
        put(name);
    }
}
