// What a field holds is given to the caller of a method that is asked to be atomic: that one is refused, and no other.
// judged with: --public --infer
import java.util.ArrayList;
import java.util.Collections;
import java.util.HashMap;
import java.util.Iterator;
import java.util.List;
import java.util.Map;
import java.util.Set;
import java.util.function.Supplier;
import java.util.stream.Stream;

class GivenOutWhereAsked {
    private final List<String> names = new ArrayList<>();

    public synchronized List<String> names() { // refused
        return Collections.unmodifiableList(names);
    }

    public synchronized Stream<String> stream() { // refused
        Stream<String> all = names.stream();
        return all;
    }

    public synchronized List<String> copy() { // accepted
        return new ArrayList<>(names);
    }

    public synchronized void add(String name) { // accepted
        if (!names.contains(name)) {
            names.add(name);
        }
    }

    public void unlocked(String name) { // refused
        synchronized (this) {
            names.remove(name);
        }
        synchronized (this) {
            names.add(name);
        }
    }
}

class GivenOutAndNeverChanged {
    private final List<String> names = new ArrayList<>();

    GivenOutAndNeverChanged() {
        names.add("a");
    }

    public List<String> names() { // accepted
        return Collections.unmodifiableList(names);
    }
}

class GivenOutByAnother {
    private final Map<String, String> names = new HashMap<>();

    synchronized Set<String> keys() {
        return names.keySet();
    }

    public synchronized void put(String name) { // refused
        names.put(name, name);
        names.put(name + name, name);
    }
}

class GivenOutAndCalledHere {
    private final Map<String, String> names = new HashMap<>();

    public synchronized Set<String> keys() {
        return names.keySet();
    }

    public void drop() { // refused
        keys().clear();
        keys().remove("a");
    }

    public synchronized void put(String name) { // refused
        names.put(name, name);
        names.put(name + name, name);
    }
}

class GivenOutByFunction {
    private final Map<String, String> names = new HashMap<>();

    public synchronized Supplier<Set<String>> keys() {
        return () -> names.keySet();
    }

    public synchronized void put(String name) { // refused
        names.put(name, name);
        names.put(name + name, name);
    }
}

class GivenOutAndKept {
    private static List<String> last;
    private final List<String> names = new ArrayList<>();

    public synchronized List<String> names() {
        last = names;
        return names;
    }

    public synchronized void add(String name) { // refused
        names.add(name);
        names.add(name + name);
    }
}

class IteratorGivenOut {
    private final String[] names = new String[9];
    private int count;

    public synchronized void add(String name) { // accepted: the iterator is the error
        names[count] = name;
        count++;
    }

    public Iterator<String> iterator() { // refused
        return new Iterator<>() {
            private int next;

            @Override
            public boolean hasNext() { // refused
                return next < count;
            }

            @Override
            public String next() { // refused
                return names[next++];
            }
        };
    }
}

class IteratorUnderLock {
    private final String[] names = new String[9];
    private int count;

    public synchronized void add(String name) { // accepted
        names[count] = name;
        count++;
    }

    public synchronized Iterator<String> iterator() { // accepted
        return new Walk();
    }

    private final class Walk implements Iterator<String> {
        private final int begun = count;
        private int next;

        @Override
        public boolean hasNext() {
            return next < begun;
        }

        @Override
        public String next() {
            synchronized (IteratorUnderLock.this) {
                return names[next++];
            }
        }
    }
}
