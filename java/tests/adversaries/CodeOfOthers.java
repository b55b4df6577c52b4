// Code that others bring is assumed to touch nothing of these sources, where it is called while a lock is held. It may
// do anything where none is held, where a function or a class at hand may be what is called, and where it is given what
// it may look at later.
// judged with: --public --infer
import java.util.ArrayList;
import java.util.Collections;
import java.util.HashMap;
import java.util.List;
import java.util.Map;
import java.util.concurrent.Callable;
import java.util.concurrent.Executors;
import java.util.function.BiFunction;
import java.util.function.Consumer;
import java.util.function.IntConsumer;

public class CodeOfOthers {
    public interface Listener {
        void changed(int count);
    }

    public interface Reader {
        void read(List<String> names);
    }

    private int count;
    private int steps;

    private void tell(Listener listener) {
        listener.changed(count);
    }

    public synchronized void up(Listener listener) { // accepted
        count++;
        listener.changed(count);
        steps++;
    }

    public synchronized void byHelper(Listener listener) { // accepted
        count++;
        tell(listener);
        steps++;
    }

    public synchronized int both() { // accepted
        return count + steps;
    }

    public void behind(Listener listener) { // refused: no lock is held
        synchronized (this) {
            count++;
        }
        listener.changed(3);
        synchronized (this) {
            steps++;
        }
    }

    public static class FunctionAtHand {
        private int count;
        private volatile int seen;
        private IntConsumer told = this::see;

        private void see(int now) {
            seen = now;
            seen = now + 1;
        }

        public synchronized void tells(IntConsumer other) { // accepted
            told = other;
        }

        public synchronized void up() { // refused: it may be the function above
            count++;
            told.accept(count);
        }

        public int seen() { // accepted
            return seen;
        }
    }

    public static class FunctionWithin {
        private volatile int seen;
        private int count;
        private BiFunction<Integer, Integer, Integer> sum;

        public FunctionWithin(BiFunction<Integer, Integer, Integer> given) {
            sum = given.andThen(both -> {
                seen = both;
                seen = both + 1;
                return both;
            });
        }

        public synchronized int up() { // refused: the function of the constructor is a part of it
            count++;
            return sum.apply(count, count);
        }

        public int seen() { // accepted
            return seen;
        }
    }

    public static class TaskOfTask {
        private volatile int seen;
        private int count;
        private Callable<Object> task = Executors.callable(() -> {
            seen = 1;
            seen = 2;
        });

        public synchronized void tells(Callable<Object> other) { // accepted
            task = other;
        }

        public synchronized Object up() throws Exception { // refused: a Runnable became a Callable
            count++;
            return task.call();
        }

        public int seen() { // accepted
            return seen;
        }
    }

    public static class ClassAtHand {
        private static volatile int seen;
        private int count;
        private Runnable task = new Twice();

        private static class Twice implements Runnable {
            @Override
            public void run() {
                seen = 1;
                seen = 2;
            }
        }

        public synchronized void tells(Runnable other) { // accepted
            task = other;
        }

        public synchronized void up() { // refused: it may be the class above
            count++;
            task.run();
        }
    }

    public static class GivesItsList {
        private final List<String> names = new ArrayList<>();

        public synchronized void shows(Reader reader) { // refused: it may keep the list
            reader.read(names);
        }

        public synchronized void view(Consumer<List<String>> reader) { // refused: it may keep the view
            reader.accept(Collections.unmodifiableList(names));
        }
    }

    public static class GivesACopy {
        private final List<String> names = new ArrayList<>();

        public synchronized void add(String name) { // accepted
            names.add(name);
        }

        public synchronized void copy(Reader reader) { // accepted
            reader.read(new ArrayList<>(names));
        }
    }

    public static class GivesItsLists {
        private final Map<String, List<String>> lists = new HashMap<>();

        public synchronized void add(String key, String name) { // refused: a list may be known to others
            lists.get(key).add(name);
        }

        public synchronized void each(Consumer<List<String>> reader) { // refused: it may keep the list
            lists.values().forEach(reader);
        }
    }

    public static class TwoLocks {
        private final Object one = new Object();
        private final Object two = new Object();
        private int left;
        private int right;

        public void move(Runnable between) { // refused: two regions
            synchronized (one) {
                left--;
                between.run();
            }
            synchronized (two) {
                right++;
            }
        }

        public int both() { // accepted
            synchronized (one) {
                synchronized (two) {
                    return left + right;
                }
            }
        }
    }

    public static class Waits {
        private boolean full;

        public synchronized void take(Listener listener) throws InterruptedException { // refused: the listener was told before
            listener.changed(1);
            while (!full) {
                wait();
            }
            full = false;
        }

        public synchronized void fill() { // accepted
            full = true;
            notifyAll();
        }
    }
}
