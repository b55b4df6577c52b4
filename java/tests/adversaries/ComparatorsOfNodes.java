// A comparator runs where the collection that it orders is used, and holds what is held there.
// judged with: --infer
import java.util.ArrayList;
import java.util.Collections;
import java.util.Comparator;
import java.util.List;
import java.util.PriorityQueue;
import java.util.Queue;
import java.util.TreeMap;
import java.util.TreeSet;

class ComparatorsOfNodes {
    private static final class Task {
        private long due;
        private int tries;

        Task(long due) {
            this.due = due;
        }
    }

    private static final Comparator<Task> BY_DUE = Comparator.<Task>comparingLong(task -> task.due)
        .thenComparing((one, other) -> Integer.compare(one.tries, other.tries));

    private final Queue<Task> tasks = new PriorityQueue<>((one, other) -> Long.compare(one.due, other.due));
    private final PriorityQueue<Task> late = new PriorityQueue<>(BY_DUE.reversed());
    private final List<Task> all = new ArrayList<>();

    /* atomic */ synchronized void add(long due) { // accepted
        Task made = new Task(due);
        tasks.add(made);
        all.add(made);
        late.offer(made);
        made.tries = 0;
    }

    /* atomic */ synchronized int delay(long more) { // accepted
        Task first = tasks.poll();
        if (first == null) {
            return 0;
        }
        first.due += more;
        first.tries++;
        tasks.add(first);
        return first.tries;
    }

    /* atomic */ synchronized long last() { // accepted
        return all.isEmpty() ? 0 : Collections.max(all, BY_DUE).due;
    }

    /* atomic */ synchronized long sorted() { // accepted
        all.sort(BY_DUE.reversed());
        return all.stream().min(BY_DUE).map(task -> task.due).orElse(0L) + all.get(0).due;
    }

    /* atomic */ synchronized boolean before(int one, int other) { // accepted
        return BY_DUE.compare(all.get(one), all.get(other)) < 0;
    }
}

class ComparatorLooksWithoutLock {
    private static final class Task {
        private long due;
    }

    private final PriorityQueue<Task> tasks = new PriorityQueue<>((one, other) -> Long.compare(one.due, other.due));
    private final Object lock = new Object();

    void add() {
        synchronized (lock) {
            tasks.add(new Task());
        }
    }

    /* atomic */ synchronized void delay() { // refused: tasks are compared while another lock is held
        Task first;
        synchronized (lock) {
            first = tasks.peek();
        }
        first.due++;
        first.due++;
    }

    /* atomic */ synchronized long due() { // accepted
        synchronized (lock) {
            return tasks.peek().due + tasks.size();
        }
    }
}

class ComparatorSteps {
    private volatile int compared;
    private final TreeSet<String> names = new TreeSet<>((one, other) -> {
        compared++;
        return one.compareTo(other);
    });

    /* atomic */ synchronized boolean add(String name) { // refused: each comparison is a step
        return names.add(name);
    }
}

class ComparatorCopied {
    private static final class Task {
        private long due;
    }

    private final PriorityQueue<Task> tasks = new PriorityQueue<>((one, other) -> Long.compare(one.due, other.due)); // refused: a copy is compared without the lock

    synchronized void add() {
        Task made = new Task();
        made.due = 1;
        tasks.add(made);
    }

    synchronized void delay() {
        tasks.peek().due++;
    }

    int count() {
        PriorityQueue<Task> copy;
        synchronized (this) {
            copy = new PriorityQueue<>(tasks);
        }
        int found = 0;
        while (copy.poll() != null) {
            found++;
        }
        return found;
    }

    /* atomic */ synchronized void twice() { // accepted: a copy is compared without the lock, which is the error
        tasks.peek().due++;
        tasks.peek().due++;
    }
}

class ComparatorGivenAway {
    private static final class Task {
        private long due;
    }

    private final TreeMap<Task, String> tasks = new TreeMap<>((one, other) -> Long.compare(one.due, other.due)); // refused: others may compare without the lock

    Object order() {
        return tasks.comparator();
    }

    synchronized void add() {
        tasks.put(new Task(), "");
    }

    /* atomic */ synchronized void delay() { // accepted: the comparator that others are given looks without the lock
        tasks.firstKey().due++;
        tasks.firstKey().due++;
    }
}

class ComparatorStaticGivenAway {
    static final class Task {
        private long due;
    }

    static final Comparator<Task> BY_DUE = (one, other) -> Long.compare(one.due, other.due);
    private final List<Task> tasks = new ArrayList<>();

    synchronized void add() {
        Task made = new Task();
        made.due = 2;
        tasks.add(made);
    }

    /* atomic */ synchronized void delay() { // refused: others of the package may compare without the lock
        tasks.sort(BY_DUE);
        tasks.get(0).due++;
        tasks.get(1).due++;
    }
}

class ComparatorKeptBySort {
    private static final class Task {
        private long due;
    }

    private static final Comparator<Task> BY_DUE = (one, other) -> Long.compare(one.due, other.due);
    private final List<Task> tasks = new ArrayList<>();
    private Comparator<Task> last = BY_DUE;

    synchronized void add() {
        Task made = new Task();
        made.due = 2;
        tasks.add(made);
    }

    /* atomic */ boolean look(int one, int other) { // refused: it is compared without the lock
        return last.compare(tasks.get(one), tasks.get(other)) < 0;
    }

    /* atomic */ synchronized void delay() { // refused: so a task has no lock
        tasks.get(0).due++;
        tasks.get(1).due++;
    }
}

class ComparatorOfFields {
    private int sign = 1;
    private final TreeSet<Integer> numbers = new TreeSet<>((one, other) -> sign * Integer.compare(one, other));

    synchronized void turn() {
        sign = -sign;
    }

    /* atomic */ synchronized boolean add(int number) { // accepted
        return numbers.add(number) && numbers.contains(number);
    }
}

class ComparatorOfFieldsWithoutLock {
    private final Object lock = new Object();
    private int sign = 1;
    private final TreeSet<Integer> numbers = new TreeSet<>((one, other) -> sign * Integer.compare(one, other));

    void turn() {
        synchronized (lock) {
            sign = -sign;
        }
    }

    /* atomic */ synchronized boolean add(int number) { // refused: the comparator looks at a field of another lock
        return numbers.add(number) && numbers.contains(number);
    }
}
