// Lists within a map that others may know, or that are touched without the map's lock: then they are no part of it.
// judged with: --public --infer
import java.util.ArrayList;
import java.util.Collections;
import java.util.HashMap;
import java.util.Iterator;
import java.util.List;
import java.util.Map;
import java.util.concurrent.ExecutorService;

public class InnerShared {
    private final Map<String, List<String>> all = new HashMap<>();
    private List<String> last = new ArrayList<>();

    public synchronized void find(String key) { // accepted
        last = all.get(key);
    }

    public synchronized void add(String key, String text) { // refused: last has it too
        all.computeIfAbsent(key, k -> new ArrayList<>()).add(text);
    }

    public void late(String text) { // refused
        last.add(text);
    }
}

class BroughtAsLists {
    private final Map<String, List<String>> all;

    BroughtAsLists(Map<String, List<String>> given) {
        Map<String, List<String>> made = new HashMap<>(given);
        all = made;
    }

    public synchronized int size(String key) { // refused: whoever brought them may change them
        return all.get(key).size() + all.get(key).size();
    }

    public synchronized void add(String key) { // refused
        all.get(key).add(key);
    }
}

class BroughtByHelper {
    private final List<List<String>> all = new ArrayList<>();

    public synchronized void put(List<String> given) { // accepted: only where it is looked at it matters
        Collections.addAll(all, given);
    }

    public synchronized void add(String text) { // refused
        all.get(0).add(text);
    }
}

class UsedLater {
    private final Map<String, List<String>> all = new HashMap<>();
    private final ExecutorService pool;

    UsedLater(ExecutorService pool) {
        this.pool = pool;
    }

    public synchronized void later(String key) { // refused
        List<String> found = all.computeIfAbsent(key, k -> new ArrayList<>());
        pool.execute(() -> found.add("late"));
    }

    public synchronized void twice(String key) { // refused
        all.get(key).add("a");
        all.get(key).add("b");
    }
}

class OfTheOther {
    private final Map<String, List<String>> all = new HashMap<>();

    public synchronized void add(String key) { // refused: another thread holds the other one's lock
        all.computeIfAbsent(key, k -> new ArrayList<>()).add(key);
    }

    public synchronized void into(OfTheOther other, String key) { // refused
        other.all.get(key).add(key);
    }
}

class OfTheOtherByHelper {
    private final Map<String, List<String>> all = new HashMap<>();

    private List<String> find(String key) {
        return all.get(key);
    }

    public synchronized void add(String key) { // refused
        all.computeIfAbsent(key, k -> new ArrayList<>()).add(key);
        find(key).add(key);
    }

    public synchronized void into(OfTheOtherByHelper other, String key) { // refused
        other.find(key).add(key);
    }
}

class InTwoMaps {
    private final Object lock = new Object();
    private final Map<String, List<String>> all = new HashMap<>();
    private final Map<String, List<String>> some = new HashMap<>();

    public void add(String key) { // refused
        synchronized (this) {
            List<String> found = all.computeIfAbsent(key, k -> new ArrayList<>());
            found.add(key);
            found.add(key);
            synchronized (lock) {
                some.put(key, found);
            }
        }
    }

    public void other(String key) { // refused
        synchronized (lock) {
            some.get(key).add(key);
            some.get(key).clear();
        }
    }
}

class Walked {
    @interface GuardedBy {
        String value();
    }

    @GuardedBy("this") private final Map<String, List<String>> all = new HashMap<>();

    public synchronized void add(String key) { // accepted
        all.computeIfAbsent(key, k -> new ArrayList<>()).add(key);
    }

    public String late(String key) { // refused: the walk goes on without the lock
        Iterator<String> each;
        synchronized (this) {
            each = all.get(key).iterator();
        }
        return each.next() + each.next();
    }

    public int lateSizes() { // refused: the copy has the same lists
        List<List<String>> copy;
        synchronized (this) {
            copy = new ArrayList<>(all.values());
        }
        int sum = 0;
        for (List<String> each : copy) {
            sum += each.size();
        }
        return sum;
    }
}

class Drained {
    private final Map<String, List<String>> all = new HashMap<>();

    public synchronized void add(String key) { // accepted
        all.computeIfAbsent(key, k -> new ArrayList<>()).add(key);
    }

    public int drained(String key) { // accepted: nobody else has it by then
        List<String> mine;
        synchronized (this) {
            mine = all.remove(key);
        }
        return mine == null ? 0 : mine.size() + mine.size();
    }
}

class KeptUnderTwoKeys {
    private final Map<String, List<String>> all = new HashMap<>();

    public synchronized void add(String key, String other) { // accepted
        all.computeIfAbsent(key, k -> new ArrayList<>()).add(key);
        all.put(other, all.get(key));
    }

    public int drained(String key) { // refused: it may be there under another key
        List<String> mine;
        synchronized (this) {
            mine = all.remove(key);
        }
        return mine == null ? 0 : mine.size() + mine.size();
    }
}

class InRows {
    private final int[][] rows = new int[3][3];

    public synchronized void move(int from, int to) { // accepted
        rows[from][0]--;
        int[] row = rows[to];
        row[0]++;
    }

    public synchronized int sum() { // accepted
        int sum = 0;
        for (int[] row : rows) {
            for (int each : row) {
                sum += each;
            }
        }
        return sum;
    }

    public int unlocked() { // refused
        return rows[0][0] + rows[1][0];
    }
}
