// A lock that each change of a field and most of its looks hold guards it: a look without it is the error, and no other.
// judged with: --public --infer
import java.util.ArrayList;
import java.util.HashMap;
import java.util.List;
import java.util.Map;

public class MostLooksUnderLock {
    private int count;
    private final List<String> names = new ArrayList<>();

    public synchronized void add(String name) { // accepted
        names.add(name);
        count++;
        count++;
    }

    public synchronized int size() { // accepted
        return names.size() + count;
    }

    public boolean isEmpty() { // refused
        return count == 0;
    }

    public String first() { // refused
        return names.get(0);
    }

    public synchronized boolean isOne() { // accepted
        return !isEmpty() && names.size() == 1;
    }

    public String shown() { // refused
        return names + "";
    }
}

class FewLooksUnderLock {
    private int count;

    public synchronized void add() { // refused
        count = 1;
        count = 2;
    }

    public int one() { // accepted
        return count;
    }

    public int other() { // accepted
        return count;
    }

    public int last() { // accepted
        return count;
    }
}

class ChangedWithoutLock {
    private int count;

    public synchronized void add() { // refused
        count++;
    }

    public synchronized int twice() { // refused
        return count + count;
    }

    public void reset() { // accepted
        count = 0;
    }

    public void restart() { // accepted
        count = 1;
    }
}

class SaidToBeVolatile {
    private volatile int count;

    public synchronized void add() { // refused
        count = 1;
        count = 2;
    }

    public synchronized int twice() { // accepted
        return count + count;
    }

    public int count() { // accepted
        return count;
    }
}

class LookUnderAnotherLock {
    private final Object other = new Object();
    private final Map<String, Integer> all = new HashMap<>();

    public synchronized void put(String name) { // accepted
        all.put(name, 1);
        all.put(name + name, 2);
    }

    public synchronized int size() { // accepted
        return all.size();
    }

    public int look(String name) { // refused
        synchronized (other) {
            return all.get(name);
        }
    }
}

class TwoRegionsAllTheSame {
    private int count;

    public synchronized void add() { // accepted
        count++;
        count++;
    }

    public void twice() { // refused
        add();
        add();
    }

    public int look() { // refused
        return count;
    }
}
