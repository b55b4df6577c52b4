// What shows the contents of a field is looked at through a local that is assigned behind its declaration.
// judged with: --infer
import java.util.ArrayList;
import java.util.HashMap;
import java.util.Iterator;
import java.util.List;
import java.util.Map;
import java.util.Set;

class ViewsInLocals {
    private final List<String> names = new ArrayList<>();

    /* atomic */ void walk() { // refused
        Iterator<String> each;
        synchronized (this) {
            each = names.iterator();
        }
        while (each.hasNext()) {
            each.next();
        }
    }

    /* atomic */ synchronized void add() { // refused
        names.add("a");
        names.add("b");
    }
}

class ViewOfOneOrNone {
    private final List<String> names = new ArrayList<>();

    /* atomic */ void walk(boolean some) { // refused
        Iterator<String> each = null;
        if (some) {
            each = names.iterator();
        }
        each.next();
        each.next();
    }

    /* atomic */ synchronized void add() { // refused
        names.add("a");
        names.add("b");
    }
}

class ViewByCondition {
    private final List<String> names = new ArrayList<>();

    /* atomic */ void walk(boolean some) { // refused
        Iterator<String> each = some ? names.iterator() : null;
        each.next();
        each.next();
    }

    /* atomic */ synchronized void add() { // refused
        names.add("a");
        names.add("b");
    }
}

class ViewOfEntries {
    private final Map<String, Integer> counts = new HashMap<>();

    /* atomic */ void raise() { // refused
        Set<Map.Entry<String, Integer>> all;
        synchronized (this) {
            all = counts.entrySet();
        }
        for (Map.Entry<String, Integer> each : all) {
            each.setValue(1);
        }
    }

    /* atomic */ synchronized void put() { // refused
        counts.put("a", 1);
        counts.put("b", 1);
    }
}

class ViewUnderLock {
    private final List<String> names = new ArrayList<>();

    /* atomic */ synchronized void walk() { // accepted
        Iterator<String> each;
        each = names.iterator();
        while (each.hasNext()) {
            each.next();
        }
    }

    /* atomic */ synchronized void add() { // accepted
        names.add("a");
        names.add("b");
    }
}

class KnownArrayHandedOn {
    private final int[] counts = new int[3];

    int[] counts() {
        return counts;
    }

    private static void count(int[] all) {
        all[0]++;
        all[1]++;
    }

    /* atomic */ synchronized void counted() { // refused
        count(counts);
    }
}

class SpreadArrayHandedOn {
    private final int[] counts = new int[3];

    private static void count(int... all) {
        all[0]++;
        all[1]++;
    }

    /* atomic */ void counted() { // refused
        count(counts);
    }
}
