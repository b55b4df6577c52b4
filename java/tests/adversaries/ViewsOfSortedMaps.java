// A tree map is a sorted map, and a part of it shows its contents, also under another lock.
// judged with: --infer
import java.util.Iterator;
import java.util.Map;
import java.util.Set;
import java.util.TreeMap;
import java.util.TreeSet;
import java.util.LinkedList;

class ViewsOfSortedMaps {
    private final Object lock = new Object();
    private final TreeMap<String, String> names = new TreeMap<>();
    private final Map<String, String> head = names.headMap("q");
    private final TreeSet<String> others = new TreeSet<>();
    private final LinkedList<String> walked = new LinkedList<>();
    private final TreeSet<String> kept = new TreeSet<>();

    Set<String> tail() {
        return others.tailSet("q");
    }

    Iterator<String> walk() {
        return walked.descendingIterator();
    }

    synchronized int few() {
        return kept.headSet("q").size();
    }

    /* atomic */ void putHead() { // refused
        synchronized (lock) {
            head.put("a", "b");
            head.put("b", "c");
        }
    }

    /* atomic */ synchronized void put() { // refused
        names.put("a", "b");
        names.put("b", "c");
    }

    /* atomic */ synchronized void add() { // refused
        others.add("a");
        others.add("b");
    }

    /* atomic */ synchronized void addWalked() { // refused
        walked.add("a");
        walked.add("b");
    }

    /* atomic */ synchronized void keep() { // accepted
        kept.add("a");
        kept.add("b");
    }
}
