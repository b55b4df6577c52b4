// A copy of a map's entries has the same entries, through which the map is looked at and changed.
// judged with: --infer
import java.util.ArrayList;
import java.util.Collections;
import java.util.HashMap;
import java.util.HashSet;
import java.util.List;
import java.util.Map;
import java.util.Set;
import java.util.TreeMap;

class EntriesInCopies {
    private final Map<String, String> listed = new HashMap<>();
    private final Map<String, String> fixed = new HashMap<>();
    private final Map<String, String> array = new HashMap<>();
    private final Map<String, String> added = new HashMap<>();
    private final Map<String, String> greatest = new HashMap<>();
    private final Map<String, String> hashed = new HashMap<>();
    private final Map<String, String> sorted = new HashMap<>();
    private final TreeMap<String, String> first = new TreeMap<>();

    synchronized List<Map.Entry<String, String>> listed() {
        return new ArrayList<>(listed.entrySet());
    }

    synchronized List<Map.Entry<String, String>> fixed() {
        return List.copyOf(fixed.entrySet());
    }

    synchronized Object[] array() {
        return array.entrySet().toArray();
    }

    synchronized List<Map.Entry<String, String>> added() {
        List<Map.Entry<String, String>> all = new ArrayList<>();
        all.addAll(added.entrySet());
        return all;
    }

    synchronized Map.Entry<String, String> greatest() {
        return Collections.max(greatest.entrySet(), Map.Entry.comparingByKey());
    }

    synchronized Set<Map.Entry<String, String>> hashed() {
        return new HashSet<>(hashed.entrySet());
    }

    synchronized List<String> sorted() {
        List<Map.Entry<String, String>> all = new ArrayList<>(sorted.entrySet());
        all.sort(Map.Entry.comparingByValue());
        List<String> names = new ArrayList<>();
        for (Map.Entry<String, String> each : all) {
            names.add(each.getKey());
        }
        return names;
    }

    synchronized Map.Entry<String, String> first() {
        return first.firstEntry();
    }

    /* atomic */ synchronized void putListed() { // refused
        listed.put("a", "b");
        listed.put("b", "c");
    }

    /* atomic */ synchronized void putFixed() { // refused
        fixed.put("a", "b");
        fixed.put("b", "c");
    }

    /* atomic */ synchronized void putArray() { // refused
        array.put("a", "b");
        array.put("b", "c");
    }

    /* atomic */ synchronized void putAdded() { // refused
        added.put("a", "b");
        added.put("b", "c");
    }

    /* atomic */ synchronized void putGreatest() { // refused
        greatest.put("a", "b");
        greatest.put("b", "c");
    }

    /* atomic */ synchronized void putHashed() { // refused
        hashed.put("a", "b");
        hashed.put("b", "c");
    }

    /* atomic */ synchronized void putSorted() { // accepted
        sorted.put("a", "b");
        sorted.put("b", "c");
    }

    /* atomic */ synchronized void putFirst() { // accepted
        first.put("a", "b");
        first.put("b", "c");
    }
}
