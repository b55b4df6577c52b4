// The lists within a map are a part of the map: what only looks at one, copies it or moves it, under the map's lock, is accepted,
// and what does so without the lock is refused.
// judged with: --public --infer
import java.util.ArrayList;
import java.util.Collections;
import java.util.HashMap;
import java.util.LinkedHashMap;
import java.util.List;
import java.util.Map;
import java.util.Optional;
import java.util.stream.Collectors;

public class InnerLists {
    public record Page(String name, List<String> lines) { }

    private final Map<String, List<String>> all = new HashMap<>();

    public synchronized void add(String key, String line) { // accepted
        all.computeIfAbsent(key, k -> new ArrayList<>()).add(line);
    }

    public synchronized void addByHand(String key, String line) { // accepted
        List<String> found = all.get(key);
        if (found == null) {
            found = new ArrayList<>();
            all.put(key, found);
        }
        found.add(line);
    }

    private List<String> find(String key) {
        return all.get(key);
    }

    private List<String> orEmpty(String key) {
        List<String> found = find(key);
        return found == null ? Collections.emptyList() : found;
    }

    // What only looks, copies, or moves within is accepted.

    public synchronized int size(String key) { // accepted
        return find(key) == null ? 0 : orEmpty(key).size();
    }

    public synchronized List<String> copy(String key) { // accepted
        return new ArrayList<>(orEmpty(key));
    }

    public synchronized List<String> copyByStream(String key) { // accepted
        return all.get(key).stream().filter(line -> !line.isEmpty()).toList();
    }

    public synchronized List<String> joined() { // accepted
        List<String> made = new ArrayList<>();
        for (List<String> each : all.values()) {
            made.addAll(each);
        }
        return made;
    }

    public synchronized List<String> flat() { // accepted
        return all.values().stream().flatMap(List::stream).collect(Collectors.toList());
    }

    public synchronized Map<String, List<String>> copies() { // accepted
        Map<String, List<String>> made = new LinkedHashMap<>();
        all.forEach((key, lines) -> made.put(key, List.copyOf(lines)));
        return made;
    }

    public synchronized Map<String, List<String>> copiesByLoop() { // accepted
        Map<String, List<String>> made = new LinkedHashMap<>();
        for (Map.Entry<String, List<String>> each : all.entrySet()) {
            made.put(each.getKey(), new ArrayList<>(each.getValue()));
        }
        return made;
    }

    public synchronized Map<String, Integer> sizes() { // accepted
        return all.entrySet().stream().collect(Collectors.toMap(Map.Entry::getKey, each -> each.getValue().size()));
    }

    public synchronized void rename(String from, String to) { // accepted
        List<String> moved = all.get(from);
        if (moved != null) {
            all.put(to, moved);
        }
    }

    public synchronized Page page(String key) { // accepted
        return new Page(key, List.copyOf(orEmpty(key)));
    }

    public synchronized Optional<String> firstLine(String key) { // accepted
        return Optional.ofNullable(all.get(key)).map(found -> found.get(0));
    }

    public synchronized String text(String key) { // accepted
        return String.join(",", all.get(key));
    }

    public synchronized List<String> byList(String key) { // accepted
        List<String> made = new ArrayList<>();
        all.get(key).forEach(made::add);
        return made;
    }

    public List<String> drain(String key) { // accepted: nobody else has the list from then on
        synchronized (this) {
            return all.remove(key);
        }
    }

    public List<String> given(String key) { // refused
        synchronized (this) {
            return all.get(key);
        }
    }

    public void unlocked(String key) { // refused
        List<String> found;
        synchronized (this) {
            found = all.get(key);
        }
        found.add("late");
    }

    public synchronized void each() { // accepted
        for (List<String> lines : all.values()) {
            for (int k = 0; k < lines.size(); k++) {
                lines.set(k, lines.get(k).trim());
            }
            lines.removeIf(String::isEmpty);
        }
    }

    public synchronized void sort(String key) { // accepted
        Collections.sort(all.get(key));
    }

    public int sizeWithout(String key) { // refused
        return all.get(key).size();
    }
}
