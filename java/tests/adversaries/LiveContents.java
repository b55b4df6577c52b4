// A list within a map of a field is changed under the lock: who is given it, or what shows it, looks at it without one.
// judged with: --public --infer
import java.util.ArrayDeque;
import java.util.ArrayList;
import java.util.Collection;
import java.util.Collections;
import java.util.Deque;
import java.util.HashMap;
import java.util.List;
import java.util.Map;
import java.util.Optional;

public class LiveContents {
    private final Map<String, Deque<String>> lanes = new HashMap<>();
    private final Map<String, byte[]> pages = new HashMap<>();
    private final Map<String, List<String>> copied = new HashMap<>();

    public synchronized void post(String lane, String text) {
        lanes.computeIfAbsent(lane, key -> new ArrayDeque<>()).addLast(text);
    }

    public synchronized Collection<String> lane(String lane) { // refused
        return lanes.get(lane);
    }

    public synchronized Collection<String> shown(String lane) { // refused
        return Collections.unmodifiableCollection(lanes.get(lane));
    }

    public synchronized Collection<String> byLocal(String lane) { // refused
        Deque<String> found = lanes.get(lane);
        return found == null ? List.of() : found;
    }

    public synchronized Optional<Collection<String>> perhaps(String lane) { // refused
        return Optional.ofNullable(lanes.get(lane));
    }

    public synchronized Map<String, Deque<String>> shallow() { // refused: the copy has the same lanes
        return new HashMap<>(lanes);
    }

    public synchronized List<Deque<String>> listed() { // refused: so has the list
        return lanes.values().stream().toList();
    }

    public synchronized List<Deque<String>> deep() {
        return lanes.values().stream().<Deque<String>>map(ArrayDeque::new).toList();
    }

    public synchronized void set(String page, int at) {
        pages.get(page)[at] = 1;
    }

    public synchronized byte[] page(String page) { // refused
        return pages.get(page);
    }

    public synchronized void copies(String key) { // accepted
        copied.put(key, List.of(key));
    }

    public synchronized List<String> copy(String key) { // accepted
        return copied.get(key);
    }

    private static final class Member {
        private final List<String> entries = new ArrayList<>();
        final List<String> shown = new ArrayList<>();
    }

    private final Map<String, Member> members = new HashMap<>();

    public synchronized void enter(String id, String text) { // accepted
        Member member = members.computeIfAbsent(id, key -> new Member());
        member.entries.add(text);
        member.shown.add(text);
    }

    public synchronized List<String> entries(String id) { // refused
        return Collections.unmodifiableList(members.get(id).entries);
    }

    public synchronized List<String> shownBy(String id) { // refused
        return Collections.unmodifiableList(members.get(id).shown);
    }
}
