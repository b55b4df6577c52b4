// judged with: --infer
// What a collector's functions do counts under the lock that is held where the pipeline runs; what it gives may be nodes.
import java.util.HashMap;
import java.util.Map;
import java.util.stream.Collector;
import java.util.stream.Collectors;

class CollectedNodes {
    private static final class Node {
        int v;
    }

    private final Map<String, Node> nodes = new HashMap<>();

    /* atomic */ synchronized void add(String name) { // accepted
        nodes.computeIfAbsent(name, key -> new Node()).v++;
    }

    /* atomic */ synchronized Map<String, Integer> all() { // accepted
        return nodes.entrySet().stream().collect(Collectors.toMap(Map.Entry::getKey, each -> each.getValue().v));
    }

    /* atomic */ synchronized Map<Integer, Long> counts() { // accepted
        return nodes.entrySet().stream().collect(Collectors.groupingBy(each -> each.getValue().v,
            Collectors.mapping(Map.Entry::getKey, Collectors.counting())));
    }

    static class Out {
        private static final class Node {
            int v;
        }

        private final Map<String, Node> nodes = new HashMap<>();

        synchronized Map<String, Object> all() {
            return nodes.entrySet().stream().collect(Collectors.toMap(Map.Entry::getKey, Map.Entry::getValue));
        }

        /* atomic */ synchronized void add(String name) { // refused
            Node node = nodes.computeIfAbsent(name, key -> new Node());
            node.v++;
        }
    }

    static class Wrong {
        private static final class Node {
            int v;
        }

        private final Object other = new Object();
        private final Map<String, Node> nodes = new HashMap<>();

        /* atomic */ synchronized void add(String name) { // refused
            Node node = nodes.computeIfAbsent(name, key -> new Node());
            node.v++;
        }

        /* atomic */ Map<String, Integer> all() { // refused
            synchronized (other) {
                return nodes.entrySet().stream().collect(Collectors.toMap(Map.Entry::getKey, each -> each.getValue().v));
            }
        }
    }

    static class Late {
        private final Map<String, Integer> one = new HashMap<>();
        private final Map<String, Integer> two = new HashMap<>();
        private final Object lock = new Object();

        void put(String name) {
            synchronized (this) {
                one.put(name, 1);
            }
            synchronized (lock) {
                two.put(name, 1);
            }
        }

        /* atomic */ Map<String, Integer> all() { // refused
            Collector<Map.Entry<String, Integer>, ?, Map<String, Integer>> late;
            synchronized (this) {
                late = Collectors.toMap(Map.Entry::getKey, Map.Entry::getValue);
            }
            return two.entrySet().stream().collect(late);
        }
    }
}
