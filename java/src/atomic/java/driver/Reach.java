package atomic.java.driver;

import atomic.java.skeleton.Method;
import java.util.ArrayDeque;
import java.util.Deque;
import java.util.HashMap;
import java.util.List;
import java.util.Map;
import java.util.function.Function;
import java.util.function.ToIntFunction;

/** How many bytes methods take with all that they reach. It is asked for each method, so what one leads to is kept. */
final class Reach {
    private final ToIntFunction<Method> bytes;
    private final Function<Method, List<Method>> next;
    private final Map<Method, Node> nodes = new HashMap<>();

    /** By the bytes of a method alone, and those that it leads to at once. */
    Reach(ToIntFunction<Method> bytes, Function<Method, List<Method>> next) {
        this.bytes = bytes;
        this.next = next;
    }

    private final class Node {
        private final Method method;
        private final int size;
        private List<Node> further;
        private Node root;
        private boolean full;

        Node(Method method) {
            this.method = method;
            size = bytes.applyAsInt(method);
        }

        List<Node> further() {
            further = further == null ? next.apply(method).stream().map(Reach.this::node).toList() : further;
            return further;
        }

        /** Whether it is reached for the first time from this root. */
        boolean isFirst(Node from) {
            boolean first = root != from;
            root = from;
            return first;
        }
    }

    private Node node(Method method) {
        return nodes.computeIfAbsent(method, Node::new);
    }

    /**
     * The bytes of a method and all that it reaches; where these are more than {@code most}, which is the same each time, this
     * many. So it is with a method that reaches one of which that is known.
     */
    int bytes(Method method, int most) {
        Node root = node(method);
        root.isFirst(root);
        Deque<Node> waiting = new ArrayDeque<>(List.of(root));
        int sum = 0;
        while (!waiting.isEmpty() && sum < most) {
            Node each = waiting.pop();
            sum = each.full ? most : sum + each.size;
            each.further().stream().filter(node -> node.isFirst(root)).forEach(waiting::add);
        }
        root.full = sum >= most;
        return Math.min(sum, most);
    }
}
