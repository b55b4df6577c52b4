// judged with: --public --infer
import java.util.concurrent.atomic.AtomicReference;
import java.util.concurrent.atomic.AtomicReferenceArray;

/** Chains of nodes that are only put in front, and locks that are taken one within the other by a method that calls itself. */
public class Chains {

    public static final class Hosts {
        private static final class Node {
            final String host;
            final Node next;
            final AtomicReference<String> answer = new AtomicReference<>();

            Node(String host, Node next) {
                this.host = host;
                this.next = next;
            }
        }

        private final AtomicReferenceArray<Node> chains = new AtomicReferenceArray<>(16);

        public String answer(String host) { // refused: perhaps: no node goes away, so the look at the answer is all
            Node node = find(chains.get(place(host)), host);
            return node == null ? null : node.answer.get();
        }

        public void bind(String host, String answer) { // refused: perhaps: a node without an answer is as good as none
            node(host).answer.set(answer);
        }

        public void extend(String host, String more) { // refused: certain: another answer may be set in the middle
            Node node = node(host);
            node.answer.set(node.answer.get() + more);
        }

        private Node node(String host) {
            while (true) {
                Node head = chains.get(place(host));
                Node node = find(head, host);
                if (node != null) {
                    return node;
                }
                node = new Node(host, head);
                if (chains.compareAndSet(place(host), head, node)) {
                    return node;
                }
            }
        }

        private static Node find(Node from, String host) {
            Node node = from;
            while (node != null && !node.host.equals(host)) {
                node = node.next;
            }
            return node;
        }

        private static int place(String host) {
            return Math.floorMod(host.hashCode(), 16);
        }
    }

    /** What is done with a node that another one has replaced may as well have been done before. */
    public static final class Dropped {
        private static final class Node {
            final AtomicReference<String> answer = new AtomicReference<>();
        }

        private final AtomicReference<Node> only = new AtomicReference<>(new Node());

        public void bind(String answer) { // refused: perhaps: the node may be dropped in the middle, and nobody looks at it then
            only.get().answer.set(answer);
        }

        public String answer() { // refused: perhaps: it was the answer while the node was there
            return only.get().answer.get();
        }

        public void clear() {
            only.set(new Node());
        }
    }

    public static final class Striped {
        private final Object[] stripes = {new Object(), new Object(), new Object(), new Object()};
        private final int[] counts = new int[4];

        public void add(int place) { // refused: perhaps: one stripe guards each count, which isn't seen
            synchronized (stripes[place % 4]) {
                counts[place % 4]++;
            }
        }

        public int all() { // refused: perhaps: it holds all the locks, which isn't seen
            return all(0);
        }

        public int oneByOne() { // refused: certain: another thread may add twice in the middle
            int sum = 0;
            for (int place = 0; place < 4; place++) {
                synchronized (stripes[place]) {
                    sum += counts[place];
                }
            }
            return sum;
        }

        private int all(int from) {
            if (from < 4) {
                synchronized (stripes[from]) {
                    return all(from + 1);
                }
            }
            int sum = 0;
            for (int each : counts) {
                sum += each;
            }
            return sum;
        }
    }
}
