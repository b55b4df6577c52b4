// A container that makes inner nodes while it is made isn't known to others by that, unless such a node gives it away.
// judged with: --infer
class InnerNodes {
    private class Node {
        Node next;
        int item;

        void unlink(Node before) {
            before.next = next;
            next = null;
        }
    }

    private final Node first;

    InnerNodes() {
        first = new Node();
        first.next = first;
        first.item = 1;
    }

    /* atomic */ synchronized void add(int item) { // accepted
        Node node = new Node();
        node.item = item;
        node.next = first.next;
        first.next = node;
    }

    /* atomic */ synchronized void drop() { // accepted
        Node node = first.next;
        node.unlink(first);
    }
}

class InnerNodesThatTell {
    private static volatile InnerNodesThatTell last;

    private class Node {
        Node next;
        int item;

        Node() {
            last = InnerNodesThatTell.this;
        }
    }

    private final Node first;
    private Node second;

    InnerNodesThatTell() {
        first = new Node();
        second = first;
        first.next = second;
        first.item = 1;
    }

    /* atomic */ synchronized int items() { // refused: the constructor still writes when others know the object
        return first.item + second.item;
    }

    /* atomic */ static InnerNodesThatTell made() { // refused: it is known before it is whole
        return new InnerNodesThatTell();
    }
}
