// A node is taken from one list and put into another: two locks, one after the other, and one node in two lists.
class NodeMovesOver {
    private static class Node {
        int value;
        Node next;
    }

    @GuardedBy("this") private Node head;

    private synchronized Node take() {
        Node node = head;
        head = node.next;
        return node;
    }

    private synchronized void put(Node node) {
        node.next = head;
        head = node;
    }

    /* atomic */ void moveTo(NodeMovesOver other) { // refused
        other.put(take());
    }
}

@interface GuardedBy {
    String value();
}
