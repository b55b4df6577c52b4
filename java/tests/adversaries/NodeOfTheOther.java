// The lock of this list is held, and the nodes belong to the other one.
class NodeOfTheOther {
    private static class Node {
        int value;
        Node next;
    }

    @GuardedBy("this") private Node head;

    /* atomic */ synchronized void add(int value) {
        Node node = new Node();
        node.value = value;
        node.next = head;
        head = node;
    }

    private synchronized Node head() {
        return head;
    }

    /* atomic */ synchronized void doubleFirst(NodeOfTheOther other) { // refused
        Node node = other.head();
        node.value = node.value + node.value;
    }
}

@interface GuardedBy {
    String value();
}
