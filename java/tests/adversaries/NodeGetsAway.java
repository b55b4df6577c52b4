// first() lets a node out, so its fields aren't the list's own.
class NodeGetsAway {
    static class Node {
        int value;
        Node next;
    }

    @GuardedBy("this") private Node head;

    synchronized Node first() {
        return head;
    }

    /* atomic */ synchronized void addToFirst() { // refused
        head.value = head.value + 1;
    }
}

@interface GuardedBy {
    String value();
}
