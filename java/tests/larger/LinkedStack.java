package stack;

import atomic.Atomic;
import java.util.NoSuchElementException;
import javax.annotation.concurrent.GuardedBy;

/** A stack of nodes that never get out. */
public class LinkedStack<E> {
    private static class Node<E> {
        E value;
        Node<E> below;

        Node(E value, Node<E> below) {
            this.value = value;
            this.below = below;
        }
    }

    @GuardedBy("this") private Node<E> top;
    @GuardedBy("this") private int size;

    @Atomic
    public synchronized void push(E value) {
        top = new Node<>(value, top);
        size++;
    }

    @Atomic
    public synchronized E pop() {
        if (top == null) {
            throw new NoSuchElementException();
        }
        E value = top.value;
        top = top.below;
        size--;
        return value;
    }

    @Atomic
    public synchronized E peek() {
        return top == null ? null : top.value;
    }

    @Atomic
    public synchronized int size() {
        return size;
    }

    @Atomic
    public synchronized void swap() {
        Node<E> first = top;
        if (first == null || first.below == null) {
            return;
        }
        Node<E> second = first.below;
        E kept = first.value;
        first.value = second.value;
        second.value = kept;
    }

    @Atomic
    public synchronized void reverse() {
        Node<E> done = null;
        Node<E> rest = top;
        while (rest != null) {
            Node<E> next = rest.below;
            rest.below = done;
            done = rest;
            rest = next;
        }
        top = done;
    }

    @Atomic
    public int depth() {
        synchronized (this) {
            int depth = 0;
            for (Node<E> node = top; node != null; node = node.below) {
                depth++;
            }
            return depth;
        }
    }
}
