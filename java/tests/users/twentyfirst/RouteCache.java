// judged with: --public --infer
package com.example.twentyfirst;

import java.util.ArrayDeque;
import java.util.Deque;
import java.util.Iterator;
import java.util.NoSuchElementException;
import java.util.Optional;
import java.util.concurrent.locks.StampedLock;
import java.util.function.Supplier;

/**
 * Routes by the prefix of the address, kept in a search tree.
 */
public class RouteCache<R> implements Iterable<String> {

    private final class Node {
        final String prefix;
        R route;
        Node left;
        Node right;
        int uses;

        Node(String prefix, R route) {
            this.prefix = prefix;
            this.route = route;
        }
    }

    private final StampedLock sl = new StampedLock();
    private Node root;
    private int size;
    private long version;

    public Optional<R> lookup(String prefix) { // accepted
        long stamp = sl.readLock();
        try {
            return Optional.ofNullable(find(prefix)).map(n -> n.route);
        } finally {
            sl.unlockRead(stamp);
        }
    }

    /** Like lookup, and counts the use for {@link #uses}. */
    public R use(String prefix) { // refused: fault: n.uses++ while holding only the read lock: A and B both read 4 and both write 5
        long stamp = sl.readLock();
        try {
            Node n = find(prefix);
            if (n == null) {
                return null;
            }
            n.uses++;
            return n.route;
        } finally {
            sl.unlockRead(stamp);
        }
    }

    public int uses(String prefix) { // accepted: doubtful: one look under the read lock, which would be enough had use taken the write lock; as it is, use writes the plain field at the same time under a read lock of its own, a data race
        long stamp = sl.readLock();
        try {
            Node n = find(prefix);
            return n == null ? 0 : n.uses;
        } finally {
            sl.unlockRead(stamp);
        }
    }

    public R store(String prefix, R route) { // accepted
        long stamp = sl.writeLock();
        try {
            return insert(prefix, route);
        } finally {
            sl.unlockWrite(stamp);
        }
    }

    public R storeIfAbsent(String prefix, Supplier<? extends R> finder) { // refused: fault: no second look under the write lock: A and B both find nothing, B stores and returns its route, A overwrites it and returns another
        long stamp = sl.readLock();
        try {
            Node n = find(prefix);
            if (n != null) {
                return n.route;
            }
        } finally {
            sl.unlockRead(stamp);
        }
        R route = finder.get();
        stamp = sl.writeLock();
        try {
            insert(prefix, route);
            return route;
        } finally {
            sl.unlockWrite(stamp);
        }
    }

    public boolean replace(String prefix, R expected, R route) { // accepted
        long stamp = sl.writeLock();
        try {
            Node n = find(prefix);
            if (n == null || !n.route.equals(expected)) {
                return false;
            }
            n.route = route;
            version++;
            return true;
        } finally {
            sl.unlockWrite(stamp);
        }
    }

    public int size() { // refused: alarm: optimistic read that is validated, or else the read lock
        long stamp = sl.tryOptimisticRead();
        int n = size;
        if (!sl.validate(stamp)) {
            stamp = sl.readLock();
            try {
                n = size;
            } finally {
                sl.unlockRead(stamp);
            }
        }
        return n;
    }

    /** Size and version of the tree, as it is shown on the status page. */
    public String status() { // refused: fault: version is read after validate: A reads size 3 and validates, B stores (size 4, version 8), A reads version 8: 3 routes of version 8 never were; if validation fails the size is given unvalidated
        long stamp = sl.tryOptimisticRead();
        String s = size + " routes";
        if (sl.validate(stamp)) {
            s += ", version " + version;
        }
        return s;
    }

    public void clear() { // accepted
        long stamp = sl.writeLock();
        try {
            root = null;
            size = 0;
            version++;
        } finally {
            sl.unlockWrite(stamp);
        }
    }

    @Override
    public Iterator<String> iterator() { // refused: fault: the lock is held only while the first path is made, the iterator then walks the live nodes: A has the iterator, B stores two prefixes, A meets the later one only
        Deque<Node> path = new ArrayDeque<>();
        long stamp = sl.readLock();
        try {
            descend(path, root);
        } finally {
            sl.unlockRead(stamp);
        }
        return new Iterator<>() {
            @Override
            public boolean hasNext() { // accepted
                return !path.isEmpty();
            }

            @Override
            public String next() { // refused: fault: reads left and right of live nodes without any lock while B's store writes them
                if (path.isEmpty()) {
                    throw new NoSuchElementException();
                }
                Node n = path.pop();
                descend(path, n.right);
                return n.prefix;
            }
        };
    }

    private void descend(Deque<Node> path, Node from) { // refused: fault: it is called without the lock
        for (Node n = from; n != null; n = n.left) {
            path.push(n);
        }
    }

    private Node find(String prefix) {
        Node n = root;
        while (n != null && !n.prefix.equals(prefix)) {
            n = prefix.compareTo(n.prefix) < 0 ? n.left : n.right;
        }
        return n;
    }

    private R insert(String prefix, R route) {
        version++;
        Node parent = null;
        Node n = root;
        while (n != null) {
            int c = prefix.compareTo(n.prefix);
            if (c == 0) {
                R old = n.route;
                n.route = route;
                return old;
            }
            parent = n;
            n = c < 0 ? n.left : n.right;
        }
        Node added = new Node(prefix, route);
        if (parent == null) {
            root = added;
        } else if (prefix.compareTo(parent.prefix) < 0) {
            parent.left = added;
        } else {
            parent.right = added;
        }
        size++;
        return null;
    }
}
