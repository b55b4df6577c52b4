// A wrapper of java.util holds its lock at each call of the object in it, but for those that walk over it.
// judged with: --infer --patch-module java.base={folder}
import java.util.AbstractSet;
import java.util.Collections;
import java.util.Iterator;
import java.util.List;
import java.util.Set;

class Wrapped {
    private int[] items = new int[4];
    private int count;

    private class View extends AbstractSet<Integer> {
        /* atomic */ public int size() { // accepted
            return count;
        }

        /* atomic */ public boolean remove(Object wanted) { // accepted
            if (count == 0) {
                return false;
            }
            items[0] = items[count - 1];
            count--;
            return true;
        }

        /* atomic */ public Iterator<Integer> iterator() { // accepted: it only takes the lock
            synchronized (Wrapped.this) {
                return List.of(items[0], count).iterator();
            }
        }
    }

    Set<Integer> view() {
        return Collections.synchronizedSet(new View(), this);
    }

    /* atomic */ synchronized void add(int item) { // accepted
        items[count] = item;
        count++;
    }
}

class WrappedByAnother {
    private final Object other = new Object();
    private int count;
    private int removed;

    private class View extends AbstractSet<Integer> {
        public int size() {
            return count;
        }

        /* atomic */ public boolean remove(Object wanted) { // refused: the wrapper holds another lock
            count--;
            removed++;
            return true;
        }

        public Iterator<Integer> iterator() {
            return List.of(1).iterator();
        }
    }

    Set<Integer> view() {
        return Collections.synchronizedSet(new View(), other);
    }

    synchronized void add() {
        count++;
        removed--;
    }
}

class WrappedAndPlain {
    private int count;
    private int removed;

    private class View extends AbstractSet<Integer> {
        public int size() {
            return count;
        }

        /* atomic */ public boolean remove(Object wanted) { // refused: it is given out without the wrapper too
            count--;
            removed++;
            return true;
        }

        public Iterator<Integer> iterator() {
            return List.of(1).iterator();
        }
    }

    Set<Integer> view() {
        return Collections.synchronizedSet(new View(), this);
    }

    Set<Integer> plain() {
        return new View();
    }

    synchronized void add() {
        count++;
        removed--;
    }
}

class WrappedWalk {
    private int count;
    private int walks;

    private class View extends AbstractSet<Integer> {
        public int size() {
            return count;
        }

        /* atomic */ public Iterator<Integer> iterator() { // refused: a wrapper walks without its lock
            walks++;
            return List.of(count).iterator();
        }
    }

    Set<Integer> view() {
        return Collections.synchronizedSet(new View(), this);
    }

    synchronized void add() {
        count++;
        walks--;
    }
}
